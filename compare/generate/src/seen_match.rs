//! The items that listings meet which watch a slice (02, Ask 8).

use crate::match_oracle::{accepted, decimal};
use crate::table::Table;
use crate::words::*;

/// How an answer may end; a match in clock 0 comes first, since PREG 1 does not have it.
const ENDINGS: [&str; 12] = [
    "M in clock 0",
    "M later",
    "M in the last clock",
    "E",
    "E 0",
    "R 3",
    "R 5",
    "R 6",
    "R 7",
    "R 8",
    "R 9",
    "R 12",
];
/// Where a watched slice stands in its column.
const PLACES: [&str; 4] = ["the only one", "the lowest", "in the middle", "the highest"];
/// What an `N` line is refused for once it is read.
const FIRST_LINES: [&str; 5] = [
    "R 1, slice below the count",
    "R 1 before 13",
    "R 13 at the count",
    "R 13 above it",
    "R 13 at 2^64-1",
];
/// What a clock can be refused for.
const REFUSALS: [u64; 6] = [5, 6, 7, 8, 9, 12];

/// A listing that watches a slice, of whose lines some may be malformed.
pub struct Watcher<'a> {
    count: u64,
    slice: u64,
    lines: Vec<&'a str>,
}

impl<'a> Watcher<'a> {
    pub fn of([count, slice]: [u64; 2], text: &'a str) -> Watcher<'a> {
        Watcher { count, slice, lines: text.lines().collect() }
    }

    /// Where its slice stands among all.
    fn place(&self) -> usize {
        match self.slice {
            _ if self.count == 1 => 0,
            0 => 1,
            slice if slice < self.count - 1 => 2,
            _ => 3,
        }
    }

    /// PREG of its slice, where that line has it.
    fn preg(&self) -> Option<usize> {
        let words: Vec<&str> = self.lines.get(1 + self.slice as usize)?.split('\t').collect();
        decimal(words.get(1 + at::PREG)?).filter(|preg| *preg < 2).map(|preg| preg as usize)
    }

    /// Whether the listing ends with this clock.
    fn ends_with(&self, clock: u64) -> bool {
        self.lines.len() as u64 == 1 + self.count * (2 + clock)
    }

    /// The item of how it ends.
    fn ending(&self, last: &str) -> Option<usize> {
        let label = match last.split(' ').collect::<Vec<_>>()[..] {
            ["M", "0"] => "M in clock 0",
            ["M", clock] if self.ends_with(decimal(clock)?) => "M in the last clock",
            ["M", _] => "M later",
            ["E", clocks] if clocks != "0" => "E",
            ["R", number, ..] => &last[..2 + number.len()],
            _ => last,
        };
        ENDINGS.iter().position(|ending| *ending == label)
    }
}

/// The groups of the table.
pub struct SeenMatches {
    place: [usize; 4],
    preg: [usize; 2],
    highest: usize,
    first_line: usize,
    at_count: usize,
    whole: usize,
    before: usize,
}

impl SeenMatches {
    pub fn new(table: &mut Table) -> SeenMatches {
        let of_preg = [&ENDINGS[..], &ENDINGS[1..]];
        SeenMatches {
            place: PLACES.map(|place| table.group(&format!("watched slice {place}"), ENDINGS)),
            preg: [0, 1]
                .map(|preg| table.group(&format!("watched slice with PREG {preg}"), of_preg[preg])),
            highest: table.group("match in the highest slice, by slices", 1..25),
            first_line: table.group("N line that watches", FIRST_LINES),
            at_count: table.group("refusal 13 at the count, by slices", 1..25),
            whole: table.group("watched slice, as its whole run has it", ENDINGS),
            before: table.group("match in the clock before a refusal", REFUSALS),
        }
    }

    /// Counts how a listing ends that watches a slice, and how the same does that watches nothing.
    /// Refused first lines are known to be refused for what they are.
    pub fn ends(&self, table: &mut Table, watcher: &Watcher, last: &str, whole: Option<&str>) {
        let Some(item) = watcher.ending(last) else {
            return self.first_line(table, watcher, last);
        };
        table.met(self.place[watcher.place()], item);
        if let Some(preg) = watcher.preg() {
            // PREG 1 has no first item, and such an answer meets none.
            let item = item.checked_sub(preg);
            item.into_iter().for_each(|item| table.met(self.preg[preg], item));
        }
        let highest = last.starts_with('M') && watcher.slice + 1 == watcher.count;
        table.met_if(self.highest, watcher.count as usize - 1, highest);
        if let Some(whole) = whole {
            table.met(self.whole, item);
            self.before(table, last, whole);
        }
    }

    /// Counts a match in the last clock that the whole run accepts, where it is refused then.
    fn before(&self, table: &mut Table, last: &str, whole: &str) {
        let number = whole.strip_prefix("R ").and_then(|rest| decimal(rest.split(' ').next()?));
        if last.starts_with('M') && accepted(last) == accepted(whole) {
            let item = REFUSALS.iter().position(|refusal| Some(*refusal) == number);
            item.into_iter().for_each(|item| table.met(self.before, item));
        }
    }

    /// Counts what a first line is refused for.
    fn first_line(&self, table: &mut Table, watcher: &Watcher, last: &str) {
        let Watcher { count, slice, .. } = *watcher;
        let item = match last {
            "R 1 0 0" => usize::from(slice >= count),
            "R 13 0 0" if slice == u64::MAX => 4,
            "R 13 0 0" => 2 + usize::from(slice > count),
            _ => return,
        };
        table.met(self.first_line, item);
        if FIRST_LINES[item] == "R 13 at the count" {
            table.met(self.at_count, count as usize - 1);
        }
    }
}
