//! The items that refused calls of why meet (02, Ask 3).

use std::cmp::Ordering;

use crate::oracle::deserved;
use crate::read_calls::{Read, Slices, WHY};
use crate::table::Table;
use crate::words::*;

/// The groups of the table.
pub struct SeenRefused {
    cleared: usize,
    left: usize,
    count: usize,
    length: usize,
    length_before_13: usize,
    length_before: usize,
    above: usize,
    above_before: usize,
    place: usize,
    before: usize,
    lowest: usize,
}

const STRETCHES: [&str; 4] = ["attributes", "registers", "ports", "why"];
/// Wrong lengths of the answer's words that have to be met.
const WHY_LENGTHS: [usize; 3] = [0, WHY_WORDS - 1, WHY_WORDS + 1];
const COUNTS: [&str; 4] =
    ["lengths right", "before 2 by why alone", "before 2 by others", "before 13"];
const SLICES: [&str; 4] = ["the count", "the count + 1", "2^32 and above", "2^64 - 1"];
const PLACES: [&str; 3] = ["at the asked slice", "below it", "above it"];

/// The numbers that a slice may deserve, and each with each later one.
const NUMBERS: std::ops::RangeInclusive<u64> = 3..=9;
fn pairs() -> Vec<(u64, u64)> {
    NUMBERS.flat_map(|first| (first + 1..=9).map(move |later| (first, later))).collect()
}

/// The item of one of these numbers.
fn item(number: u64) -> usize {
    number as usize - 3
}

impl SeenRefused {
    pub fn new(table: &mut Table) -> SeenRefused {
        let zeroed = (1..=9).chain([13]);
        let left = |number| WHY_LENGTHS.map(|words| format!("{number} with {words} words"));
        let lengths = STRETCHES[..3]
            .iter()
            .flat_map(|name| ["short", "long"].map(|how| format!("{name} too {how}")));
        let whys = WHY_LENGTHS.map(|words| format!("why of {words} words"));
        let places = |number| PLACES.map(|place| format!("{number} {place}"));
        SeenRefused {
            cleared: table.group("why refused with zeros", zeroed),
            left: table.group("why refused and left as it was", [1, 2].into_iter().flat_map(left)),
            count: table.group("why refusal 1", COUNTS),
            length: table.group("why refusal 2 by", lengths.chain(whys)),
            length_before_13: table.group("why refusal 2 before 13, by", STRETCHES),
            length_before: table.group("why refusal 2 by why alone, before", NUMBERS),
            above: table.group("why refusal 13 of slice", SLICES),
            above_before: table.group("why refusal 13 before", NUMBERS),
            place: table.group("why refusal", NUMBERS.flat_map(places)),
            before: table.group(
                "why refusal before a later one lower down",
                pairs().into_iter().map(|(first, later)| format!("{first} before {later}")),
            ),
            lowest: table.group("why refusal at the lower of two slices", NUMBERS),
        }
    }

    /// Checks that the answer's words are zeros, or as they were where their length is wrong, and
    /// counts the refusal.
    pub fn call(
        &self,
        table: &mut Table,
        call: &Read,
        answer: &Read,
        number: i128,
        place: i128,
    ) -> Result<(), String> {
        let (before, after) = (&call.stretches[3], &answer.stretches[3]);
        let right = match before.len() {
            WHY_WORDS => vec![0; WHY_WORDS],
            _ => before.clone(),
        };
        if *after != right {
            return Err(format!("why is refused and has {after:?}"));
        }
        self.words(table, number, before);
        match number {
            1 => self.wrong_count(table, call),
            2 => self.wrong_length(table, call),
            13 => self.slice_above(table, call),
            _ => self.column(table, call, number as u64, place as usize),
        }
        Ok(())
    }

    /// Counts words that were overwritten or left; zeros that were there before show nothing.
    fn words(&self, table: &mut Table, number: i128, before: &[i128]) {
        if before.len() == WHY_WORDS {
            let item = if number == 13 { 9 } else { number as usize - 1 };
            table.met_if(self.cleared, item, before.iter().any(|word| *word != 0));
        } else if let Some(item) = WHY_LENGTHS.iter().position(|words| *words == before.len()) {
            table.met(self.left, (number as usize - 1) * 3 + item);
        }
    }

    fn wrong_count(&self, table: &mut Table, call: &Read) {
        let item = match call.lengths_wrong(WHY)[..] {
            [] => 0,
            [3] => 1,
            _ => 2,
        };
        table.met(self.count, item);
        table.met_if(self.count, 3, call.plain[1] >= call.plain[0]);
    }

    /// Counts a length that is wrong alone, and what it comes before.
    fn wrong_length(&self, table: &mut Table, call: &Read) {
        let [which] = call.lengths_wrong(WHY)[..] else { return };
        let words = call.stretches[which].len();
        let above = call.plain[1] >= call.plain[0];
        table.met_if(self.length_before_13, which, above);
        if which < 3 {
            let right = call.right_lengths(WHY)[which];
            table.met(self.length, which * 2 + usize::from(words as i128 > right));
            return;
        }
        if let Some(item) = WHY_LENGTHS.iter().position(|length| *length == words) {
            table.met(self.length, 6 + item);
        }
        for number in all_deserved(&Slices::of(call)).concat() {
            table.met_if(self.length_before, item(number), !above);
        }
    }

    fn slice_above(&self, table: &mut Table, call: &Read) {
        let (count, slice) = (call.plain[0], call.plain[1]);
        let known = [slice == count, slice == count + 1, slice >> 32 > 0, slice == u64::MAX.into()];
        for (item, met) in known.into_iter().enumerate() {
            table.met_if(self.above, item, met);
        }
        for number in all_deserved(&Slices::of(call)).concat() {
            table.met(self.above_before, item(number));
        }
    }

    /// Counts a number that a slice is to blame for, and what others deserved.
    fn column(&self, table: &mut Table, call: &Read, number: u64, slice: usize) {
        let side = match slice.cmp(&(call.plain[1] as usize)) {
            Ordering::Equal => 0,
            Ordering::Less => 1,
            Ordering::Greater => 2,
        };
        table.met(self.place, item(number) * 3 + side);
        let deserved = all_deserved(&Slices::of(call));
        let lower = deserved[..slice].concat();
        for (item, (first, later)) in pairs().into_iter().enumerate() {
            table.met_if(self.before, item, first == number && lower.contains(&later));
        }
        let again = deserved[slice + 1..].concat().contains(&number);
        table.met_if(self.lowest, item(number), again);
    }
}

/// The numbers that each slice deserves.
fn all_deserved(slices: &Slices) -> Vec<Vec<u64>> {
    let Slices { attributes, registers, ports } = slices;
    (0..ports.len()).map(|k| deserved(&attributes[k], &registers[k], &ports[k])).collect()
}
