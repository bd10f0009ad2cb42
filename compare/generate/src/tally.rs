//! Reads listings with their answers and counts what they met.

use std::collections::HashMap;
use std::fs;
use std::io;
use std::path::Path;

use crate::book::{EXPECTED, LISTINGS};
use crate::match_oracle::{accepted, allowed, check, last_line, watched};
use crate::oracle::Controls;
use crate::seen::Seen;
use crate::seen_lanes::{cause, CAUSES};
use crate::seen_match::{SeenMatches, Watcher};
use crate::table::Table;
use crate::words::*;

/// A tally under way.
pub struct Tally {
    table: Table,
    seen: Seen,
    matches: SeenMatches,
    endings: usize,
    by_slice: HashMap<u64, usize>,
    by_line: usize,
    by_cause: [usize; 3],
    a_line: usize,
    a_lines: usize,
    aims: usize,
    aim_items: HashMap<String, usize>,
    listings: u64,
    clocks: u64,
    slice_clocks: u64,
    unexpected: u64,
    wrong_outputs: u64,
    wrong_matches: u64,
}

/// Refusals that a slice is to blame for.
const AT_SLICES: [u64; 6] = [3, 5, 6, 7, 8, 9];

/// Prints the tally of a directory and tells whether all is met.
pub fn tally(directory: &Path, answers: &Path) -> io::Result<bool> {
    let mut tally = Tally::new();
    for line in fs::read_to_string(directory.join(EXPECTED))?.lines() {
        tally.line(directory, answers, line)?;
    }
    let unmet = tally.table.print();
    println!("listings: {}", tally.listings);
    println!("clocks: {}", tally.clocks);
    println!("slice-clocks: {}", tally.slice_clocks);
    println!("endings other than the oracle's: {}", tally.unexpected);
    println!(
        "listings with another PREADDWRAP, carry or wide sum than the oracle's: {}",
        tally.wrong_outputs
    );
    println!("answers to listings that watch, other than they must be: {}", tally.wrong_matches);
    Ok(unmet == 0 && tally.wrong() == 0)
}

/// What a line of expectations says of a listing.
pub struct Expected<'a> {
    pub name: &'a str,
    kind: &'a str,
    aim: &'a str,
    ending: &'a str,
    /// The listing that is the same but watches nothing, if there is one.
    pub whole: &'a str,
}

impl<'a> Expected<'a> {
    pub fn of(line: &'a str) -> Expected<'a> {
        let fields: Vec<&str> = line.split('\t').collect();
        let [name, kind, aim, ending, whole] = fields.try_into().expect("five fields");
        Expected { name, kind, aim, ending, whole }
    }
}

impl Tally {
    pub fn new() -> Tally {
        let mut table = Table::default();
        let endings = table.group(
            "endings",
            ["E", "E 0", "R 1", "R 3", "R 5", "R 6", "R 7", "R 8", "R 9", "R 12"],
        );
        let by_slice = AT_SLICES
            .map(|number| (number, table.group(&format!("refusal {number} at slice"), 0..24)))
            .into();
        let by_line = table.group("refusal 12 at line", (1..=10).map(|line| line.to_string()));
        let by_cause =
            CAUSES.map(|cause| table.group(&format!("refusal 3 by {cause}, at slice"), 0..24));
        let a_line = table.group("A lines that ran, by numbers", [21, 22]);
        let a_lines = table.group("A lines of a column that ran", ["21 alone", "22 alone", "both"]);
        let seen = Seen::new(&mut table);
        let matches = SeenMatches::new(&mut table);
        let aims = table.group("aims met", [] as [&str; 0]);
        Tally {
            table,
            seen,
            matches,
            endings,
            by_slice,
            by_line,
            by_cause,
            a_line,
            a_lines,
            aims,
            aim_items: HashMap::new(),
            listings: 0,
            clocks: 0,
            slice_clocks: 0,
            unexpected: 0,
            wrong_outputs: 0,
            wrong_matches: 0,
        }
    }

    /// Counts what a line of expectations names. A listing that a part leaves out is not there; its
    /// aim has to be met by another one all the same.
    pub fn line(&mut self, directory: &Path, answers: &Path, line: &str) -> io::Result<()> {
        let expected = Expected::of(line);
        self.aim(expected.aim);
        let path = directory.join(LISTINGS).join(expected.name);
        let answer = |name: &str| fs::read(answers.join(name)).map(text_of);
        if path.exists() {
            let whole = match expected.whole {
                "" => None,
                name => Some(answer(name)?),
            };
            let listing = text_of(fs::read(path)?);
            self.listing(&expected, &listing, &answer(expected.name)?, whole.as_deref());
        }
        Ok(())
    }

    /// The item of an aim.
    fn aim(&mut self, aim: &str) -> usize {
        let (table, aims) = (&mut self.table, self.aims);
        *self.aim_items.entry(aim.to_string()).or_insert_with(|| table.item(aims, aim))
    }

    /// Rises with each item that is met first, and with each listing that the oracle disagrees with.
    pub fn news(&self) -> u64 {
        self.table.items_met() as u64 + self.wrong()
    }

    fn wrong(&self) -> u64 {
        self.unexpected + self.wrong_outputs + self.wrong_matches
    }

    fn listing(&mut self, expected: &Expected, text: &str, answer: &str, whole: Option<&str>) {
        let Expected { name, kind, aim, ending, .. } = *expected;
        self.listings += 1;
        let last = last_line(answer);
        let clocks = match watched(text) {
            Some(watch) => self.watched(name, (watch, text), answer, whole),
            None => self.ending(&last),
        };
        let Some(clocks) = clocks else {
            println!("listing {name}: the answer has no end: {last:?}");
            self.unexpected += 1;
            return;
        };
        if allowed(ending, &last) {
            let item = self.aim(aim);
            self.table.met(self.aims, item);
        } else {
            println!("listing {name} ({aim}): ends {last:?}, the oracle says {ending:?}");
            self.unexpected += 1;
        }
        let shown = answer.lines().filter(|line| line.starts_with('O')).count() as u64;
        self.clocks += clocks;
        self.slice_clocks += shown;
        if kind == "column" && clocks > 0 {
            self.column(name, text, answer, clocks as usize);
        }
        if let ("column", Some(slice)) = (kind, last.strip_prefix("R 3 0 ")) {
            self.attribute(&settings(text), slice.parse().unwrap());
        }
    }

    /// Counts how an answer ends to a listing that watches a slice. Holds it against the answer to
    /// the same that watches nothing, if there is one, and gives the clocks that were accepted.
    fn watched(
        &mut self,
        name: &str,
        (watch, text): ([u64; 2], &str),
        answer: &str,
        whole: Option<&str>,
    ) -> Option<u64> {
        let (last, whole_last) = (last_line(answer), whole.map(last_line));
        match check(watch, answer, whole) {
            Ok(()) => {
                let watcher = Watcher::of(watch, text);
                self.matches.ends(&mut self.table, &watcher, &last, whole_last.as_deref());
            }
            Err(why) => {
                println!("listing {name}: {why}");
                self.wrong_matches += 1;
            }
        }
        accepted(&last)
    }

    /// Counts how an answer ends and gives the clocks it says were run.
    fn ending(&mut self, last: &str) -> Option<u64> {
        let mut parts = last.split(' ');
        let tag = parts.next()?;
        let numbers: Vec<u64> = parts.map(|part| part.parse().ok()).collect::<Option<_>>()?;
        match (tag, &numbers[..]) {
            ("E", [clocks]) => {
                self.table.met(self.endings, usize::from(*clocks == 0));
                Some(*clocks)
            }
            ("R", [number, clocks, place]) => {
                let item = self.table.item(self.endings, &format!("R {number}"));
                self.table.met(self.endings, item);
                if let Some(group) = self.by_slice.get(number) {
                    self.table.met(*group, *place as usize);
                }
                if *number == 12 && (1..=10).contains(place) {
                    self.table.met(self.by_line, *place as usize - 1);
                }
                Some(*clocks)
            }
            _ => None,
        }
    }

    /// Counts a refused attribute where USE_SIMD alone is to blame.
    fn attribute(&mut self, attributes: &[Attributes], slice: usize) {
        if let Some(item) = cause(&attributes[slice]) {
            self.table.met(self.by_cause[item], slice);
        }
    }

    /// Counts the lengths of the `A` lines.
    fn lengths(&mut self, text: &str) {
        let lengths: Vec<usize> = numbers(text, 'A').map(|numbers| numbers.len()).collect();
        let long = lengths.iter().filter(|numbers| **numbers > SHORT_A_LINE).count();
        lengths.iter().for_each(|numbers| self.table.met(self.a_line, numbers - SHORT_A_LINE));
        let item = match long {
            0 => 0,
            all if all == lengths.len() => 1,
            _ => 2,
        };
        self.table.met(self.a_lines, item);
    }

    /// Counts what the accepted clocks of a well-formed listing met.
    fn column(&mut self, name: &str, text: &str, answer: &str, clocks: usize) {
        let attributes = settings(text);
        let ports: Vec<Ports> = words(text, 'P');
        self.lengths(text);
        let mut held = vec![Controls::default(); attributes.len()];
        self.seen.column(&mut self.table, &attributes);
        for ports in ports.chunks(attributes.len()).take(clocks) {
            self.seen.clock(&mut self.table, &attributes, &held, ports);
            held.iter_mut().zip(ports).for_each(|(controls, po)| *controls = controls.after(po));
        }
        let shown: Vec<[u64; 2 + OUTPUT_WORDS]> = words(answer, 'O');
        let shown: Vec<Outputs> = shown.into_iter().map(|[_, _, outputs @ ..]| outputs).collect();
        if let Err(why) = self.seen.shown(&mut self.table, &attributes, &ports, &shown) {
            println!("listing {name}: {why}");
            self.wrong_outputs += 1;
        }
    }
}

/// Bytes as text, whatever they are.
fn text_of(bytes: Vec<u8>) -> String {
    String::from_utf8_lossy(&bytes).into_owned()
}

/// The numbers of each line of one tag.
fn numbers(text: &str, tag: char) -> impl Iterator<Item = Vec<u64>> + '_ {
    let lines = text.lines().filter(move |line| line.starts_with(tag));
    lines.map(|line| line.split('\t').skip(1).map(|word| word.parse().unwrap()).collect())
}

/// The numbers of all lines of one tag that has but one count of them.
fn words<const COUNT: usize>(text: &str, tag: char) -> Vec<[u64; COUNT]> {
    numbers(text, tag).map(|numbers| numbers.try_into().unwrap()).collect()
}

/// The settings of all slices; a short line leaves the last one 0.
fn settings(text: &str) -> Vec<Attributes> {
    let mut all = vec![[0; 22]; numbers(text, 'A').count()];
    for (at, numbers) in all.iter_mut().zip(numbers(text, 'A')) {
        at[..numbers.len()].copy_from_slice(&numbers);
    }
    all
}
