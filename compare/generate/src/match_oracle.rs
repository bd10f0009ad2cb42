//! How a listing that watches a slice must end (02, Ask 8): by plain arithmetic where that slice
//! gives C alone, and by the answer to the same listing that watches nothing.

use crate::oracle::{self, loaded, Controls};
use crate::words::*;

/// The count and the slice of a listing that watches one; nothing where its `N` line is another.
pub fn watched(text: &str) -> Option<[u64; 2]> {
    let (first, _) = text.split_once('\n')?;
    let mut fields = first.split('\t');
    let tag = fields.next();
    let numbers: Vec<u64> = fields.map(decimal).collect::<Option<_>>()?;
    numbers.try_into().ok().filter(|_| tag == Some("N"))
}

/// A number as a listing may have it.
pub fn decimal(field: &str) -> Option<u64> {
    field.parse().ok().filter(|number: &u64| number.to_string() == field)
}

/// The clocks that were accepted, by how an answer ends.
pub fn accepted(ending: &str) -> Option<u64> {
    let mut parts = ending.split(' ');
    let tag = parts.next()?;
    let numbers: Vec<u64> = parts.map(|part| part.parse().ok()).collect::<Option<_>>()?;
    match (tag, &numbers[..]) {
        ("E", [clocks]) | ("R", [_, clocks, _]) => Some(*clocks),
        ("M", [clock]) => Some(clock + 1),
        _ => None,
    }
}

/// What stands before the ending of a whole run, where a match may come first.
const MATCH_OR: &str = "M or ";

/// The ending of a random column that watches a slice.
pub fn open_ending(column: &Column) -> String {
    MATCH_OR.to_string() + &oracle::ending(column)
}

/// Whether an answer may end so: the oracle left it open, or names it, or a match comes before.
pub fn allowed(oracle: &str, last: &str) -> bool {
    let Some(whole) = oracle.strip_prefix(MATCH_OR) else {
        return oracle.is_empty() || oracle == last;
    };
    last == whole || last.starts_with('M') && accepted(last) <= accepted(whole)
}

/// How a listing ends whose whole run ends so, and whose watched slice matches in this clock.
pub fn with_match(whole: &str, clock: Option<usize>) -> String {
    let run = accepted(whole).expect("a run ends");
    match clock.filter(|clock| (*clock as u64) < run) {
        Some(clock) => format!("M {clock}"),
        None => whole.to_string(),
    }
}

/// How a column ends that watches a slice which gives C alone.
pub fn ending(column: &Column, slice: usize) -> String {
    let whole = oracle::ending(column);
    let run = accepted(&whole).expect("a run ends") as usize;
    with_match(&whole, first_match(&column.attributes[slice], &column.clocks[..run], slice))
}

/// The first of these accepted clocks in which a slice shows PATTERNDETECT.
fn first_match(at: &Attributes, clocks: &[Vec<Ports>], slice: usize) -> Option<usize> {
    let (mut controls, mut held) = (Controls::default(), 0);
    clocks.iter().position(|ports| {
        let po = &ports[slice];
        let settled = u64::from(is_pattern(at, result(controls.in_effect(at, po), po)));
        let shown = if at[at::PREG] == 1 { held } else { settled };
        held = loaded(po, held, settled, CE_P, RST_P);
        controls = controls.after(po);
        shown == 1
    })
}

/// Whether all bits that are compared are the pattern's.
fn is_pattern(at: &Attributes, word: u64) -> bool {
    (word ^ at[at::PATTERN]) & (ones(48) ^ at[at::MASK]) == 0
}

/// What a unit gives that takes C alone, or nothing while its OPMODE is on the way.
fn result(controls: Controls, po: &Ports) -> u64 {
    match (controls.opmode, controls.alumode, controls.carryinsel, po[po::CARRYIN]) {
        (C_ALONE, 0, 0, 0) => po[po::C],
        (0, 0, 0, 0) => 0,
        other => panic!("a unit that is not followed: {other:?}"),
    }
}

/// The last line of an answer, its fields parted by blanks.
pub fn last_line(answer: &str) -> String {
    answer.lines().last().unwrap_or("").replace('\t', " ")
}

/// How a listing must end that watches a slice, by the answer to the same that watches nothing: with
/// the first match that it shows there, else with its last line.
fn of_whole_run(answer: &str, slice: u64) -> String {
    let slice = slice.to_string();
    // The tag, the clock and the slice stand before the outputs.
    let matches =
        |words: &[&str]| words[0] == "O" && words[2] == slice && words[3 + PATTERNDETECT] == "1";
    let mut lines = answer.lines().map(|line| line.split('\t').collect::<Vec<_>>());
    let first = lines.find(|words| matches(words));
    first.map_or_else(|| last_line(answer), |words| format!("M {}", words[1]))
}

/// Says what is wrong with an answer to a listing that watches a slice; `whole` is the answer to the
/// same that watches nothing.
pub fn check([count, slice]: [u64; 2], answer: &str, whole: Option<&str>) -> Result<(), String> {
    let must = match count {
        0 | 25.. => Some("R 1 0 0".to_string()),
        _ if slice >= count => Some("R 13 0 0".to_string()),
        _ => whole.map(|whole| of_whole_run(whole, slice)),
    };
    let last = last_line(answer);
    match must {
        _ if answer.find('\n') != answer.len().checked_sub(1) => {
            Err("it watches a slice, so its answer must be one line".into())
        }
        Some(must) if must != last => Err(format!("ends {last:?}, it must be {must:?}")),
        _ => Ok(()),
    }
}
