//! Leaves of many listings a part that meets every item all of them meet.

use std::collections::HashSet;
use std::fs;
use std::io;
use std::path::Path;

use crate::book::{EXPECTED, LISTINGS};
use crate::random::Random;
use crate::tally::{Expected, Tally};

/// Takes the listings in an order that the seed draws, and keeps each that meets an item first. Of
/// the others it keeps one in `share`, and removes the rest with a program's answers to them. One
/// that watches a slice is kept with the same that watches nothing.
pub fn leave(directory: &Path, answers: &Path, seed: u64, share: u64) -> io::Result<()> {
    let expected = fs::read_to_string(directory.join(EXPECTED))?;
    let mut random = Random::new(seed);
    let mut lines: Vec<&str> = expected.lines().collect();
    shuffle(&mut lines, &mut random);
    let mut tally = Tally::new();
    let (mut needed, mut drawn) = (0, 0);
    let mut kept = HashSet::new();
    for line in &lines {
        let before = tally.news();
        tally.line(directory, answers, line)?;
        if tally.news() > before {
            needed += 1;
        } else if random.below(share) == 0 {
            drawn += 1;
        } else {
            continue;
        }
        let Expected { name, whole, .. } = Expected::of(line);
        kept.extend([name, whole]);
    }
    let all = lines.len();
    lines.retain(|line| !kept.contains(Expected::of(line).name));
    for Expected { name, .. } in lines.iter().map(|line| Expected::of(line)) {
        fs::remove_file(directory.join(LISTINGS).join(name))?;
        fs::remove_file(answers.join(name))?;
    }
    let left = all - lines.len();
    let beside = left - needed - drawn;
    println!(
        "part: {left} of {all} listings; {needed} meet an item first, {drawn} drawn, {beside} beside them"
    );
    Ok(())
}

fn shuffle(lines: &mut [&str], random: &mut Random) {
    for end in (1..lines.len()).rev() {
        lines.swap(end, random.below(end as u64 + 1) as usize);
    }
}
