//! Sweeps: every refusal, by every cause, at every slice, in every order.

use std::io;

use crate::book::Book;
use crate::faults::{all, meet, Fault};
use crate::random::Random;

pub fn write(book: &mut Book, random: &mut Random) -> io::Result<()> {
    let faults = all();
    each_cause(book, random, &faults)?;
    each_pair(book, random, &faults)?;
    counts(book)
}

/// Each cause at each slice; the rarer causes of 8 at some of them.
fn each_cause(book: &mut Book, random: &mut Random, faults: &[Fault]) -> io::Result<()> {
    for (turn, fault) in faults.iter().enumerate() {
        let aim = format!("refusal {}: {}", fault.number, fault.label);
        let wide_sweep = fault.number != 8 || turn % 4 == 0;
        for slice in 0..24usize {
            if !wide_sweep && (slice + turn) % 6 != 0 {
                continue;
            }
            let height = if random.percent(25) {
                slice as u64 + 1
            } else {
                random.within(slice as u64 + 1, 24)
            };
            let clock =
                if fault.needs_clock_before() { random.within(1, 2) } else { random.below(2) };
            let column = with_others(random, height, clock, (fault, slice), faults);
            book.column(&aim, &column)?;
        }
    }
    Ok(())
}

/// One fault, and now and then others that must not be the ones reported.
fn with_others(
    random: &mut Random,
    height: u64,
    clock: u64,
    first: (&Fault, usize),
    faults: &[Fault],
) -> crate::words::Column {
    let mut met = vec![first];
    while random.percent(35) {
        let other = &faults[random.below(faults.len() as u64) as usize];
        let slice = random.below(height) as usize;
        let later = (other.number, slice) > (first.0.number, first.1);
        let fits = !other.needs_clock_before() || clock > 0;
        if later && fits && met.iter().all(|(_, taken)| *taken != slice) {
            met.push((other, slice));
        }
    }
    meet(random, height, clock, &met)
}

/// A lower number high up outranks a higher number at the bottom.
fn each_pair(book: &mut Book, random: &mut Random, faults: &[Fault]) -> io::Result<()> {
    for first in faults.iter().filter(|fault| !fault.needs_clock_before()) {
        for number in first.number..=9 {
            let rivals: Vec<&Fault> = faults
                .iter()
                .filter(|fault| fault.number == number && !fault.needs_clock_before())
                .collect();
            if rivals.is_empty() {
                continue;
            }
            let rival = random.pick(&rivals);
            let (low, high) = (random.below(12) as usize, random.within(12, 23) as usize);
            // The same number is reported where it is lowest.
            let (place, other) = if number == first.number { (low, high) } else { (high, low) };
            let column = meet(random, 24, 0, &[(first, place), (rival, other)]);
            book.column(&format!("{} before {number}", first.number), &column)?;
        }
    }
    Ok(())
}

/// Counts that no column has, and both that are just possible.
fn counts(book: &mut Book) -> io::Result<()> {
    let mut wrong: Vec<u64> = vec![0, 25, 26, 32, 48, 255, 256, 257, 280, 65536, 65537];
    wrong.extend([1 << 32, (1 << 32) + 1, 1 << 48, 1 << 63, (1 << 63) + 1, u64::MAX - 1, u64::MAX]);
    for count in wrong {
        let aim = format!("count {count}");
        book.text(&aim, format!("N\t{count}\n").as_bytes(), "R 1 0 0")?;
        // What follows is of no matter, and neither is that nothing ends it.
        book.text(&aim, format!("N\t{count}\nA\t0").as_bytes(), "R 1 0 0")?;
        book.text("count without its newline", format!("N\t{count}").as_bytes(), "R 12 0 1")?;
    }
    Ok(())
}
