//! Random columns, mostly legal, so that most clocks run.

use std::io;

use crate::book::{Book, Watch};
use crate::draw::{self, height, Growing};
use crate::faults::{all, meet, Fault};
use crate::match_oracle::open_ending;
use crate::oracle::attributes_refused;
use crate::random::Random;
use crate::wide_sums;
use crate::words::*;

/// Writes so many; what watches a slice is drawn apart.
pub fn write(book: &mut Book, random: &mut Random, apart: Random, count: u64) -> io::Result<()> {
    let faults = all();
    let end = book.count() + count;
    let mut watches = Watching { random: apart, end };
    while book.count() < end {
        match random.below(100) {
            0..=89 => watches.put(book, "random legal column", legal(random))?,
            90..=91 => book.column("random wide sums", &wide_sums::any(random))?,
            92..=97 => watches.put(book, "random column with a fault", faulty(random, &faults))?,
            _ => spoiled(book, random, &mut watches)?,
        }
    }
    Ok(())
}

/// Has some listings watch a slice (02, Ask 8); the others stay as they are drawn.
struct Watching {
    random: Random,
    /// How many listings there are to be.
    end: u64,
}

impl Watching {
    /// Writes a column, and has one in eight watch a slice; half of these are also written with
    /// nothing watched.
    fn put(&mut self, book: &mut Book, aim: &str, mut column: Column) -> io::Result<()> {
        if self.random.below(8) != 0 {
            return book.column(aim, &column);
        }
        let height = column.attributes.len() as u64;
        // Now and then one that it does not have.
        let slice = self.random.below(height) + height * u64::from(self.random.percent(3));
        let at = column.attributes.get_mut(slice as usize);
        let ending = match at {
            Some(at) => {
                self.more_matches(at);
                open_ending(&column)
            }
            None => "R 13 0 0".to_string(),
        };
        let watch = Watch { aim: format!("{aim} that watches"), slice, ending };
        if self.random.percent(50) && book.count() + 1 < self.end {
            book.watched_column(&column, &[watch])
        } else {
            book.watched_alone(&column, watch)
        }
    }

    /// Has a slice match more often, in some of the cases; a refused setting stays.
    fn more_matches(&mut self, at: &mut Attributes) {
        if self.random.percent(70) && !attributes_refused(at) {
            (at[at::PATTERN], at[at::MASK]) = draw::common_match(&mut self.random);
        }
    }

    /// Has one text in four watch one of its slices.
    fn text(&mut self, text: Vec<u8>, height: u64) -> Vec<u8> {
        match self.random.below(4) {
            0 => watching(&text, self.random.below(height)),
            _ => text,
        }
    }
}

/// As many clocks as keep the listing small.
fn legal(random: &mut Random) -> Column {
    let height = height(random);
    let mut growing = Growing::random(random, height);
    let most = (100 / height).clamp(4, 24);
    let clocks = random.within(1, most);
    growing.grow(random, clocks);
    growing.column
}

fn faulty(random: &mut Random, faults: &[Fault]) -> Column {
    let height = height(random);
    let fault = &faults[random.below(faults.len() as u64) as usize];
    let clock = random.within(1, 6);
    let slice = random.below(height) as usize;
    meet(random, height, clock, &[(fault, slice)])
}

/// A random listing with a few random bytes changed; how it ends is open.
fn spoiled(book: &mut Book, random: &mut Random, watches: &mut Watching) -> io::Result<()> {
    let height = random.within(1, 4);
    let mut growing = Growing::random(random, height);
    growing.grow(random, 3);
    let mut text = watches.text(growing.column.text(random), height);
    for _ in 0..random.within(1, 2) {
        let place = random.below(text.len() as u64) as usize;
        match random.below(4) {
            0 => text[place] = random.pick(b"\t\n\r \x000123456789NAP"),
            1 => text[place] = (random.word() & ones(8)) as u8,
            2 => text.insert(place, random.pick(b"\t\n0123456789")),
            _ => drop(text.remove(place)),
        }
    }
    book.text("random bytes changed", &text, "")
}
