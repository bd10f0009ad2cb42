//! Makes port listings and calls from a seed, and tallies what they met.

mod book;
mod calls;
mod carry_calls;
mod carry_cases;
mod carry_oracle;
mod columns;
mod draw;
mod faults;
mod match_oracle;
mod oracle;
mod packed_calls;
mod packed_oracle;
mod part;
mod paths;
mod random;
mod read_calls;
mod seen;
mod seen_carry;
mod seen_flags;
mod seen_lanes;
mod seen_match;
mod seen_packed;
mod seen_why;
mod seen_why_refused;
mod seen_wide;
mod seen_wrap;
mod sweep_carry;
mod sweep_detector;
mod sweep_edges;
mod sweep_lanes;
mod sweep_match;
mod sweep_match_text;
mod sweep_numbers;
mod sweep_refusals;
mod sweep_settings;
mod sweep_text;
mod sweep_wrap;
mod table;
mod tally;
mod tally_calls;
mod why_calls;
mod why_oracle;
mod wide_sums;
mod words;
mod wrap_calls;
mod wrap_oracle;

use std::io;
use std::path::Path;
use std::process::ExitCode;

use book::Book;
use random::Random;

const USAGE: &str = "usage: generate listings SEED COUNT DIRECTORY
       generate part SEED SHARE DIRECTORY ANSWERS
       generate tally DIRECTORY ANSWERS
       generate calls SEED COUNT
       generate tally-calls CALLS ANSWERS";

/// Writes the sweeps and then so many random listings.
fn listings(seed: u64, count: u64, directory: &Path) -> io::Result<()> {
    let mut random = Random::new(seed);
    // Draws what watches a slice, so that other listings are the same as without.
    let mut watches = Random::new(!seed);
    let mut book = Book::open(directory, seed)?;
    sweep_refusals::write(&mut book, &mut random)?;
    sweep_settings::write(&mut book, &mut random)?;
    sweep_numbers::write(&mut book)?;
    sweep_lanes::write(&mut book, &mut random)?;
    sweep_edges::write(&mut book, &mut random)?;
    sweep_detector::write(&mut book, &mut random)?;
    sweep_wrap::write(&mut book, &mut random)?;
    sweep_carry::write(&mut book, &mut random)?;
    wide_sums::write(&mut book, &mut random)?;
    sweep_text::write(&mut book, &mut random)?;
    sweep_match::write(&mut book, &mut watches)?;
    sweep_match_text::write(&mut book, &mut watches)?;
    let swept = book.count();
    columns::write(&mut book, &mut random, watches, count)?;
    println!("seed {seed}: {swept} listings swept, {count} random");
    book.close()
}

fn run(arguments: &[&str]) -> io::Result<bool> {
    let number = |text: &str| text.parse().map_err(|_| io::Error::new(io::ErrorKind::Other, USAGE));
    match arguments {
        ["listings", seed, count, directory] => {
            listings(number(seed)?, number(count)?, Path::new(directory)).map(|()| true)
        }
        ["part", seed, share, directory, answers] => {
            let (seed, share) = (number(seed)?, number(share)?);
            part::leave(Path::new(directory), Path::new(answers), seed, share).map(|()| true)
        }
        ["calls", seed, count] => {
            let mut out = io::BufWriter::new(io::stdout().lock());
            calls::write(&mut out, &mut Random::new(number(seed)?), number(count)?)?;
            io::Write::flush(&mut out).map(|()| true)
        }
        ["tally-calls", calls, answers] => tally_calls::tally(Path::new(calls), Path::new(answers)),
        ["tally", directory, answers] => tally::tally(Path::new(directory), Path::new(answers)),
        _ => Err(io::Error::new(io::ErrorKind::Other, USAGE)),
    }
}

fn main() -> ExitCode {
    let arguments: Vec<String> = std::env::args().skip(1).collect();
    let arguments: Vec<&str> = arguments.iter().map(String::as_str).collect();
    match run(&arguments) {
        Ok(true) => ExitCode::SUCCESS,
        Ok(false) => ExitCode::FAILURE,
        Err(error) => {
            eprintln!("{error}");
            ExitCode::from(2)
        }
    }
}
