//! `second play` plays a port listing, `second calls` answers calls.

use std::io::{self, BufReader, BufWriter};
use std::process::ExitCode;

use second::{calls, listing};

fn main() -> ExitCode {
    let input = BufReader::with_capacity(1 << 16, io::stdin().lock());
    let output = BufWriter::with_capacity(1 << 16, io::stdout().lock());
    let mut arguments = std::env::args().skip(1);
    let outcome = match (arguments.next().as_deref(), arguments.next()) {
        (Some("play"), None) => listing::play(input, output),
        (Some("calls"), None) => calls::answer_all(input, output),
        _ => {
            eprintln!("usage: second play | second calls");
            return ExitCode::from(2);
        }
    };
    match outcome {
        Ok(()) => ExitCode::SUCCESS,
        Err(error) => {
            eprintln!("second: {error}");
            ExitCode::FAILURE
        }
    }
}
