//! Plays a port listing: reads lines, clocks a column, prints what it shows,
//! or only the first clock in which a chosen slice matches (02, Ask 8).

use std::io::{self, BufRead, Write};

use crate::attributes::Attributes;
use crate::column::{height, read_attributes, slice_within, Column};
use crate::lines::{numbers, Counts, Lines, Next};
use crate::ports::Ports;
use crate::refusal::{Reason, Refusal};
use crate::slice::Outputs;

/// What is wanted of the clocks.
enum Wanted {
    /// All that is shown in each of them.
    Outputs,
    /// The first in which this slice shows PATTERNDETECT.
    Match { slice: usize },
}

/// How an accepted listing's play ends.
enum End {
    /// All of the listing was played.
    Whole,
    /// The chosen slice matched in this clock.
    Match { clock: u64 },
}

/// How a listing's play can break off.
enum Stop {
    Refused(Refusal),
    Failed(io::Error),
}

impl From<Refusal> for Stop {
    fn from(refusal: Refusal) -> Self {
        Stop::Refused(refusal)
    }
}

impl From<io::Error> for Stop {
    fn from(error: io::Error) -> Self {
        Stop::Failed(error)
    }
}

/// A play under way.
struct Play<R, W> {
    lines: Lines<R>,
    printed: W,
    /// Lines asked for so far, so also the number of the current one.
    line: u64,
    clocks: u64,
}

/// Plays one listing; an error means that a read or a write failed.
pub fn play(input: impl BufRead, output: impl Write) -> io::Result<()> {
    let mut play = Play { lines: Lines::new(input), printed: output, line: 0, clocks: 0 };
    let outcome = play.run();
    let clocks = play.clocks;
    match outcome {
        Ok(End::Whole) => writeln!(play.printed, "E\t{clocks}")?,
        Ok(End::Match { clock }) => writeln!(play.printed, "M\t{clock}")?,
        Err(Stop::Refused(Refusal { reason, place })) => {
            writeln!(play.printed, "R\t{}\t{clocks}\t{place}", reason as u64)?
        }
        Err(Stop::Failed(error)) => {
            // What was shown before the failure stays shown.
            play.printed.flush()?;
            return Err(error);
        }
    }
    play.printed.flush()
}

impl<R: BufRead, W: Write> Play<R, W> {
    fn run(&mut self) -> Result<End, Stop> {
        let (height, wanted) = self.heading()?;
        let settings = self.group(b'A', &Attributes::LISTED, height)?;
        let mut column = Column::cleared(read_attributes(&settings)?);
        while let Some(mut words) = self.line(b'P', &Ports::LISTED)? {
            words.extend(self.group(b'P', &Ports::LISTED, height - 1)?);
            // A refused clock shows nothing, so it never matches.
            let shown = column.clock_words(&words)?;
            if let Some(end) = self.take(&wanted, &shown)? {
                return Ok(end);
            }
            self.clocks += 1;
        }
        Ok(End::Whole)
    }

    /// The column's height, and what is wanted of its clocks.
    fn heading(&mut self) -> Result<(usize, Wanted), Stop> {
        let numbers = self.due(b'N', &(1..=2))?;
        let height = height(numbers[0])?;
        let wanted = match numbers.get(1) {
            None => Wanted::Outputs,
            Some(slice) => Wanted::Match { slice: slice_within(height, *slice)? },
        };
        Ok((height, wanted))
    }

    /// The next line's numbers, or nothing at the end of the input.
    fn line(&mut self, tag: u8, counts: &Counts) -> Result<Option<Vec<u64>>, Stop> {
        self.line += 1;
        let read = match self.lines.next_line()? {
            Next::End => return Ok(None),
            Next::Broken => None,
            Next::Line(line) => numbers(&line, tag, counts),
        };
        read.map(Some).ok_or_else(|| self.malformed())
    }

    /// The next line's numbers, which must be there.
    fn due(&mut self, tag: u8, counts: &Counts) -> Result<Vec<u64>, Stop> {
        self.line(tag, counts)?.ok_or_else(|| self.malformed())
    }

    /// The numbers of several lines of one kind; those a line leaves out are 0.
    fn group(&mut self, tag: u8, counts: &Counts, lines: usize) -> Result<Vec<u64>, Stop> {
        let mut words = Vec::with_capacity(counts.end() * lines);
        for line in 1..=lines {
            words.extend(self.due(tag, counts)?);
            words.resize(counts.end() * line, 0);
        }
        Ok(words)
    }

    fn malformed(&self) -> Stop {
        Stop::Refused(Refusal::at(Reason::Line, self.line))
    }

    /// Takes what is wanted of an accepted clock, with which the play may end.
    fn take(&mut self, wanted: &Wanted, shown: &[Outputs]) -> io::Result<Option<End>> {
        match *wanted {
            Wanted::Outputs => self.print(shown).map(|()| None),
            Wanted::Match { slice } => {
                Ok(shown[slice].pd.then_some(End::Match { clock: self.clocks }))
            }
        }
    }

    fn print(&mut self, shown: &[Outputs]) -> io::Result<()> {
        for (slice, outputs) in shown.iter().enumerate() {
            write!(self.printed, "O\t{}\t{slice}", self.clocks)?;
            for word in outputs.words() {
                write!(self.printed, "\t{word}")?;
            }
            writeln!(self.printed)?;
        }
        Ok(())
    }
}
