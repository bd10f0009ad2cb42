//! Where listings go: a directory of them, and a file of what to expect.

use std::fs::{self, File};
use std::io::{self, BufWriter, Write};
use std::path::{Path, PathBuf};

use crate::oracle::ending;
use crate::random::Random;
use crate::words::{watching, Column};

/// The name of the file of expectations.
pub const EXPECTED: &str = "expected";
/// The name of the directory of listings.
pub const LISTINGS: &str = "listings";

/// A slice that a listing is to watch (02, Ask 8), what for, and how the listing must end then.
pub struct Watch {
    pub aim: String,
    pub slice: u64,
    pub ending: String,
}

/// The aim of a listing that is also written with slices watched.
const WHOLE_RUN: &str = "whole run of a listing that watches";

/// A directory being filled.
pub struct Book {
    listings: PathBuf,
    expected: BufWriter<File>,
    count: u64,
    /// Decides the lengths of `A` lines, and nothing else.
    random: Random,
}

impl Book {
    pub fn open(directory: &Path, seed: u64) -> io::Result<Book> {
        let listings = directory.join(LISTINGS);
        fs::create_dir_all(&listings)?;
        let expected = BufWriter::new(File::create(directory.join(EXPECTED))?);
        Ok(Book { listings, expected, count: 0, random: Random::new(seed) })
    }

    pub fn count(&self) -> u64 {
        self.count
    }

    /// A well-formed listing; the oracle knows how it ends.
    pub fn column(&mut self, aim: &str, column: &Column) -> io::Result<()> {
        let text = column.text(&mut self.random);
        self.write("column", aim, &text, &ending(column), "").map(drop)
    }

    /// Text that may be no listing; an empty ending expects nothing certain.
    pub fn text(&mut self, aim: &str, text: &[u8], ending: &str) -> io::Result<()> {
        self.write("text", aim, text, ending, "").map(drop)
    }

    /// A well-formed listing, and the same once for each slice watched.
    pub fn watched_column(&mut self, column: &Column, watches: &[Watch]) -> io::Result<()> {
        let text = column.text(&mut self.random);
        let whole = self.write("column", WHOLE_RUN, &text, &ending(column), "")?;
        self.watched(&text, watches, &whole)
    }

    /// The same for text that may be no listing.
    pub fn watched_text(&mut self, text: &[u8], ending: &str, watches: &[Watch]) -> io::Result<()> {
        let whole = self.write("text", WHOLE_RUN, text, ending, "")?;
        self.watched(text, watches, &whole)
    }

    /// A well-formed listing that watches a slice, and is not written without that.
    pub fn watched_alone(&mut self, column: &Column, watch: Watch) -> io::Result<()> {
        let text = column.text(&mut self.random);
        self.watched(&text, &[watch], "")
    }

    fn watched(&mut self, text: &[u8], watches: &[Watch], whole: &str) -> io::Result<()> {
        for Watch { aim, slice, ending } in watches {
            self.write("watched", aim, &watching(text, *slice), ending, whole)?;
        }
        Ok(())
    }

    /// Writes a listing; `whole` names the one that is the same but watches nothing. Gives its name.
    fn write(
        &mut self,
        kind: &str,
        aim: &str,
        text: &[u8],
        ending: &str,
        whole: &str,
    ) -> io::Result<String> {
        let name = format!("{:06}", self.count);
        self.count += 1;
        fs::write(self.listings.join(&name), text)?;
        writeln!(self.expected, "{name}\t{kind}\t{aim}\t{ending}\t{whole}")?;
        Ok(name)
    }

    pub fn close(mut self) -> io::Result<()> {
        self.expected.flush()
    }
}
