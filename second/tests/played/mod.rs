//! The lines of a listing, and what it prints.

// No test file takes every name.
#![allow(dead_code)]

use std::io::{BufRead, BufReader, Read};

pub fn played(listing: impl AsRef<[u8]>) -> String {
    play(listing.as_ref())
}

/// The same, when what lies past the listing's bytes must stay unread, its end as well.
pub fn played_unread(listing: impl AsRef<[u8]>) -> String {
    play(BufReader::new(Fenced(listing.as_ref())))
}

/// A line of a listing.
pub fn line(tag: char, words: &[u64]) -> String {
    let fields: Vec<String> = words.iter().map(|word| format!("\t{word}")).collect();
    format!("{tag}{}\n", fields.concat())
}

fn play(listing: impl BufRead) -> String {
    let mut printed = Vec::new();
    second::listing::play(listing, &mut printed).unwrap();
    String::from_utf8(printed).unwrap()
}

/// A stream that must not be read past its given bytes.
struct Fenced<'a>(&'a [u8]);

impl Read for Fenced<'_> {
    fn read(&mut self, buffer: &mut [u8]) -> std::io::Result<usize> {
        assert!(!self.0.is_empty(), "read past the byte that decides");
        self.0.read(buffer)
    }
}
