//! Answers calls written as lines of text; the README gives the form.

use std::io::{self, BufRead, Write};
use std::str::{FromStr, SplitWhitespace};

use crate::alu::adder;
use crate::column::{clear, clock, LentClock};
use crate::packed::{clocked, plain, Triples};
use crate::refusal::returned;
use crate::why::{why, LentWhy};

/// Answers every line with one line.
pub fn answer_all(input: impl BufRead, mut output: impl Write) -> io::Result<()> {
    for line in input.lines() {
        match answer(&line?) {
            Some(reply) => writeln!(output, "{reply}")?,
            None => writeln!(output, "unreadable")?,
        }
    }
    output.flush()
}

/// The reply to one call, or nothing when the line is no call.
pub fn answer(line: &str) -> Option<String> {
    let mut fields = Fields(line.split_whitespace());
    let reply = match fields.0.next()? {
        "adder" => adder_call(&mut fields)?,
        "clock" => clock_call(&mut fields)?,
        "clear" => clear_call(&mut fields)?,
        "packed" => packed_call(&mut fields)?,
        "plain" => plain_call(&mut fields)?,
        "why" => why_call(&mut fields)?,
        _ => return None,
    };
    // A field too many means the lengths were miscounted.
    fields.0.next().is_none().then_some(reply)
}

/// The fields of a call not yet read.
struct Fields<'a>(SplitWhitespace<'a>);

impl Fields<'_> {
    fn one<T: FromStr>(&mut self) -> Option<T> {
        self.0.next()?.parse().ok()
    }

    /// A stretch: its length and then as many numbers.
    fn stretch<T: FromStr>(&mut self) -> Option<Vec<T>> {
        let length: usize = self.one()?;
        (0..length).map(|_| self.one()).collect()
    }
}

/// The reply under way: the returned word, then each stretch.
struct Reply(String);

impl Reply {
    fn new(word: u64) -> Reply {
        Reply(word.to_string())
    }

    fn stretch<T: ToString>(mut self, words: &[T]) -> Reply {
        self.0 += &format!(" {}", words.len());
        for word in words {
            self.0 += " ";
            self.0 += &word.to_string();
        }
        self
    }
}

fn adder_call(fields: &mut Fields) -> Option<String> {
    let [w, x, y, z, cin, alumode] = [(); 6].map(|()| fields.one());
    Some(Reply::new(adder(w?, x?, y?, z?, cin?, alumode?)).0)
}

fn clock_call(fields: &mut Fields) -> Option<String> {
    let count = fields.one()?;
    let attributes: Vec<u64> = fields.stretch()?;
    let mut registers: Vec<u64> = fields.stretch()?;
    let ports: Vec<u64> = fields.stretch()?;
    let mut outputs: Vec<u64> = fields.stretch()?;
    let lent = LentClock {
        attributes: &attributes,
        registers: &mut registers,
        ports: &ports,
        outputs: &mut outputs,
    };
    let word = returned(clock(count, lent).map(|()| 0));
    let reply = Reply::new(word).stretch(&attributes).stretch(&registers);
    Some(reply.stretch(&ports).stretch(&outputs).0)
}

fn clear_call(fields: &mut Fields) -> Option<String> {
    let count = fields.one()?;
    let mut registers: Vec<u64> = fields.stretch()?;
    let word = returned(clear(count, &mut registers).map(|()| 0));
    Some(Reply::new(word).stretch(&registers).0)
}

/// What both kinds of packed run are lent.
struct Packed {
    terms: u64,
    rows: u64,
    a: Vec<i8>,
    d: Vec<i8>,
    b: Vec<i8>,
    answers: Vec<i32>,
}

impl Packed {
    fn read(fields: &mut Fields) -> Option<Packed> {
        Some(Packed {
            terms: fields.one()?,
            rows: fields.one()?,
            a: fields.stretch()?,
            d: fields.stretch()?,
            b: fields.stretch()?,
            answers: fields.stretch()?,
        })
    }

    /// The triples, and apart from them the answers to be written.
    fn lend(&mut self) -> (Triples<'_>, &mut [i32]) {
        let Packed { terms, rows, a, d, b, answers } = self;
        (Triples { terms: *terms, rows: *rows, a, d, b }, answers)
    }

    fn reply(&self, word: u64) -> Reply {
        let reply = Reply::new(word).stretch(&self.a).stretch(&self.d);
        reply.stretch(&self.b).stretch(&self.answers)
    }
}

fn packed_call(fields: &mut Fields) -> Option<String> {
    let mut packed = Packed::read(fields)?;
    let mut list: Vec<u64> = fields.stretch()?;
    let (triples, answers) = packed.lend();
    let word = returned(clocked(triples, answers, &mut list));
    Some(packed.reply(word).stretch(&list).0)
}

fn plain_call(fields: &mut Fields) -> Option<String> {
    let mut packed = Packed::read(fields)?;
    let (triples, answers) = packed.lend();
    let word = returned(plain(triples, answers));
    Some(packed.reply(word).0)
}

fn why_call(fields: &mut Fields) -> Option<String> {
    let count = fields.one()?;
    let attributes: Vec<u64> = fields.stretch()?;
    let registers: Vec<u64> = fields.stretch()?;
    let ports: Vec<u64> = fields.stretch()?;
    let slice = fields.one()?;
    let mut words: Vec<u64> = fields.stretch()?;
    let lent =
        LentWhy { attributes: &attributes, registers: &registers, ports: &ports, why: &mut words };
    let word = returned(why(count, lent, slice).map(|()| 0));
    let reply = Reply::new(word).stretch(&attributes).stretch(&registers);
    Some(reply.stretch(&ports).stretch(&words).0)
}
