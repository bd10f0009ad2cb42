//! A call or an answer to one, read from its line.

use crate::oracle::Controls;
use crate::words::*;

/// The calls, and the form of each: `n` is a plain number, `s` a stretch of numbers.
pub const KINDS: [(&str, &str); 6] = [
    ("adder", "nnnnnn"),
    ("clock", "nssss"),
    ("clear", "ns"),
    ("packed", "nnsssss"),
    ("plain", "nnssss"),
    ("why", "nsssns"),
];
/// The runs among them, clocked and plain, and the last one.
pub const PACKED: usize = 3;
pub const PLAIN: usize = 4;
pub const WHY: usize = 5;

/// Plain numbers and stretches of numbers, each in their order.
pub struct Read {
    pub plain: Vec<i128>,
    pub stretches: Vec<Vec<i128>>,
}

impl Read {
    /// What the fields hold, if they are of the form and no more.
    fn of<'a>(fields: impl Iterator<Item = &'a str>, form: &str) -> Option<Read> {
        let mut numbers = fields.map(|field| field.parse::<i128>().ok());
        let mut read = Read { plain: Vec::new(), stretches: Vec::new() };
        for part in form.chars() {
            let first = numbers.next()??;
            match part {
                'n' => read.plain.push(first),
                _ => {
                    let words = (0..first).map(|_| numbers.next()?).collect::<Option<_>>()?;
                    read.stretches.push(words);
                }
            }
        }
        numbers.next().is_none().then_some(read)
    }

    /// A call, after its name.
    pub fn call<'a>(fields: impl Iterator<Item = &'a str>, kind: usize) -> Option<Read> {
        Read::of(fields, KINDS[kind].1)
    }

    /// An answer: what is returned, and every stretch of the call.
    pub fn answer(line: &str, kind: usize) -> Option<Read> {
        let stretches = KINDS[kind].1.replace('n', "");
        Read::of(line.split(' '), &format!("n{stretches}"))
    }

    /// The lengths a call asks for, when its counts are right.
    pub fn right_lengths(&self, kind: usize) -> Vec<i128> {
        let first = self.plain[0];
        match kind {
            1 => [22, REGISTER_WORDS, 11, OUTPUT_WORDS].map(|words| words as i128 * first).to_vec(),
            2 => vec![REGISTER_WORDS as i128 * first],
            WHY => vec![22 * first, REGISTER_WORDS as i128 * first, 11 * first, WHY_WORDS as i128],
            _ => {
                let rows = self.plain[1];
                let mut lengths = vec![rows * first; 3];
                lengths.extend([2 * rows, rows + first + 3]);
                lengths.truncate(if kind == PACKED { 5 } else { 4 });
                lengths
            }
        }
    }

    /// The stretches whose length is another one.
    pub fn lengths_wrong(&self, kind: usize) -> Vec<usize> {
        let right = self.right_lengths(kind);
        let wrong = |which: &usize| self.stretches[*which].len() as i128 != right[*which];
        (0..right.len()).filter(wrong).collect()
    }
}

/// The words of a clock or a why, slice by slice, once the lengths are right.
pub struct Slices {
    pub attributes: Vec<Attributes>,
    pub registers: Vec<Registers>,
    pub ports: Vec<Ports>,
}

impl Slices {
    pub fn of(call: &Read) -> Slices {
        Slices {
            attributes: records(&call.stretches[0]),
            registers: records(&call.stretches[1]),
            ports: records(&call.stretches[2]),
        }
    }

    /// The controls in effect in a slice.
    pub fn controls(&self, slice: usize) -> Controls {
        let held = Controls::of_registers(&self.registers[slice]);
        held.in_effect(&self.attributes[slice], &self.ports[slice])
    }
}

/// So many words each, one record after the other.
pub fn records<const COUNT: usize>(words: &[i128]) -> Vec<[u64; COUNT]> {
    words.chunks(COUNT).map(|record| std::array::from_fn(|i| record[i] as u64)).collect()
}
