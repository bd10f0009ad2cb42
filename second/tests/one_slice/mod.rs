//! The words of one slice by their names, and one accepted clock of a column of
//! one slice, by the call `clock`.

// No test file takes every name.
#![allow(dead_code)]

use second::calls::answer;

/// Attribute words.
pub mod att {
    pub const AREG: usize = 0;
    pub const BREG: usize = 1;
    pub const ACASCREG: usize = 2;
    pub const BCASCREG: usize = 3;
    pub const A_INPUT: usize = 4;
    pub const CREG: usize = 6;
    pub const DREG: usize = 7;
    pub const ADREG: usize = 8;
    pub const MREG: usize = 9;
    pub const PREG: usize = 10;
    pub const OPMODEREG: usize = 11;
    pub const ALUMODEREG: usize = 12;
    pub const INMODEREG: usize = 13;
    pub const CARRYINREG: usize = 14;
    pub const CARRYINSELREG: usize = 15;
    pub const USE_MULT: usize = 16;
    pub const AMULTSEL: usize = 17;
    pub const RND: usize = 18;
    pub const PATTERN: usize = 19;
    pub const MASK: usize = 20;
    pub const USE_SIMD: usize = 21;
}

/// Register words.
pub mod reg {
    pub const A1: usize = 0;
    pub const A2: usize = 1;
    pub const B2: usize = 3;
    pub const C: usize = 4;
    pub const D: usize = 5;
    pub const AD: usize = 6;
    pub const M: usize = 7;
    pub const P: usize = 8;
    pub const OPMODE: usize = 9;
    pub const ALUMODE: usize = 10;
    pub const INMODE: usize = 11;
    pub const CARRYINSEL: usize = 12;
    pub const CARRYIN: usize = 13;
    pub const CARRYOUT: usize = 18;
}

/// Port words.
pub mod port {
    pub const A: usize = 0;
    pub const B: usize = 1;
    pub const C: usize = 2;
    pub const D: usize = 3;
    pub const OPMODE: usize = 4;
    pub const ALUMODE: usize = 5;
    pub const INMODE: usize = 6;
    pub const CARRYINSEL: usize = 7;
    pub const CARRYIN: usize = 8;
    pub const CE: usize = 9;
    pub const RST: usize = 10;
}

/// The words of one slice.
#[derive(Clone, Copy)]
pub struct Slice {
    pub attributes: [u64; 22],
    pub registers: [u64; 19],
    pub ports: [u64; 11],
}

/// Words by their places, with the values they are set to.
pub type Set<'a> = &'a [(usize, u64)];

/// A slice of zeros but for the words set.
pub fn slice(attributes: Set, registers: Set, ports: Set) -> Slice {
    let mut slice = Slice { attributes: [0; 22], registers: [0; 19], ports: [0; 11] };
    attributes.iter().for_each(|&(word, value)| slice.attributes[word] = value);
    registers.iter().for_each(|&(word, value)| slice.registers[word] = value);
    ports.iter().for_each(|&(word, value)| slice.ports[word] = value);
    slice
}

impl Slice {
    /// The registers after the clock, and the outputs it showed.
    pub fn clocked(&self) -> ([u64; 19], [u64; 7]) {
        clocked(&self.attributes, &self.registers, &self.ports)
    }
}

/// Lent memory as a call writes it: each length, then as many words.
pub fn stretches(lent: &[&[u64]]) -> String {
    let fields = lent.iter().flat_map(|words| [&[words.len() as u64], *words].concat());
    let fields: Vec<String> = fields.map(|field| field.to_string()).collect();
    fields.join(" ")
}

/// The registers after the clock, and the outputs it showed.
pub fn clocked(
    attributes: &[u64; 22],
    registers: &[u64; 19],
    ports: &[u64; 11],
) -> ([u64; 19], [u64; 7]) {
    let lent = stretches(&[attributes, registers, ports, &[9; 7]]);
    let reply = answer(&format!("clock 1 {lent}")).unwrap();
    let reply: Vec<u64> = reply.split(' ').map(|field| field.parse().unwrap()).collect();
    assert_eq!((reply[0], reply[1], reply[24], reply[56]), (0, 22, 19, 7));
    (reply[25..44].try_into().unwrap(), reply[57..].try_into().unwrap())
}
