//! Listings drawn by a small generator, the same ones in every run.
//!
//! Most lines are legal, so that a listing mostly runs for a while before anything refuses.

use crate::one_slice::{att, port};
use crate::played::line;

const ONES: u64 = (1 << 48) - 1;

/// OPMODE for any slice, and what PREG 1 and USE_MULT 1 allow as well.
const OPMODES: [u64; 10] = [0, 3, 8, 12, 16, 48, 51, 80, 256, 396];
const OPMODES_WITH_P: [u64; 6] = [2, 32, 35, 44, 96, 128];
const OPMODES_WITH_M: [u64; 3] = [5, 21, 53];

/// Port words that refuse a clock wherever they come into effect, from 5 up to 9.
const FAULTS: [(usize, u64); 5] = [
    (port::CARRYIN, 2),
    (port::INMODE, 13),
    (port::OPMODE, 64),
    (port::ALUMODE, 8),
    (port::CARRYINSEL, 6),
];

/// A stream of numbers that follows from its seed.
pub struct Draws(pub u64);

impl Draws {
    /// Any 64 bits (SplitMix64).
    fn any(&mut self) -> u64 {
        self.0 = self.0.wrapping_add(0x9E37_79B9_7F4A_7C15);
        let mixed = (self.0 ^ (self.0 >> 30)).wrapping_mul(0xBF58_476D_1CE4_E5B9);
        let mixed = (mixed ^ (mixed >> 27)).wrapping_mul(0x94D0_49BB_1331_11EB);
        mixed ^ (mixed >> 31)
    }

    pub fn below(&mut self, bound: u64) -> u64 {
        self.any() % bound
    }

    fn one_in(&mut self, many: u64) -> bool {
        self.below(many) == 0
    }

    fn of<T: Copy>(&mut self, choices: &[T]) -> T {
        choices[self.below(choices.len() as u64) as usize]
    }

    /// Mostly a small number, so that sums often come near a small pattern.
    fn number(&mut self, width: u32) -> u64 {
        let small = !self.one_in(4);
        self.below(1 << if small { 3 } else { width })
    }

    /// All that follows the `N` line, now and then cut or with a byte of it changed.
    pub fn body(&mut self, count: u64) -> Vec<u8> {
        let column: Vec<[u64; 22]> = (0..count).map(|_| self.attributes()).collect();
        let mut text: String = column.iter().map(|words| self.settings(words)).collect();
        for _ in 0..self.below(14) {
            for attributes in &column {
                text += &line('P', &self.ports(attributes));
            }
        }
        let mut bytes = text.into_bytes();
        let place = self.below(bytes.len() as u64) as usize;
        match self.below(6) {
            0 => bytes.truncate(place),
            1 => bytes[place] = self.of(b"\t\n0179AOPx"),
            _ => {}
        }
        bytes
    }

    /// The `A` line, which may leave out a last word of 0.
    fn settings(&mut self, words: &[u64; 22]) -> String {
        let short = words[att::USE_SIMD] == 0 && self.one_in(2);
        line('A', &words[..if short { 21 } else { 22 }])
    }

    fn attributes(&mut self) -> [u64; 22] {
        let mut words = [0; 22];
        let stages = [(0, 0), (0, 0), (1, 1), (2, 1), (2, 2)];
        (words[att::AREG], words[att::ACASCREG]) = self.of(&stages);
        (words[att::BREG], words[att::BCASCREG]) = self.of(&stages);
        for word in (att::A_INPUT..=att::AMULTSEL).filter(|word| *word != att::PREG) {
            words[word] = u64::from(self.one_in(3));
        }
        words[att::PREG] = self.below(2);
        words[att::RND] = self.number(48);
        words[att::PATTERN] = self.below(8);
        words[att::MASK] = self.of(&[0, ONES - 1, ONES - 7, ONES - 15, ONES - 255]);
        if words[att::USE_MULT] == 0 {
            words[att::USE_SIMD] = self.below(3);
        }
        if self.one_in(100) {
            words[self.below(22) as usize] = 3;
        }
        words
    }

    fn ports(&mut self, attributes: &[u64; 22]) -> [u64; 11] {
        let mut words = [0; 11];
        for (word, width) in [(port::A, 30), (port::B, 18), (port::C, 48), (port::D, 27)] {
            words[word] = self.number(width);
        }
        words[port::OPMODE] = self.opmode(attributes);
        words[port::ALUMODE] = self.of(&[0, 0, 0, 0, 1, 2, 3]);
        words[port::INMODE] = attributes[att::AMULTSEL] * self.of(&[0, 2, 4, 12]);
        words[port::CARRYINSEL] = self.of(&[0, 0, 1, 2, 3]);
        words[port::CARRYIN] = self.below(2);
        words[port::CE] = self.of(&[8191, 8191, 7935, 256]);
        if self.one_in(16) {
            words[port::RST] = self.below(1024);
        }
        if self.one_in(40) {
            let (word, value) = self.of(&FAULTS);
            words[word] = value;
        }
        words
    }

    fn opmode(&mut self, attributes: &[u64; 22]) -> u64 {
        match self.below(4) {
            0 if attributes[att::PREG] == 1 => self.of(&OPMODES_WITH_P),
            1 if attributes[att::USE_MULT] == 1 => self.of(&OPMODES_WITH_M),
            _ => self.of(&OPMODES),
        }
    }
}
