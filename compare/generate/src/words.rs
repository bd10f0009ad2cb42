//! Which word of a record is which, and how wide.

use crate::random::Random;

pub type Attributes = [u64; 22];
pub type Registers = [u64; REGISTER_WORDS];
pub type Ports = [u64; 11];
pub type Outputs = [u64; OUTPUT_WORDS];
pub const REGISTER_WORDS: usize = 19;
pub const OUTPUT_WORDS: usize = 7;
/// The place of PATTERNDETECT, and those of the pre-adder's mark and of the carry, the last outputs.
pub const PATTERNDETECT: usize = 1;
pub const PREADDWRAP: usize = 5;
pub const CARRY: usize = 6;

/// The slices of a full column.
pub const FULL: usize = 24;

/// Places of the attributes.
pub mod at {
    pub const AREG: usize = 0;
    pub const BREG: usize = 1;
    pub const ACASCREG: usize = 2;
    pub const BCASCREG: usize = 3;
    pub const A_INPUT: usize = 4;
    pub const B_INPUT: usize = 5;
    pub const CREG: usize = 6;
    pub const DREG: usize = 7;
    pub const ADREG: usize = 8;
    pub const MREG: usize = 9;
    pub const PREG: usize = 10;
    pub const OPMODEREG: usize = 11;
    pub const ALUMODEREG: usize = 12;
    pub const INMODEREG: usize = 13;
    pub const CARRYINREG: usize = 14;
    pub const CARRYINSELREG: usize = 15;
    pub const USE_MULT: usize = 16;
    pub const AMULTSEL: usize = 17;
    pub const RND: usize = 18;
    pub const PATTERN: usize = 19;
    pub const MASK: usize = 20;
    pub const USE_SIMD: usize = 21;
}

/// Places of the ports.
pub mod po {
    pub const A: usize = 0;
    pub const B: usize = 1;
    pub const C: usize = 2;
    pub const D: usize = 3;
    pub const OPMODE: usize = 4;
    pub const ALUMODE: usize = 5;
    pub const INMODE: usize = 6;
    pub const CARRYINSEL: usize = 7;
    pub const CARRYIN: usize = 8;
    pub const CE: usize = 9;
    pub const RST: usize = 10;
}

/// Places of the registers that hold operands, controls, flags and the carry.
pub mod rg {
    pub const A1: usize = 0;
    pub const A2: usize = 1;
    pub const B1: usize = 2;
    pub const B2: usize = 3;
    pub const C: usize = 4;
    pub const D: usize = 5;
    pub const AD: usize = 6;
    pub const M: usize = 7;
    pub const P: usize = 8;
    pub const OPMODE: usize = 9;
    pub const ALUMODE: usize = 10;
    pub const INMODE: usize = 11;
    pub const CARRYINSEL: usize = 12;
    pub const CARRYIN: usize = 13;
    pub const PD: usize = 14;
    pub const PBD: usize = 15;
    pub const PDPAST: usize = 16;
    pub const PBDPAST: usize = 17;
    pub const CARRY: usize = 18;
}

pub const ATTRIBUTE_NAMES: [&str; 22] = [
    "AREG",
    "BREG",
    "ACASCREG",
    "BCASCREG",
    "A_INPUT",
    "B_INPUT",
    "CREG",
    "DREG",
    "ADREG",
    "MREG",
    "PREG",
    "OPMODEREG",
    "ALUMODEREG",
    "INMODEREG",
    "CARRYINREG",
    "CARRYINSELREG",
    "USE_MULT",
    "AMULTSEL",
    "RND",
    "PATTERN",
    "MASK",
    "USE_SIMD",
];
/// The settings of USE_SIMD, and the bits of each lane.
pub const SIMD_NAMES: [&str; 3] = ["ONE48", "TWO24", "FOUR12"];
pub const LANE_WIDTHS: [u32; 3] = [48, 24, 12];
/// How many numbers an `A` line has when it leaves USE_SIMD out.
pub const SHORT_A_LINE: usize = 21;

pub const PORT_NAMES: [&str; 11] =
    ["A", "B", "C", "D", "OPMODE", "ALUMODE", "INMODE", "CARRYINSEL", "CARRYIN", "CE", "RST"];
pub const CE_NAMES: [&str; 13] =
    ["A1", "A2", "B1", "B2", "C", "D", "AD", "M", "P", "CTRL", "ALUMODE", "INMODE", "CARRYIN"];
pub const RST_NAMES: [&str; 10] =
    ["A", "B", "C", "D", "M", "P", "CTRL", "ALUMODE", "INMODE", "ALLCARRYIN"];

pub const PORT_WIDTHS: [u32; 11] = [30, 18, 48, 27, 9, 4, 5, 3, 1, 13, 10];
pub const REGISTER_WIDTHS: [u32; REGISTER_WORDS] =
    [30, 30, 18, 18, 48, 27, 27, 45, 48, 9, 4, 5, 3, 1, 1, 1, 1, 1, 1];

/// The words of an answer to why.
pub const WHY_WORDS: usize = 13;

/// The INMODE bits that bear on the pre-adder.
pub mod inmode {
    pub const TAKES_A1: u64 = 1;
    pub const CLEARS_A: u64 = 1 << 1;
    pub const TAKES_D: u64 = 1 << 2;
    pub const SUBTRACTS: u64 = 1 << 3;
}

/// CE and RST bits.
pub const CE_A1: u64 = 1;
pub const CE_A2: u64 = 1 << 1;
pub const CE_B1: u64 = 1 << 2;
pub const CE_B2: u64 = 1 << 3;
pub const CE_C: u64 = 1 << 4;
pub const CE_D: u64 = 1 << 5;
pub const CE_AD: u64 = 1 << 6;
pub const CE_M: u64 = 1 << 7;
pub const CE_P: u64 = 1 << 8;
pub const CE_CTRL: u64 = 1 << 9;
pub const CE_ALUMODE: u64 = 1 << 10;
pub const CE_INMODE: u64 = 1 << 11;
pub const CE_CARRYIN: u64 = 1 << 12;
pub const CE_ALL: u64 = 8191;
pub const RST_A: u64 = 1;
pub const RST_B: u64 = 1 << 1;
pub const RST_C: u64 = 1 << 2;
pub const RST_D: u64 = 1 << 3;
pub const RST_M: u64 = 1 << 4;
pub const RST_P: u64 = 1 << 5;
pub const RST_CTRL: u64 = 1 << 6;
pub const RST_ALUMODE: u64 = 1 << 7;
pub const RST_INMODE: u64 = 1 << 8;
pub const RST_ALLCARRYIN: u64 = 1 << 9;
pub const RST_ALL: u64 = 1023;

/// The OPMODE that adds A:B and C, and the one that takes C alone.
pub const ADDS_AB_AND_C: u64 = 3 << 4 | 3;
pub const C_ALONE: u64 = 3 << 2;

/// All ones in so many bits.
pub const fn ones(width: u32) -> u64 {
    u64::MAX >> (64 - width)
}

/// The patterns at the edges of a width: 0, 1, all, the sign, all but it.
pub fn edges(width: u32) -> [u64; 5] {
    [0, 1, ones(width), 1 << (width - 1), ones(width) >> 1]
}

/// The patterns at the edges of the lanes: each border from both sides, each
/// lane's lowest and highest bit, and all but the highest.
pub fn lane_edges() -> Vec<u64> {
    let borders = [12, 24, 36].into_iter().flat_map(|border| [ones(border), 1 << border]);
    let in_lanes = [0x001001001001, 0x800800800800, 0x7ff7ff7ff7ff];
    [0, 1, ones(48)].into_iter().chain(borders).chain(in_lanes).collect()
}

/// A column and the clocks it is to be given.
#[derive(Clone, Default)]
pub struct Column {
    pub attributes: Vec<Attributes>,
    pub clocks: Vec<Vec<Ports>>,
}

impl Column {
    /// The listing, line by line with newlines. The `A` lines of the slices
    /// that `short` picks leave USE_SIMD out, where it is 0.
    pub fn lines(&self, mut short: impl FnMut(usize) -> bool) -> Vec<Vec<u8>> {
        let mut lines = vec![line('N', &[self.attributes.len() as u64])];
        lines.extend(self.attributes.iter().enumerate().map(|(k, words)| {
            let left_out = short(k) && words[at::USE_SIMD] == 0;
            line('A', if left_out { &words[..SHORT_A_LINE] } else { words })
        }));
        lines.extend(self.clocks.iter().flatten().map(|words| line('P', words)));
        lines
    }

    /// The listing with `A` lines all short, all long, or of both sorts.
    pub fn text(&self, random: &mut Random) -> Vec<u8> {
        let short = random.pick(&[0, 50, 100]);
        self.lines(|_| random.percent(short)).concat()
    }
}

/// One line: the tag and its numbers.
pub fn line(tag: char, words: &[u64]) -> Vec<u8> {
    let mut line = tag.to_string();
    for word in words {
        line.push('\t');
        line += &word.to_string();
    }
    line.push('\n');
    line.into_bytes()
}

/// A listing's text with the slice that it watches (02, Ask 8) put behind its first line.
pub fn watching(text: &[u8], slice: u64) -> Vec<u8> {
    let end = text.iter().position(|byte| *byte == b'\n').unwrap_or(text.len());
    [&text[..end], format!("\t{slice}").as_bytes(), &text[end..]].concat()
}
