//! A test or more for each number from 0 to 12, 12 through a listing and all others
//! through the calls; 13 is that of `why` and of the first match, 14 that of eight terms,
//! and both stand with their tests.

mod one_slice;

use one_slice::stretches;
use second::calls::answer;
use second::refusal::REFUSED;

/// The attribute words of one slice.
const ATTRIBUTES: usize = 22;

/// The register words of one slice.
const REGISTERS: usize = 19;

/// A column's words, to be spoiled word by word.
#[derive(Clone)]
struct Words {
    count: u64,
    attributes: Vec<u64>,
    registers: Vec<u64>,
    ports: Vec<u64>,
    outputs: Vec<u64>,
}

fn zeros(count: usize) -> Words {
    Words {
        count: count as u64,
        attributes: vec![0; ATTRIBUTES * count],
        registers: vec![0; REGISTERS * count],
        ports: vec![0; 11 * count],
        outputs: vec![9; 7 * count],
    }
}

impl Words {
    fn lent(&self) -> String {
        stretches(&[&self.attributes, &self.registers, &self.ports, &self.outputs])
    }

    /// The clock's returned word; a refusal must leave every word alone.
    fn clock(&self) -> u64 {
        let lent = self.lent();
        let reply = answer(&format!("clock {} {lent}", self.count)).unwrap();
        let (word, after) = reply.split_once(' ').unwrap();
        let word = word.parse().unwrap();
        if word != 0 {
            assert_eq!(after, lent);
        }
        word
    }
}

/// Expects one refusal after one word at each slice in turn was set.
fn at_each_slice(number: u64, spoil: impl Fn(&mut Words, usize)) {
    for slice in 0..24 {
        let mut words = zeros(24);
        spoil(&mut words, slice);
        assert_eq!(words.clock(), REFUSED + 256 * slice as u64 + number, "slice {slice}");
    }
}

#[test]
fn number_00_accepted() {
    assert_eq!((1..=24).map(|count| zeros(count).clock()).sum::<u64>(), 0);
    assert_eq!(
        answer("clear 1 19 1 2 3 4 5 6 7 8 9 1 2 3 4 5 6 7 8 9 1").unwrap(),
        format!("0 19{}", " 0".repeat(19))
    );
}

#[test]
fn number_01_count() {
    assert_eq!(zeros(0).clock(), REFUSED + 1);
    assert_eq!(zeros(25).clock(), REFUSED + 1);
    assert_eq!(answer("clear 0 0").unwrap(), format!("{} 0", REFUSED + 1));
    assert_eq!(answer("clear 18446744073709551615 1 5").unwrap(), format!("{} 1 5", REFUSED + 1));
}

#[test]
fn number_02_length() {
    for which in 0..8 {
        let mut words = zeros(2);
        let lent =
            [&mut words.attributes, &mut words.registers, &mut words.ports, &mut words.outputs];
        let lent = lent.into_iter().nth(which / 2).unwrap();
        lent.resize(lent.len() + which % 2 * 2 - 1, 0);
        assert_eq!(words.clock(), REFUSED + 2);
    }
    for length in [0, 18, 20, 38] {
        let lent = stretches(&[&vec![1; length]]);
        let refused = format!("281474976710658 {lent}");
        assert_eq!(answer(&format!("clear 1 {lent}")).unwrap(), refused);
    }
    for call in [
        "packed 1 1 2 0 0 1 0 1 0 2 0 0 5 0 0 0 0 0",
        "packed 1 1 1 0 0 1 0 2 0 0 5 0 0 0 0 0",
        "packed 1 1 1 0 1 0 0 2 0 0 5 0 0 0 0 0",
        "packed 1 1 1 0 1 0 1 0 1 0 5 0 0 0 0 0",
        "packed 1 1 1 0 1 0 1 0 2 0 0 4 0 0 0 0",
        "plain 1 1 1 0 1 0 1 0 3 0 0 0",
    ] {
        let after = call.splitn(4, ' ').nth(3).unwrap();
        assert_eq!(answer(call).unwrap(), format!("{} {after}", REFUSED + 2));
    }
}

#[test]
fn number_03_attribute() {
    for word in 0..ATTRIBUTES {
        let first_over = match word {
            0 | 1 | 21 => 3,
            18..=20 => 1 << 48,
            _ => 2,
        };
        at_each_slice(3, |words, slice| words.attributes[ATTRIBUTES * slice + word] = first_over);
    }
    for (stages, cascade) in [(0, 1), (0, 2), (1, 0), (1, 2), (2, 0), (2, 3)] {
        for first in 0..2 {
            at_each_slice(3, |words, slice| {
                words.attributes[ATTRIBUTES * slice + first] = stages;
                words.attributes[ATTRIBUTES * slice + first + 2] = cascade;
            });
        }
    }
}

#[test]
fn number_03_lanes() {
    for lanes in [3, 4, 1 << 32, u64::MAX] {
        at_each_slice(3, |words, slice| words.attributes[ATTRIBUTES * slice + 21] = lanes);
    }
    for lanes in [1, 2] {
        at_each_slice(3, |words, slice| {
            words.attributes[ATTRIBUTES * slice + 16] = 1;
            words.attributes[ATTRIBUTES * slice + 21] = lanes;
        });
        // Neither the slice below that multiplies nor the lanes alone are wrong.
        let mut words = zeros(2);
        (words.attributes[16], words.attributes[ATTRIBUTES + 21]) = (1, lanes);
        assert_eq!(words.clock(), 0);
    }
    // The multiplier stands alone, used or not.
    let mut words = zeros(1);
    words.attributes[16] = 1;
    assert_eq!(words.clock(), 0);
}

#[test]
fn number_03_lanes_in_its_order() {
    // The lengths come before, and 21 words a slice is a wrong one.
    let mut words = zeros(2);
    words.attributes[21] = 3;
    words.attributes.truncate(42);
    assert_eq!(words.clock(), REFUSED + 2);
    // All that comes later waits, and the lowest slice is the one named.
    let faults: [fn(&mut Words); 2] = [
        |words| words.attributes[ATTRIBUTES * 4 + 21] = u64::MAX,
        |words| {
            words.attributes[ATTRIBUTES * 4 + 16] = 1;
            words.attributes[ATTRIBUTES * 4 + 21] = 2;
        },
    ];
    for fault in faults {
        let mut words = zeros(6);
        words.registers[8] = 1 << 48;
        words.ports[2] = 1 << 48;
        (words.ports[4], words.ports[5], words.ports[6], words.ports[7]) = (64, 8, 4, 4);
        fault(&mut words);
        words.attributes[ATTRIBUTES * 5] = 3;
        assert_eq!(words.clock(), REFUSED + 256 * 4 + 3);
        words.attributes[ATTRIBUTES * 2 + 21] = 3;
        assert_eq!(words.clock(), REFUSED + 256 * 2 + 3);
    }
}

#[test]
fn number_04_register() {
    let widths = [30, 30, 18, 18, 48, 27, 27, 45, 48, 9, 4, 5, 3, 1, 1, 1, 1, 1, 1];
    for (word, width) in widths.into_iter().enumerate() {
        at_each_slice(4, |words, slice| words.registers[REGISTERS * slice + word] = 1 << width);
        let mut words = zeros(1);
        words.registers[word] = (1 << width) - 1;
        assert_eq!(words.clock(), 0);
    }
}

#[test]
fn number_05_port() {
    let widths = [30, 18, 48, 27, 9, 4, 5, 3, 1, 13, 10];
    for (word, width) in widths.into_iter().enumerate() {
        at_each_slice(5, |words, slice| words.ports[11 * slice + word] = 1 << width);
    }
    assert_eq!(answer("adder 281474976710656 0 0 0 0 8").unwrap(), "281474976710661");
    assert_eq!(answer("adder 0 0 0 0 2 0").unwrap(), "281474976710661");
    assert_eq!(answer("adder 0 0 0 0 0 16").unwrap(), "281474976710661");
}

#[test]
fn number_06_inmode() {
    for inmode in [1, 4, 8, 16] {
        at_each_slice(6, |words, slice| words.ports[11 * slice + 6] = inmode);
        at_each_slice(6, |words, slice| {
            words.attributes[ATTRIBUTES * slice + 13] = 1;
            words.registers[REGISTERS * slice + 11] = inmode;
        });
    }
}

#[test]
fn number_07_opmode() {
    // Z 4 and 7, X 1, Y 1, both, X 2, Z 2, Z 6, W 1.
    for opmode in [64, 112, 1, 4, 5, 2, 32, 96, 128] {
        at_each_slice(7, |words, slice| words.ports[11 * slice + 4] = opmode);
        at_each_slice(7, |words, slice| {
            words.attributes[ATTRIBUTES * slice + 11] = 1;
            words.registers[REGISTERS * slice + 9] = opmode;
        });
    }
    let mut words = zeros(1);
    (words.attributes[10], words.attributes[16]) = (1, 1);
    for opmode in [5, 2, 32, 96, 128] {
        words.ports[4] = opmode;
        assert_eq!(words.clock(), 0);
    }
}

#[test]
fn number_08_alumode() {
    for alumode in 8..=11 {
        at_each_slice(8, |words, slice| words.ports[11 * slice + 5] = alumode);
        at_each_slice(8, |words, slice| {
            words.attributes[ATTRIBUTES * slice + 12] = 1;
            words.registers[REGISTERS * slice + 10] = alumode;
        });
    }
    for alumode in [4, 5, 6, 7, 12, 13, 14, 15] {
        // W 2, W 3, Y 3.
        for opmode in [256, 384, 12] {
            at_each_slice(8, |words, slice| {
                words.ports[11 * slice + 4] = opmode;
                words.ports[11 * slice + 5] = alumode;
            });
        }
    }
    assert_eq!(answer("adder 0 0 0 0 0 8").unwrap(), "281474976710664");
    assert_eq!(answer("adder 1 0 0 0 0 4").unwrap(), "281474976710664");
    assert_eq!(answer("adder 0 0 1 0 0 15").unwrap(), "281474976710664");
}

#[test]
fn number_09_carryinsel() {
    for carryinsel in [4, 6, 5, 7] {
        at_each_slice(9, |words, slice| words.ports[11 * slice + 7] = carryinsel);
        at_each_slice(9, |words, slice| {
            words.attributes[ATTRIBUTES * slice + 15] = 1;
            words.registers[REGISTERS * slice + 12] = carryinsel;
        });
    }
    // The carry of the slice below may be taken by any slice (02, Ask 7).
    for carryinsel in [0, 1, 2, 3] {
        let mut words = zeros(24);
        (0..24).for_each(|slice| words.ports[11 * slice + 7] = carryinsel);
        assert_eq!(words.clock(), 0);
        let mut words = zeros(24);
        for slice in 0..24 {
            words.attributes[ATTRIBUTES * slice + 15] = 1;
            words.registers[REGISTERS * slice + 12] = carryinsel;
        }
        assert_eq!(words.clock(), 0);
    }
}

#[test]
fn number_10_terms() {
    for terms in ["0", "9", "18446744073709551615"] {
        assert_eq!(
            answer(&format!("packed {terms} 0 0 0 0 0 0")).unwrap(),
            "281474976710666 0 0 0 0 0"
        );
        assert_eq!(answer(&format!("plain {terms} 0 0 0 0 0")).unwrap(), "281474976710666 0 0 0 0");
    }
}

#[test]
fn number_11_rows() {
    for rows in ["0", "4097", "18446744073709551615"] {
        assert_eq!(
            answer(&format!("packed 7 {rows} 0 0 0 1 5 0")).unwrap(),
            "281474976710667 0 0 0 1 5 0"
        );
        assert_eq!(
            answer(&format!("plain 7 {rows} 0 0 0 1 5")).unwrap(),
            "281474976710667 0 0 0 1 5"
        );
    }
}

#[test]
fn number_12_line() {
    let mut printed = Vec::new();
    second::listing::play(&b"N 1\n"[..], &mut printed).unwrap();
    assert_eq!(printed, b"R\t12\t0\t1\n");
}

#[test]
fn checks_go_over_all_slices_before_the_next() {
    let faults: [fn(&mut Words, usize); 7] = [
        |words, slice| words.attributes[ATTRIBUTES * slice + 6] = 2,
        |words, slice| words.registers[REGISTERS * slice + 13] = 2,
        |words, slice| words.ports[11 * slice + 8] = 2,
        |words, slice| words.ports[11 * slice + 6] |= 4,
        |words, slice| words.ports[11 * slice + 4] |= 64,
        |words, slice| words.ports[11 * slice + 5] = 8,
        |words, slice| words.ports[11 * slice + 7] = 4,
    ];
    for first in 0..7 {
        for later in first + 1..7 {
            let mut words = zeros(24);
            faults[later](&mut words, 0);
            faults[first](&mut words, 23);
            faults[first](&mut words, 22);
            assert_eq!(words.clock(), REFUSED + 256 * 22 + 3 + first as u64);
        }
    }
}
