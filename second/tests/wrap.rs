//! PREADDWRAP (02, Ask 4) by value, worked out by hand.
//!
//! The pre-adder has 27 bits, so AD is the true sum or difference less or plus
//! 134217728 where that left the range from -67108864 to 67108863.

mod one_slice;
mod played;

use one_slice::{att, port, reg, slice, Set, Slice};
use played::played;

const HIGHEST: i64 = 67108863;
const LOWEST: i64 = -67108864;

/// The place of the mark among the outputs.
const PREADDWRAP: usize = 5;

/// The bits of INMODE; without FROM_D the pre-adder's d is 0.
const FROM_A1: u64 = 1;
const CLEAR_A: u64 = 2;
const FROM_D: u64 = 4;
const SUBTRACT: u64 = 8;
const FROM_B1: u64 = 16;

const CE_AD: u64 = 64;
const CE_ALL: u64 = 8191;
const RST_D: u64 = 8;

/// The word of a number in 27 bits.
fn word(number: i64) -> u64 {
    number as u64 & 0x7FF_FFFF
}

/// A slice whose pre-adder has d and a from the ports, and whose AD is enabled.
fn preadding(inmode: u64, d: i64, a: i64) -> Slice {
    let ports = [(port::A, word(a)), (port::D, word(d)), (port::INMODE, inmode), (port::CE, CE_AD)];
    slice(&[(att::AMULTSEL, 1)], &[], &ports)
}

/// The word that AD loads, and the mark of the same clock.
fn settled(slice: Slice) -> (u64, u64) {
    let (after, shown) = slice.clocked();
    (after[reg::AD], shown[PREADDWRAP])
}

/// The marks of one clock after another, each with its own ports.
fn marks(mut slice: Slice, clocks: &[[u64; 11]]) -> Vec<u64> {
    let mark = |ports: &[u64; 11]| {
        slice.ports = *ports;
        let (after, shown) = slice.clocked();
        slice.registers = after;
        shown[PREADDWRAP]
    };
    clocks.iter().map(mark).collect()
}

/// The ports of one clock in which every register loads.
fn loading(inmode: u64, d: i64, a: i64) -> [u64; 11] {
    [word(a), 0, 0, word(d), 0, 0, inmode, 0, 0, CE_ALL, 0]
}

#[test]
fn the_hand_example() {
    let (after, shown) = preadding(FROM_D, HIGHEST, 1).clocked();
    // Nothing is selected, so P is 0, which is the pattern.
    assert_eq!((after[reg::AD], shown), (67108864, [0, 1, 0, 0, 0, 1, 0]));
}

#[test]
fn sums() {
    let sums = [
        (HIGHEST, 1, 67108864, 1),
        (1, HIGHEST, 67108864, 1),
        (LOWEST, -1, 67108863, 1),
        (-1, LOWEST, 67108863, 1),
        // The ends themselves, alone and as sums.
        (HIGHEST, 0, 67108863, 0),
        (0, HIGHEST, 67108863, 0),
        (LOWEST, 0, 67108864, 0),
        (0, LOWEST, 67108864, 0),
        (67108862, 1, 67108863, 0),
        (-67108863, -1, 67108864, 0),
        // The farthest there is: 134217726 and -134217728.
        (HIGHEST, HIGHEST, 134217726, 1),
        (LOWEST, LOWEST, 0, 1),
        // A carry out of the top bit alone is no wrap.
        (HIGHEST, LOWEST, 134217727, 0),
        (LOWEST, HIGHEST, 134217727, 0),
        (-1, 1, 0, 0),
        (-1, -1, 134217726, 0),
        (0, 0, 0, 0),
    ];
    for (d, a, ad, mark) in sums {
        assert_eq!(settled(preadding(FROM_D, d, a)), (ad, mark), "{d} + {a}");
    }
}

#[test]
fn differences() {
    let differences = [
        (LOWEST, 1, 67108863, 1),
        (0, LOWEST, 67108864, 1),
        (HIGHEST, -1, 67108864, 1),
        (-2, HIGHEST, 67108863, 1),
        // The ends themselves, alone and as differences.
        (HIGHEST, 0, 67108863, 0),
        (LOWEST, 0, 67108864, 0),
        (-1, LOWEST, 67108863, 0),
        (-1, HIGHEST, 67108864, 0),
        (0, HIGHEST, 67108865, 0),
        (0, -67108863, 67108863, 0),
        // The farthest there is: 134217727 and -134217727.
        (HIGHEST, LOWEST, 134217727, 1),
        (LOWEST, HIGHEST, 1, 1),
        // A borrow alone is no wrap.
        (0, 1, 134217727, 0),
        (HIGHEST, HIGHEST, 0, 0),
        (LOWEST, LOWEST, 0, 0),
        (0, 0, 0, 0),
    ];
    for (d, a, ad, mark) in differences {
        assert_eq!(settled(preadding(FROM_D | SUBTRACT, d, a)), (ad, mark), "{d} - {a}");
    }
}

#[test]
fn sum_against_difference_of_the_same_words() {
    // d and a, then AD and the mark of d + a and of d - a.
    let pairs = [
        (HIGHEST, 1, (67108864, 1), (67108862, 0)),
        (HIGHEST, -1, (67108862, 0), (67108864, 1)),
        (LOWEST, 1, (67108865, 0), (67108863, 1)),
        (LOWEST, -1, (67108863, 1), (67108865, 0)),
        (LOWEST, LOWEST, (0, 1), (0, 0)),
        (0, LOWEST, (67108864, 0), (67108864, 1)),
        (-1, LOWEST, (67108863, 1), (67108863, 0)),
    ];
    for (d, a, sum, difference) in pairs {
        assert_eq!(settled(preadding(FROM_D, d, a)), sum, "{d} + {a}");
        assert_eq!(settled(preadding(FROM_D | SUBTRACT, d, a)), difference, "{d} - {a}");
    }
}

/// AD and the mark of each INMODE from 0, with A1 -67108864, A2 1 and D 67108863.
const SETTINGS: [(u64, u64); 16] = [
    // A2, A1, and twice a cleared.
    (1, 0),
    (67108864, 0),
    (0, 0),
    (0, 0),
    // D plus each of them.
    (67108864, 1),
    (134217727, 0),
    (67108863, 0),
    (67108863, 0),
    // 0 less each of them.
    (134217727, 0),
    (67108864, 1),
    (0, 0),
    (0, 0),
    // D less each of them.
    (67108862, 0),
    (134217727, 1),
    (67108863, 0),
    (67108863, 0),
];

#[test]
fn each_inmode() {
    let attributes = [
        (att::AREG, 2),
        (att::ACASCREG, 2),
        (att::BREG, 1),
        (att::BCASCREG, 1),
        (att::DREG, 1),
        (att::AMULTSEL, 1),
    ];
    let registers = [(reg::A1, word(LOWEST)), (reg::A2, 1), (reg::D, word(HIGHEST))];
    for (inmode, expected) in (0..).zip(SETTINGS) {
        // Which B is multiplied does not matter.
        for inmode in [inmode, inmode | FROM_B1] {
            let ports = [(port::INMODE, inmode), (port::CE, CE_AD)];
            let words = slice(&attributes, &registers, &ports);
            assert_eq!(settled(words), expected, "INMODE {inmode}");
        }
    }
}

#[test]
fn a_cleared_is_zero() {
    for (d, a) in [(HIGHEST, 1), (HIGHEST, -1), (LOWEST, 1), (LOWEST, -1), (LOWEST, LOWEST)] {
        for subtract in [0, SUBTRACT] {
            let inmode = CLEAR_A | FROM_D | subtract;
            assert_eq!(settled(preadding(inmode, d, a)), (word(d), 0), "{d} without {a}");
        }
    }
    assert_eq!(settled(preadding(SUBTRACT, 0, LOWEST)), (67108864, 1));
    assert_eq!(settled(preadding(CLEAR_A | SUBTRACT, 0, LOWEST)), (0, 0));
}

#[test]
fn d_not_taken_is_zero() {
    for d in [HIGHEST, LOWEST, 1, -1] {
        assert_eq!(settled(preadding(0, d, HIGHEST)), (67108863, 0));
        assert_eq!(settled(preadding(0, d, LOWEST)), (67108864, 0));
        // Turning the sign wraps for the lowest number alone.
        assert_eq!(settled(preadding(SUBTRACT, d, HIGHEST)), (67108865, 0));
        assert_eq!(settled(preadding(SUBTRACT, d, -67108863)), (67108863, 0));
        assert_eq!(settled(preadding(SUBTRACT, d, LOWEST)), (67108864, 1));
    }
}

#[test]
fn low_27_bits_of_a() {
    // A in 30 bits, d and INMODE, then AD and the mark.
    let cases = [
        // The bits from 27 up are not read: 1, 0 and 1 are left.
        (134217729, HIGHEST, FROM_D, (67108864, 1)),
        (939524096, HIGHEST, FROM_D, (67108863, 0)),
        (939524096, LOWEST, FROM_D, (67108864, 0)),
        (939524096, LOWEST, FROM_D | SUBTRACT, (67108864, 0)),
        (939524097, HIGHEST, FROM_D, (67108864, 1)),
        // Bit 26 is the sign: 2^26 is -67108864, and 2^27 - 1 is -1, as all ones are.
        (67108864, 0, FROM_D, (67108864, 0)),
        (67108864, -1, FROM_D, (67108863, 1)),
        (67108864, 0, FROM_D | SUBTRACT, (67108864, 1)),
        (134217727, LOWEST, FROM_D, (67108863, 1)),
        (134217727, HIGHEST, FROM_D, (67108862, 0)),
        (134217727, HIGHEST, FROM_D | SUBTRACT, (67108864, 1)),
        (1073741823, LOWEST, FROM_D, (67108863, 1)),
        (1073741823, HIGHEST, FROM_D, (67108862, 0)),
    ];
    let held = [(att::AREG, 1), (att::ACASCREG, 1), (att::AMULTSEL, 1)];
    for (a, d, inmode, expected) in cases {
        let ports = [(port::D, word(d)), (port::INMODE, inmode), (port::CE, CE_AD)];
        let mut direct = slice(&[(att::AMULTSEL, 1)], &[], &ports);
        direct.ports[port::A] = a;
        assert_eq!(settled(direct), expected, "port A {a}, d {d}");
        assert_eq!(settled(slice(&held, &[(reg::A2, a)], &ports)), expected, "A2 {a}, d {d}");
        let mut early = slice(&held, &[(reg::A1, a)], &ports);
        early.ports[port::INMODE] |= FROM_A1;
        assert_eq!(settled(early), expected, "A1 {a}, d {d}");
    }
}

#[test]
fn register_of_ad_holds_no_mark() {
    // AD holds 5; loading, keeping or clearing it, the mark is of what goes into it.
    for (enable, reset, loaded) in [(CE_AD, 0, 67108864), (0, 0, 5), (CE_AD, RST_D, 0)] {
        for adreg in [0, 1] {
            let mut words = preadding(FROM_D, HIGHEST, 1);
            (words.attributes[att::ADREG], words.registers[reg::AD]) = (adreg, 5);
            (words.ports[port::CE], words.ports[port::RST]) = (enable, reset);
            assert_eq!(settled(words), (loaded, 1), "ADREG {adreg}");
            // AD shows the wrapped word, but nothing wraps now.
            words.registers[reg::AD] = 67108864;
            words.ports = [0; 11];
            assert_eq!(settled(words), (67108864, 0), "ADREG {adreg}");
        }
    }
}

#[test]
fn shown_before_the_product_of_ad() {
    // USE_MULT, B 1 and OPMODE 5: P is AD, which is -67108864, in 48 bits.
    let shown = |adreg: u64, ad: u64| {
        let mut words = preadding(FROM_D, HIGHEST, 1);
        (words.attributes[att::USE_MULT], words.attributes[att::ADREG]) = (1, adreg);
        words.registers[reg::AD] = ad;
        (words.ports[port::B], words.ports[port::OPMODE]) = (1, 5);
        words.clocked().1
    };
    assert_eq!(shown(0, 7), [281474909601792, 0, 0, 0, 0, 1, 0]);
    assert_eq!(shown(1, 7), [7, 0, 0, 0, 0, 1, 0]);
    // A P of 0 is the pattern.
    assert_eq!(shown(1, 0), [0, 1, 0, 0, 0, 1, 0]);
}

#[test]
fn registers_on_the_way_delay_it() {
    // One word or setting of clock 0 makes 67108863 + 1, and then it is gone.
    let a_once = |inmode| [1, 0, 0, 0].map(|a| loading(inmode, HIGHEST, a));
    let d_once = [HIGHEST, 0, 0, 0].map(|d| loading(FROM_D, d, 1));
    let inmode_once = [FROM_D, 0, 0, 0].map(|inmode| loading(inmode, HIGHEST, 1));
    let one = [(att::AREG, 1), (att::ACASCREG, 1)];
    let two = [(att::AREG, 2), (att::ACASCREG, 2)];
    let delays: [(Set, [[u64; 11]; 4], [u64; 4]); 9] = [
        (&[], a_once(FROM_D), [1, 0, 0, 0]),
        (&one, a_once(FROM_D), [0, 1, 0, 0]),
        (&two, a_once(FROM_D), [0, 0, 1, 0]),
        (&one, a_once(FROM_D | FROM_A1), [0, 1, 0, 0]),
        (&two, a_once(FROM_D | FROM_A1), [0, 1, 0, 0]),
        (&[], d_once, [1, 0, 0, 0]),
        (&[(att::DREG, 1)], d_once, [0, 1, 0, 0]),
        (&[], inmode_once, [1, 0, 0, 0]),
        (&[(att::INMODEREG, 1)], inmode_once, [0, 1, 0, 0]),
    ];
    for (attributes, clocks, expected) in delays {
        let mut words = slice(attributes, &[], &[]);
        words.attributes[att::AMULTSEL] = 1;
        assert_eq!(marks(words, &clocks), expected, "{attributes:?}");
    }
}

#[test]
fn inmode_is_the_one_in_effect() {
    // D + A in the register, and nothing or the difference at the port.
    for inmode in [0, FROM_D | SUBTRACT] {
        let mut words = preadding(inmode, HIGHEST, 1);
        words.registers[reg::INMODE] = FROM_D;
        assert_eq!(settled(words).1, 0);
        words.attributes[att::INMODEREG] = 1;
        assert_eq!(settled(words), (67108864, 1));
    }
}

#[test]
fn nothing_behind_ad_bears_on_it() {
    let settings: [Set; 8] = [
        &[(att::USE_MULT, 0)],
        &[(att::USE_MULT, 1)],
        &[(att::USE_MULT, 1), (att::MREG, 1), (att::PREG, 1)],
        &[(att::PREG, 1)],
        &[(att::CREG, 1), (att::CARRYINREG, 1)],
        &[(att::USE_SIMD, 1)],
        &[(att::USE_SIMD, 2), (att::PREG, 1)],
        &[(att::OPMODEREG, 1), (att::ALUMODEREG, 1), (att::CARRYINSELREG, 1)],
    ];
    for attributes in settings {
        // The sum and a logic mode over C.
        for alumode in [0, 4] {
            let clocks = [(HIGHEST, 1), (0, 1), (LOWEST, -1), (LOWEST, 1)].map(|(d, a)| {
                let mut ports = loading(FROM_D, d, a);
                (ports[port::C], ports[port::OPMODE], ports[port::ALUMODE]) = (9, 48, alumode);
                ports
            });
            let mut words = slice(attributes, &[], &[]);
            words.attributes[att::AMULTSEL] = 1;
            assert_eq!(marks(words, &clocks), [1, 0, 1, 0], "{attributes:?}");
        }
    }
}

#[test]
fn without_amultsel_there_is_only_a() {
    for use_mult in [0, 1] {
        for (inmode, a, ad) in [(0, HIGHEST, 67108863), (0, LOWEST, 67108864), (2, LOWEST, 0)] {
            let mut words = preadding(inmode, HIGHEST, a);
            words.attributes[att::AMULTSEL] = 0;
            words.attributes[att::USE_MULT] = use_mult;
            assert_eq!(settled(words), (ad, 0));
        }
    }
}

/// A listing's line of words.
fn line(tag: &str, words: &[u64]) -> String {
    words.iter().fold(tag.to_string(), |line, word| format!("{line}\t{word}")) + "\n"
}

/// What a cleared column prints in its first clock.
fn first_clock(column: &[Slice]) -> String {
    let attributes = column.iter().map(|slice| line("A", &slice.attributes));
    let ports = column.iter().map(|slice| line("P", &slice.ports));
    let lines: String = attributes.chain(ports).collect();
    played(format!("N\t{}\n{lines}", column.len()))
}

#[test]
fn each_slice_has_its_own() {
    for count in [1, 2, 24] {
        for wrapping in 0..count {
            let sum = |at| preadding(FROM_D, HIGHEST, i64::from(at == wrapping));
            let column: Vec<Slice> = (0..count).map(sum).collect();
            let shown =
                |at| format!("O\t0\t{at}\t0\t1\t0\t0\t0\t{}\t0\n", u64::from(at == wrapping));
            let expected: String = (0..count).map(shown).collect();
            assert_eq!(first_clock(&column), expected + "E\t1\n");
        }
    }
}

#[test]
fn a_comes_from_the_slice_below() {
    // Slice 0 hands its 1 up; only slice 2 takes its own 0, and hands that up.
    let sum = |a, cascade| {
        let mut words = preadding(FROM_D, HIGHEST, a);
        words.attributes[att::A_INPUT] = cascade;
        words
    };
    let printed = first_clock(&[sum(1, 0), sum(0, 1), sum(0, 0), sum(1, 1)]);
    let shown = [
        "O\t0\t0\t0\t1\t0\t0\t0\t1\t0\n",
        "O\t0\t1\t0\t1\t0\t0\t0\t1\t0\n",
        "O\t0\t2\t0\t1\t0\t0\t0\t0\t0\n",
        "O\t0\t3\t0\t1\t0\t0\t0\t0\t0\nE\t1\n",
    ];
    assert_eq!(printed, shown.concat());
}

#[test]
fn lines_have_the_mark_as_sixth_output() {
    // Both multiply D + A or D - A by B; the upper slice holds AD and P.
    let listing = "N\t2\n\
        A\t0\t0\t0\t0\t0\t0\t0\t0\t0\t0\t0\t0\t0\t0\t0\t0\t1\t1\t0\t0\t0\n\
        A\t0\t0\t0\t0\t0\t0\t0\t0\t1\t0\t1\t0\t0\t0\t0\t0\t1\t1\t0\t0\t0\t0\n\
        P\t1\t1\t0\t67108863\t5\t0\t4\t0\t0\t8191\t0\n\
        P\t1\t3\t0\t67108864\t5\t0\t12\t0\t0\t8191\t0\n\
        P\t0\t1\t0\t67108863\t5\t0\t4\t0\t0\t8191\t0\n\
        P\t0\t3\t0\t67108864\t5\t0\t12\t0\t0\t8191\t0\n\
        P\t134217727\t2\t0\t67108863\t5\t0\t12\t0\t0\t8191\t0\n\
        P\t1\t3\t0\t67108863\t5\t0\t4\t0\t0\t8191\t0\n";
    // Below: 67108863 + 1 is -67108864, then 67108863, then -67108864 twice.
    // Above: AD takes 67108863 in clock 0, so P has three times that in clock 2, and
    // with it leaves the pattern, which is 0.
    let printed = "O\t0\t0\t281474909601792\t0\t0\t0\t0\t1\t0\n\
        O\t0\t1\t0\t0\t0\t0\t0\t1\t0\n\
        O\t1\t0\t67108863\t0\t0\t0\t0\t0\t0\n\
        O\t1\t1\t0\t1\t0\t0\t0\t0\t0\n\
        O\t2\t0\t281474842492928\t0\t0\t0\t0\t1\t0\n\
        O\t2\t1\t201326589\t0\t0\t1\t0\t1\t0\n\
        E\t3\n";
    assert_eq!(played(listing), printed);
}
