//! Why a slice gives its result (02, Ask 3) by value, worked out by hand.
//!
//! The words of an answer are W, X, Y, Z and CIN, the place of each, the rule,
//! the lanes and the result.

mod one_slice;

use one_slice::{att, port, reg, slice, stretches, Slice};
use second::calls::answer;
use second::refusal::REFUSED;

const ONES: u64 = (1 << 48) - 1;
const CE_P: u64 = 256;
const RST_P: u64 = 32;

/// All that a question is lent, to be spoiled word by word.
#[derive(Clone)]
struct Question {
    count: u64,
    attributes: Vec<u64>,
    registers: Vec<u64>,
    ports: Vec<u64>,
    slice: u64,
    why: Vec<u64>,
}

fn question(column: &[Slice], slice: u64) -> Question {
    Question {
        count: column.len() as u64,
        attributes: column.iter().flat_map(|slice| slice.attributes).collect(),
        registers: column.iter().flat_map(|slice| slice.registers).collect(),
        ports: column.iter().flat_map(|slice| slice.ports).collect(),
        slice,
        why: vec![9; 13],
    }
}

/// A question about slice 0 of a column of zeros.
fn zeros(count: usize) -> Question {
    question(&vec![slice(&[], &[], &[]); count], 0)
}

impl Question {
    /// The returned word and `why`; all else must come back as it was lent.
    fn asked(&self) -> (u64, Vec<u64>) {
        let column = stretches(&[&self.attributes, &self.registers, &self.ports]);
        let (count, slice, why) = (self.count, self.slice, stretches(&[&self.why]));
        let reply = answer(&format!("why {count} {column} {slice} {why}")).unwrap();
        let (word, after) = reply.split_once(' ').unwrap();
        let why = after.strip_prefix(&column).unwrap().split_whitespace();
        let why: Vec<u64> = why.map(|field| field.parse().unwrap()).collect();
        assert_eq!(why[0], why.len() as u64 - 1);
        (word.parse().unwrap(), why[1..].to_vec())
    }

    /// Expects this refusal, and zeros unless `why` has another length.
    fn refused(&self, number: u64, place: u64) {
        let left = if self.why.len() == 13 { vec![0; 13] } else { self.why.clone() };
        assert_eq!(self.asked(), (REFUSED + 256 * place + number, left));
    }
}

/// The answer for one slice of an accepted column.
fn explained(column: &[Slice], slice: u64) -> [u64; 13] {
    let (word, why) = question(column, slice).asked();
    assert_eq!(word, 0);
    why.try_into().unwrap()
}

/// The answer for a slice alone; its result must be that of the clock.
fn alone(slice: Slice) -> [u64; 13] {
    let why = explained(&[slice], 0);
    let mut enabled = slice;
    (enabled.ports[port::CE], enabled.ports[port::RST]) = (CE_P, 0);
    let (after, shown) = enabled.clocked();
    assert_eq!(after[reg::P], why[12]);
    if slice.attributes[att::PREG] == 0 {
        assert_eq!(shown[0], why[12]);
    }
    why
}

/// A slice that shows this word as its P, whatever settles.
fn showing(p: u64) -> Slice {
    slice(&[(att::PREG, 1)], &[(reg::P, p)], &[])
}

#[test]
fn the_hand_example() {
    let bottom = slice(&[], &[], &[(port::B, 5), (port::C, 7), (port::OPMODE, 15)]);
    let top = slice(&[(att::USE_MULT, 1)], &[], &[(port::A, 3), (port::B, 1), (port::OPMODE, 21)]);
    assert_eq!(explained(&[bottom, top], 1), [0, 3, 0, 12, 0, 0, 1, 0, 6, 10, 1, 0, 15]);
    assert_eq!(explained(&[bottom, top], 0), [0, 5, 7, 0, 0, 0, 3, 5, 0, 10, 1, 0, 12]);
    assert_eq!(alone(bottom), [0, 5, 7, 0, 0, 0, 3, 5, 0, 10, 1, 0, 12]);
}

/// Words with bit 47 set, one for each place that holds a word of its own.
const P: u64 = 0x8000_0000_0005;
const RND: u64 = 0x9000_0000_0003;
const C: u64 = 0xC000_0000_0007;
const PCIN: u64 = 0xA000_0000_0009;
/// A 2^29 + 1 above B 2^17 + 6.
const AB: u64 = 0x8000_0006_0006;

/// A slice with all those words, whose unit adds what OPMODE selects.
fn selecting(opmode: u64) -> Slice {
    let ports = [(port::A, 0x2000_0001), (port::B, 0x2_0006), (port::C, C), (port::OPMODE, opmode)];
    slice(&[(att::PREG, 1), (att::RND, RND)], &[(reg::P, P), (reg::C, 4)], &ports)
}

#[test]
fn each_w() {
    for (w, value, place) in [(0, 0, 0), (1, P, 2), (2, RND, 9), (3, C, 5)] {
        let expected = [value, 0, 0, 0, 0, place, 0, 0, 0, 10, 1, 0, value];
        assert_eq!(alone(selecting(w << 7)), expected, "W {w}");
    }
}

#[test]
fn each_x() {
    for (x, value, place) in [(0, 0, 0), (2, P, 2), (3, AB, 3)] {
        let expected = [0, value, 0, 0, 0, 0, place, 0, 0, 10, 1, 0, value];
        assert_eq!(alone(selecting(x)), expected, "X {x}");
    }
}

#[test]
fn each_y() {
    for (y, value, place) in [(0, 0, 0), (2, ONES, 4), (3, C, 5)] {
        let expected = [0, 0, value, 0, 0, 0, 0, place, 0, 10, 1, 0, value];
        assert_eq!(alone(selecting(y << 2)), expected, "Y {y}");
    }
}

#[test]
fn each_z() {
    // P is -2^47 + 5 and PCIN -3 * 2^45 + 9: shifted, -2^30 and -3 * 2^28.
    const P_SHIFTED: u64 = 0xFFFF_C000_0000;
    const PCIN_SHIFTED: u64 = 0xFFFF_D000_0000;
    let selects =
        [(0, 0, 0), (1, PCIN, 6), (2, P, 2), (3, C, 5), (5, PCIN_SHIFTED, 7), (6, P_SHIFTED, 8)];
    for (z, value, place) in selects {
        let expected = [0, 0, 0, value, 0, 0, 0, 0, place, 10, 1, 0, value];
        assert_eq!(explained(&[showing(PCIN), selecting(z << 4)], 1), expected, "Z {z}");
    }
    // Below the bottom there are zeros, and their place is PCIN all the same.
    assert_eq!(alone(selecting(1 << 4)), [0, 0, 0, 0, 0, 0, 0, 0, 6, 10, 1, 0, 0]);
    assert_eq!(alone(selecting(5 << 4)), [0, 0, 0, 0, 0, 0, 0, 0, 7, 10, 1, 0, 0]);
}

#[test]
fn shifts_at_their_edges() {
    let words = [
        (0, 0),
        (131071, 0),
        (131072, 1),
        (1 << 46, 1 << 29),
        (1 << 47, 281473902968832),
        (ONES, ONES),
    ];
    for (word, shifted) in words {
        let above = slice(&[], &[], &[(port::OPMODE, 80)]);
        let expected = [0, 0, 0, shifted, 0, 0, 0, 0, 7, 10, 1, 0, shifted];
        assert_eq!(explained(&[showing(word), above], 1), expected);
        let own = slice(&[(att::PREG, 1)], &[(reg::P, word)], &[(port::OPMODE, 96)]);
        assert_eq!(alone(own), [0, 0, 0, shifted, 0, 0, 0, 0, 8, 10, 1, 0, shifted]);
    }
}

#[test]
fn the_product_is_x_alone() {
    let product = |a, b, attributes: &[(usize, u64)]| {
        let mut words = slice(attributes, &[(reg::M, 1 << 44)], &[(port::OPMODE, 5)]);
        words.attributes[att::USE_MULT] = 1;
        (words.ports[port::A], words.ports[port::B]) = (a, b);
        alone(words)
    };
    // 3 times 4, 3 times -2, and the most negative pair.
    assert_eq!(product(3, 4, &[]), [0, 12, 0, 0, 0, 0, 1, 0, 0, 10, 1, 0, 12]);
    let minus_six = ONES - 5;
    assert_eq!(product(3, 262142, &[]), [0, minus_six, 0, 0, 0, 0, 1, 0, 0, 10, 1, 0, minus_six]);
    let high = 8796093022208;
    assert_eq!(product(1 << 26, 1 << 17, &[]), [0, high, 0, 0, 0, 0, 1, 0, 0, 10, 1, 0, high]);
    // The register M holds -2^44 in 45 bits, whatever is multiplied meanwhile.
    let held = 0xF000_0000_0000;
    assert_eq!(product(3, 4, &[(att::MREG, 1)]), [0, held, 0, 0, 0, 0, 1, 0, 0, 10, 1, 0, held]);
    // A product of 0 has its place too.
    assert_eq!(product(0, 4, &[]), [0, 0, 0, 0, 0, 0, 1, 0, 0, 10, 1, 0, 0]);
}

#[test]
fn the_product_of_the_preadder() {
    // (10 - 3) times 6.
    let ports = [(port::A, 3), (port::B, 6), (port::D, 10), (port::OPMODE, 5), (port::INMODE, 12)];
    let words = slice(&[(att::USE_MULT, 1), (att::AMULTSEL, 1)], &[], &ports);
    assert_eq!(alone(words), [0, 42, 0, 0, 0, 0, 1, 0, 0, 10, 1, 0, 42]);
}

#[test]
fn paths_of_c_and_a_b() {
    // The register C, in W, Y and Z: three times 4.
    let mut words = selecting(3 << 7 | 3 << 4 | 3 << 2);
    words.attributes[att::CREG] = 1;
    assert_eq!(alone(words), [4, 0, 4, 4, 0, 5, 0, 5, 5, 10, 1, 0, 12]);
    // The last registers of A and of B: 2 * 2^18 + 9.
    let attributes = [(att::AREG, 1), (att::ACASCREG, 1), (att::BREG, 2), (att::BCASCREG, 1)];
    let registers = [(reg::A2, 2), (reg::B2, 9)];
    let words = slice(&attributes, &registers, &[(port::A, 7), (port::B, 7), (port::OPMODE, 3)]);
    assert_eq!(alone(words), [0, 524297, 0, 0, 0, 0, 3, 0, 0, 10, 1, 0, 524297]);
    // A of the slice below, above this slice's own B: 5 * 2^18 + 1.
    let below = slice(&[], &[], &[(port::A, 5)]);
    let ports = [(port::A, 7), (port::B, 1), (port::OPMODE, 3)];
    let column = [below, slice(&[(att::A_INPUT, 1)], &[], &ports)];
    assert_eq!(explained(&column, 1), [0, 1310721, 0, 0, 0, 0, 3, 0, 0, 10, 1, 0, 1310721]);
}

#[test]
fn the_place_is_the_select_and_not_the_value() {
    // W 3, Z 3, Y 3, X 3 and W 2, Z 2, Y 0, X 2, all of them zeros.
    let words = |opmode| slice(&[(att::PREG, 1)], &[], &[(port::OPMODE, opmode)]);
    assert_eq!(alone(words(447)), [0, 0, 0, 0, 0, 5, 3, 5, 5, 10, 1, 0, 0]);
    assert_eq!(alone(words(290)), [0, 0, 0, 0, 0, 9, 2, 0, 2, 10, 1, 0, 0]);
    // C that is all ones is C.
    let words = slice(&[], &[], &[(port::OPMODE, 12), (port::C, ONES)]);
    assert_eq!(alone(words), [0, 0, ONES, 0, 0, 0, 0, 5, 0, 10, 1, 0, ONES]);
}

#[test]
fn each_carryinsel() {
    // The slice below shows one sign and P holds the other.
    for (pcin, p, signs) in [(1 << 47, ONES >> 1, [1, 0]), (ONES >> 1, 1 << 47, [0, 1])] {
        let [pcin_sign, p_sign] = signs;
        let selects =
            [(1, 1 - pcin_sign, 12), (3, pcin_sign, 11), (5, 1 - p_sign, 14), (7, p_sign, 13)];
        for (select, cin, place) in selects {
            let words = slice(&[(att::PREG, 1)], &[(reg::P, p)], &[(port::CARRYINSEL, select)]);
            let expected = [0, 0, 0, 0, cin, 0, 0, 0, 0, place, 1, 0, cin];
            assert_eq!(explained(&[showing(pcin), words], 1), expected, "CARRYINSEL {select}");
        }
    }
    // Below the bottom the sign is 0.
    for (select, cin, place) in [(1, 1, 12), (3, 0, 11)] {
        let words = slice(&[], &[], &[(port::CARRYINSEL, select)]);
        assert_eq!(alone(words), [0, 0, 0, 0, cin, 0, 0, 0, 0, place, 1, 0, cin]);
    }
}

#[test]
fn the_carry_shown_below() {
    // The slice below holds one carry and another settles: all ones and 1, or and 0.
    for (preg, held, settling, cin) in [(0, 0, 1, 1), (0, 1, 0, 0), (1, 0, 1, 0), (1, 1, 0, 1)] {
        let ports = [
            (port::A, 0x3FFF_FFFF),
            (port::B, 0x3FFFF),
            (port::C, settling),
            (port::OPMODE, 51),
            (port::CE, CE_P),
        ];
        let below = slice(&[(att::PREG, preg)], &[(reg::CARRYOUT, held)], &ports);
        // CARRYIN says the contrary.
        let ports = [(port::CARRYINSEL, 2), (port::CARRYIN, 1 - cin)];
        let column = [below, slice(&[], &[], &ports)];
        assert_eq!(explained(&column, 1), [0, 0, 0, 0, cin, 0, 0, 0, 0, 15, 1, 0, cin]);
    }
    // Below the bottom it is 0, and the place is the same.
    let ports = [(port::CARRYINSEL, 2), (port::CARRYIN, 1)];
    let words = slice(&[(att::PREG, 1)], &[(reg::CARRYOUT, 1)], &ports);
    assert_eq!(alone(words), [0, 0, 0, 0, 0, 0, 0, 0, 0, 15, 1, 0, 0]);
}

#[test]
fn the_carryin_path() {
    for cin in [0, 1] {
        let expected = [0, 0, 0, 0, cin, 0, 0, 0, 0, 10, 1, 0, cin];
        assert_eq!(alone(slice(&[], &[], &[(port::CARRYIN, cin)])), expected);
        let registers = [(reg::CARRYIN, cin)];
        let held = slice(&[(att::CARRYINREG, 1)], &registers, &[(port::CARRYIN, 1 - cin)]);
        assert_eq!(alone(held), expected);
    }
}

#[test]
fn each_arithmetic_rule() {
    // W 4, X 2, Y 3, Z 100 and CIN 1: 110 in all, and 10 without Z.
    let results = [110, ONES - 90, ONES - 110, 90];
    for (alumode, result) in (0..).zip(results) {
        let ports = [
            (port::B, 2),
            (port::C, 3),
            (port::OPMODE, 303),
            (port::ALUMODE, alumode),
            (port::CARRYIN, 1),
        ];
        let words = slice(&[(att::PREG, 1), (att::RND, 4)], &[(reg::P, 100)], &ports);
        assert_eq!(alone(words), [4, 2, 3, 100, 1, 9, 3, 5, 2, 10, alumode + 1, 0, result]);
    }
}

/// Each mode, then rule and result of X 12, Z 10 and CIN 1 for Y 0 and Y all
/// ones; in bits X is 1100 and Z is 1010, so each pair of bits is there.
const MODES: [(u64, [(u64, u64); 2]); 12] = [
    (0, [(1, 23), (1, 22)]),
    (1, [(2, 2), (2, 1)]),
    (2, [(3, ONES - 23), (3, ONES - 22)]),
    (3, [(4, ONES - 2), (4, ONES - 1)]),
    (4, [(5, 6), (6, ONES - 6)]),
    (5, [(6, ONES - 6), (5, 6)]),
    (6, [(6, ONES - 6), (5, 6)]),
    (7, [(5, 6), (6, ONES - 6)]),
    (12, [(7, 8), (8, 14)]),
    (13, [(9, 4), (10, ONES - 2)]),
    (14, [(11, ONES - 8), (12, ONES - 14)]),
    (15, [(13, ONES - 4), (14, 2)]),
];

/// X A:B 12, Z the port C 10, CIN 1 and Y 0 or all ones.
fn in_mode(alumode: u64, ones: bool) -> Slice {
    let ports = [
        (port::B, 12),
        (port::C, 10),
        (port::OPMODE, if ones { 59 } else { 51 }),
        (port::ALUMODE, alumode),
        (port::CARRYIN, 1),
    ];
    slice(&[], &[], &ports)
}

#[test]
fn each_mode_with_both_ys() {
    for (alumode, [zero, ones]) in MODES {
        let (rule, result) = zero;
        let expected = [0, 12, 0, 10, 1, 0, 3, 0, 5, 10, rule, 0, result];
        assert_eq!(alone(in_mode(alumode, false)), expected, "mode {alumode}, Y 0");
        let (rule, result) = ones;
        let expected = [0, 12, ONES, 10, 1, 0, 3, 4, 5, 10, rule, 0, result];
        assert_eq!(alone(in_mode(alumode, true)), expected, "mode {alumode}, Y all ones");
    }
}

#[test]
fn logic_gives_the_carry_it_ignores() {
    for (select, cin, place) in
        [(0, 1, 10), (1, 1, 12), (2, 0, 15), (3, 0, 11), (5, 0, 14), (7, 1, 13)]
    {
        let mut words = in_mode(12, false);
        (words.attributes[att::PREG], words.registers[reg::P]) = (1, 1 << 47);
        words.ports[port::CARRYINSEL] = select;
        assert_eq!(alone(words), [0, 12, 0, 10, cin, 0, 3, 0, 5, place, 7, 0, 8]);
    }
}

#[test]
fn rules_work_in_their_lanes() {
    // X is -1 in each lane; Y and CIN are 1 in the lowest, so X + Y + CIN is 1 there.
    let z = 0x000_001_001_000;
    let sums = [0x000_001_001_001, 0x000000_001001, 0xFFF_000_000_001];
    // Not Z is -1 - Z: the lowest lane gives -Z, those above -2 - Z.
    let with_not_z = [0xFFF_FFE_FFF_000, 0xFFFFFD_FFF000, 0xFFE_FFD_FFD_000];
    let not_sums = sums.map(|sum| ONES - sum);
    // The lowest lane gives Z - 1, those above Z + 1.
    let differences = [0x000_001_000_FFF, 0x000002_000FFF, 0x001_002_002_FFF];
    for (alumode, results) in (0..).zip([sums, with_not_z, not_sums, differences]) {
        for (lanes, result) in (0..).zip(results) {
            let ports = [
                (port::A, 0x3FFF_FFFF),
                (port::B, 0x3FFFF),
                (port::C, 1),
                (port::OPMODE, 47),
                (port::ALUMODE, alumode),
                (port::CARRYIN, 1),
            ];
            let attributes = [(att::PREG, 1), (att::USE_SIMD, lanes)];
            let expected = [0, ONES, 1, z, 1, 0, 3, 5, 2, 10, alumode + 1, lanes, result];
            assert_eq!(alone(slice(&attributes, &[(reg::P, z)], &ports)), expected);
        }
    }
}

#[test]
fn logic_gives_the_lanes_it_ignores() {
    for lanes in [1, 2] {
        for (alumode, [zero, ones]) in &MODES[4..] {
            for (y, place, (rule, result)) in [(0, 0, *zero), (ONES, 4, *ones)] {
                let mut words = in_mode(*alumode, y == ONES);
                words.attributes[att::USE_SIMD] = lanes;
                let expected = [0, 12, y, 10, 1, 0, 3, place, 5, 10, rule, lanes, result];
                assert_eq!(alone(words), expected, "mode {alumode}");
            }
        }
    }
}

#[test]
fn lanes_are_those_of_the_asked_slice() {
    let column = [0, 1, 2].map(|lanes| slice(&[(att::USE_SIMD, lanes)], &[], &[]));
    for lanes in [0, 1, 2] {
        assert_eq!(explained(&column, lanes), [0, 0, 0, 0, 0, 0, 0, 0, 0, 10, 1, lanes, 0]);
    }
}

#[test]
fn controls_are_those_in_effect() {
    // X and Y 1, Z 2, mode 3, D + A, CARRYINSEL 7; the ports are all forbidden.
    let attributes = [
        (att::PREG, 1),
        (att::OPMODEREG, 1),
        (att::ALUMODEREG, 1),
        (att::INMODEREG, 1),
        (att::CARRYINSELREG, 1),
        (att::USE_MULT, 1),
        (att::AMULTSEL, 1),
    ];
    let held = [
        (reg::P, 100),
        (reg::OPMODE, 37),
        (reg::ALUMODE, 3),
        (reg::INMODE, 4),
        (reg::CARRYINSEL, 7),
    ];
    let ports = [
        (port::A, 3),
        (port::B, 6),
        (port::D, 10),
        (port::OPMODE, 64),
        (port::ALUMODE, 8),
        (port::INMODE, 1),
        (port::CARRYINSEL, 4),
    ];
    // 100 less 13 times 6.
    let words = slice(&attributes, &held, &ports);
    assert_eq!(alone(words), [0, 78, 0, 100, 0, 0, 1, 0, 2, 13, 4, 0, 22]);
    // And forbidden registers that nothing reads.
    let mut words = in_mode(13, true);
    words.registers[reg::OPMODE..=reg::CARRYINSEL].copy_from_slice(&[64, 8, 1, 4]);
    assert_eq!(alone(words), [0, 12, ONES, 10, 1, 0, 3, 4, 5, 10, 10, 0, ONES - 2]);
}

#[test]
fn the_result_is_the_p_shown_without_its_register() {
    let words = slice(&[], &[(reg::P, 5)], &[(port::C, 7), (port::OPMODE, 48)]);
    assert_eq!(explained(&[words], 0), [0, 0, 0, 7, 0, 0, 0, 0, 5, 10, 1, 0, 7]);
    let (_, shown) = words.clocked();
    assert_eq!(shown[0], 7);
}

#[test]
fn the_result_is_what_p_would_load() {
    // P 5 and C 7; the result is 12 whether P loads it, keeps its 5 or is cleared.
    for (enable, reset, loaded) in [(CE_P, 0, 12), (0, 0, 5), (CE_P, RST_P, 0), (0, RST_P, 0)] {
        let ports = [(port::C, 7), (port::OPMODE, 44), (port::CE, enable), (port::RST, reset)];
        let words = slice(&[(att::PREG, 1)], &[(reg::P, 5)], &ports);
        assert_eq!(explained(&[words], 0), [0, 0, 7, 5, 0, 0, 0, 5, 2, 10, 1, 0, 12]);
        let (after, shown) = words.clocked();
        assert_eq!((after[reg::P], shown[0]), (loaded, 5));
    }
}

#[test]
fn pcin_is_the_p_below_before_the_edge() {
    // Slice 0 holds 7 and is about to load 9.
    let ports = [(port::C, 9), (port::OPMODE, 48), (port::CE, CE_P)];
    let bottom = slice(&[(att::PREG, 1)], &[(reg::P, 7)], &ports);
    let column = [bottom, slice(&[], &[], &[(port::OPMODE, 16)])];
    assert_eq!(explained(&column, 0), [0, 0, 0, 9, 0, 0, 0, 0, 5, 10, 1, 0, 9]);
    assert_eq!(explained(&column, 1), [0, 0, 0, 7, 0, 0, 0, 0, 6, 10, 1, 0, 7]);
}

#[test]
fn each_slice_of_the_tallest_column() {
    // Each slice adds its number, from 1, to what comes from below.
    let adding = |c| slice(&[], &[], &[(port::C, c), (port::OPMODE, 28)]);
    let column: Vec<Slice> = (1..=24).map(adding).collect();
    let mut below = 0;
    for asked in 0..24 {
        let c = asked + 1;
        let expected = [0, 0, c, below, 0, 0, 0, 5, 6, 10, 1, 0, below + c];
        assert_eq!(explained(&column, asked), expected);
        below += c;
    }
    assert_eq!(below, 300);
}

#[test]
fn number_01_count() {
    for count in [0, 25, u64::MAX] {
        for length in [0, 12, 13, 14] {
            // First of all: lengths, slice and attributes are wrong as well.
            let mut wrong = zeros(1);
            (wrong.count, wrong.slice, wrong.why) = (count, u64::MAX, vec![9; length]);
            wrong.attributes[att::AREG] = 3;
            wrong.refused(1, 0);
        }
    }
    zeros(0).refused(1, 0);
    zeros(25).refused(1, 0);
}

#[test]
fn number_02_length() {
    for which in 0..8 {
        // At the slice 2 the number 13 waits, and in the attributes 3.
        for slice in [0, 2] {
            let mut wrong = zeros(2);
            wrong.slice = slice;
            wrong.attributes[att::AREG] = 3;
            let lent =
                [&mut wrong.attributes, &mut wrong.registers, &mut wrong.ports, &mut wrong.why];
            let lent = lent.into_iter().nth(which / 2).unwrap();
            lent.resize(lent.len() + which % 2 * 2 - 1, 9);
            wrong.refused(2, 0);
        }
    }
    for length in [0, 1, 12, 14, 26] {
        let mut wrong = zeros(2);
        wrong.why = (1..=length).collect();
        wrong.refused(2, 0);
    }
    // 21 attributes a slice are wrong as well.
    let mut wrong = zeros(2);
    wrong.attributes.truncate(42);
    wrong.refused(2, 0);
}

#[test]
fn number_13_slice() {
    for count in [1, 2, 23, 24] {
        let mut asked = zeros(count);
        for slice in [asked.count, asked.count + 1, 1 << 8, 1 << 32, 1 << 63, u64::MAX] {
            asked.slice = slice;
            asked.refused(13, 0);
        }
        asked.slice = asked.count - 1;
        assert_eq!(asked.asked(), (0, vec![0, 0, 0, 0, 0, 0, 0, 0, 0, 10, 1, 0, 0]));
    }
}

/// A fault for each number from 3 to 9, in one slice.
const FAULTS: [fn(&mut Question, usize); 7] = [
    |column, slice| column.attributes[22 * slice + att::CREG] = 2,
    |column, slice| column.registers[19 * slice + reg::CARRYIN] = 2,
    |column, slice| column.ports[11 * slice + port::CARRYIN] = 2,
    |column, slice| column.ports[11 * slice + port::INMODE] = 4,
    |column, slice| column.ports[11 * slice + port::OPMODE] = 64,
    |column, slice| column.ports[11 * slice + port::ALUMODE] = 8,
    |column, slice| column.ports[11 * slice + port::CARRYINSEL] = 4,
];

#[test]
fn numbers_03_to_09_at_any_slice() {
    for (number, fault) in (3..).zip(FAULTS) {
        // The faulty slice below the asked one, above it and itself.
        for faulty in 0..3 {
            for asked in 0..3 {
                let mut wrong = zeros(3);
                wrong.slice = asked;
                fault(&mut wrong, faulty);
                wrong.refused(number, faulty as u64);
            }
        }
        let mut wrong = zeros(24);
        fault(&mut wrong, 23);
        wrong.refused(number, 23);
    }
}

#[test]
fn number_13_comes_before_3_to_9() {
    for fault in FAULTS {
        for slice in [2, u64::MAX] {
            let mut wrong = zeros(2);
            wrong.slice = slice;
            fault(&mut wrong, 0);
            fault(&mut wrong, 1);
            wrong.refused(13, 0);
        }
    }
}

#[test]
fn checks_go_over_all_slices_before_the_next() {
    for (first, fault) in FAULTS.into_iter().enumerate() {
        for later_fault in &FAULTS[first + 1..] {
            let mut wrong = zeros(4);
            later_fault(&mut wrong, 0);
            fault(&mut wrong, 3);
            fault(&mut wrong, 2);
            wrong.refused(3 + first as u64, 2);
        }
    }
}

#[test]
fn registers_in_effect_are_refused_too() {
    let held = [
        (att::INMODEREG, reg::INMODE, 16, 6),
        (att::OPMODEREG, reg::OPMODE, 1, 7),
        (att::ALUMODEREG, reg::ALUMODE, 11, 8),
        (att::CARRYINSELREG, reg::CARRYINSEL, 7, 9),
    ];
    for (attribute, register, word, number) in held {
        let column = [showing(1), slice(&[(attribute, 1)], &[(register, word)], &[])];
        question(&column, 0).refused(number, 1);
        question(&column, 1).refused(number, 1);
    }
}

#[test]
fn lines_that_are_no_call() {
    let lent = "why 1 1 0 1 0 1 0";
    assert_eq!(answer(&format!("{lent} 0 1 9")).unwrap(), "281474976710658 1 0 1 0 1 0 1 9");
    for rest in ["", " 0", " 0 1", " 0 1 9 9", " -1 1 9", " 18446744073709551616 1 9", " 0 1 -9"] {
        assert_eq!(answer(&format!("{lent}{rest}")), None, "{rest}");
    }
}
