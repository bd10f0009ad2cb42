//! The carry cascade (02, Ask 7) by value, worked out by hand.
//!
//! The carry is that of X + Z + CIN as 48-bit patterns, so a negative number is 2^48
//! less its size: -1 + 1 carries, and 2^47 - 1 and 2^47 - 1, which swing the sign, do not.

mod one_slice;
mod played;

use one_slice::{att, port, reg, slice, stretches, Set, Slice};
use played::played;
use second::calls::answer;
use second::column::{clock, LentClock};
use second::refusal::REFUSED;

const ONES: u64 = (1 << 48) - 1;
const TOP: u64 = 1 << 47;

/// The place of the carry among the outputs.
const CARRYOUT: usize = 6;

/// OPMODE with X the word A:B and Z the port C, and with more beside them.
const ADD: u64 = 51;
const W_P: u64 = 128;
const W_RND: u64 = 256;
const W_C: u64 = 384;
const Y_ONES: u64 = 8;
const Y_C: u64 = 12;

const CE_P: u64 = 256;
const CE_ALL: u64 = 8191;
const RST_P: u64 = 32;
const RST_ALL: u64 = 1023;

/// CARRYINSEL that takes the carry of the slice below.
const FROM_BELOW: u64 = 2;

/// The ports of an enabled slice that adds A:B and C.
fn sum_of(x: u64, z: u64) -> [u64; 11] {
    [x >> 18, x & 0x3FFFF, z, 0, ADD, 0, 0, 0, 0, CE_P, 0]
}

/// A slice without registers that adds A:B, C and CARRYIN.
fn adding(x: u64, z: u64, carryin: u64) -> Slice {
    let mut words = slice(&[], &[], &[]);
    words.ports = sum_of(x, z);
    words.ports[port::CARRYIN] = carryin;
    words
}

/// The same with these words set over it.
fn with(mut slice: Slice, attributes: Set, registers: Set, ports: Set) -> Slice {
    attributes.iter().for_each(|&(word, value)| slice.attributes[word] = value);
    registers.iter().for_each(|&(word, value)| slice.registers[word] = value);
    ports.iter().for_each(|&(word, value)| slice.ports[word] = value);
    slice
}

/// The result and the carry that settle, which P and its companion load, and which are
/// shown at once where P has no register.
fn settled(slice: Slice) -> (u64, u64) {
    let (after, shown) = slice.clocked();
    let loaded = (after[reg::P], after[reg::CARRYOUT]);
    if slice.attributes[att::PREG] == 0 {
        assert_eq!((shown[0], shown[CARRYOUT]), loaded);
    }
    loaded
}

/// One accepted clock of a column: the registers load, and what each slice showed is given.
fn clocked(column: &mut [Slice]) -> Vec<[u64; 7]> {
    let attributes: Vec<u64> = column.iter().flat_map(|slice| slice.attributes).collect();
    let mut registers: Vec<u64> = column.iter().flat_map(|slice| slice.registers).collect();
    let ports: Vec<u64> = column.iter().flat_map(|slice| slice.ports).collect();
    let mut outputs = vec![9; 7 * column.len()];
    let lent = LentClock {
        attributes: &attributes,
        registers: &mut registers,
        ports: &ports,
        outputs: &mut outputs,
    };
    clock(column.len() as u64, lent).unwrap();
    for (slice, words) in column.iter_mut().zip(registers.chunks(19)) {
        slice.registers.copy_from_slice(words);
    }
    outputs.chunks(7).map(|words| words.try_into().unwrap()).collect()
}

#[test]
fn the_hand_example() {
    let (after, shown) = adding(ONES, 1, 0).clocked();
    // A P of 0 is the pattern.
    assert_eq!(shown, [0, 1, 0, 0, 0, 0, 1]);
    assert_eq!((after[reg::P], after[reg::CARRYOUT]), (0, 1));
}

#[test]
fn sums_at_the_edge() {
    // X, Z and CIN, then P and the carry.
    let sums = [
        (ONES, 1, 0, 0, 1),
        (1, ONES, 0, 0, 1),
        (ONES, 0, 0, ONES, 0),
        (0, ONES, 0, ONES, 0),
        (ONES - 4, 5, 0, 0, 1),
        (ONES - 4, 4, 0, ONES, 0),
        (ONES, ONES, 0, ONES - 1, 1),
        // CIN alone makes the carry.
        (ONES, 0, 1, 0, 1),
        (0, ONES, 1, 0, 1),
        (ONES - 4, 4, 1, 0, 1),
        (TOP - 1, TOP, 1, 0, 1),
        // The highest sum there is: 2^49 - 1.
        (ONES, ONES, 1, ONES, 1),
        // The sign swings without a carry, and carries without a swing.
        (TOP - 1, TOP - 1, 1, ONES, 0),
        (TOP - 1, 1, 0, TOP, 0),
        (TOP, TOP - 1, 0, ONES, 0),
        (TOP, TOP, 0, 0, 1),
        (TOP, TOP + 5, 1, 6, 1),
        (0, 0, 0, 0, 0),
        (0, 0, 1, 1, 0),
        (5, 7, 1, 13, 0),
    ];
    for (x, z, cin, p, carry) in sums {
        assert_eq!(settled(adding(x, z, cin)), (p, carry), "{x} + {z} + {cin}");
    }
}

#[test]
fn result_and_carry_are_the_true_sum() {
    let words = [0, 1, 2, 5 << 24, TOP - 1, TOP, TOP + 1, 0xABCD_EF01_2345, ONES - 1, ONES];
    for x in words {
        for z in words {
            for cin in [0, 1] {
                let (p, carry) = settled(adding(x, z, cin));
                assert_eq!((carry << 48) + p, x + z + cin, "{x} + {z} + {cin}");
            }
        }
    }
}

#[test]
fn no_other_mode_carries() {
    // X all ones and Z 1: each mode, then P and the carry.
    let modes = [
        (0, 0, 1),
        (1, ONES - 2, 0),
        (2, ONES, 0),
        (3, 2, 0),
        (4, ONES - 1, 0),
        (5, 1, 0),
        (6, 1, 0),
        (7, ONES - 1, 0),
        (12, 1, 0),
        (13, ONES - 1, 0),
        (14, ONES - 1, 0),
        (15, 1, 0),
    ];
    for (alumode, p, carry) in modes {
        let words = with(adding(ONES, 1, 0), &[], &[], &[(port::ALUMODE, alumode)]);
        assert_eq!(settled(words), (p, carry), "mode {alumode}");
    }
    // Differences, of which 5 - 5 and 0 - 0 carry where the complement is added.
    for (x, z, p) in [(5, 5, 0), (1, 0, ONES), (0, 0, 0)] {
        assert_eq!(settled(with(adding(x, z, 0), &[], &[], &[(port::ALUMODE, 3)])), (p, 0));
    }
}

#[test]
fn no_other_w_and_no_other_y_carries() {
    // X all ones, and 1 by Z or CIN: the sum is 2^48 whatever is selected beside them.
    let z_p = ADD - 16;
    let selects = [
        (ADD, 1, 0, 0, 1),
        (z_p, 0, 1, 0, 1),
        // W 1 with P 0, W 2 with RND 0, W 3 with C 0.
        (ADD + W_P, 1, 0, 0, 0),
        (ADD + W_RND, 1, 0, 0, 0),
        (z_p + W_RND, 0, 1, 0, 0),
        (z_p + W_C, 0, 1, 0, 0),
        // Y 3 with C 0, and Y 2, which takes 1 away again.
        (z_p + Y_C, 0, 1, 0, 0),
        (ADD + Y_ONES, 1, 0, ONES, 0),
        (z_p + W_RND + Y_C, 0, 1, 0, 0),
    ];
    for (opmode, c, p, result, carry) in selects {
        let ports = [(port::OPMODE, opmode)];
        let words = with(adding(ONES, c, 0), &[(att::PREG, 1)], &[(reg::P, p)], &ports);
        assert_eq!(settled(words), (result, carry), "OPMODE {opmode}");
        // A carry in makes no difference to what is hidden.
        let words = with(words, &[], &[], &[(port::CARRYIN, 1)]);
        assert_eq!(settled(words), ((result + 1) & ONES, carry), "OPMODE {opmode} and CIN");
    }
    // Without P's register: C is 0, so CIN makes the sum 2^48.
    for (opmode, carry) in [(ADD, 1), (ADD + Y_C, 0), (ADD + W_C, 0), (ADD + W_RND, 0)] {
        let words = with(adding(ONES, 0, 1), &[], &[], &[(port::OPMODE, opmode)]);
        assert_eq!(settled(words), (0, carry), "OPMODE {opmode}");
    }
}

#[test]
fn no_product_carries() {
    // -1 times 1 is all ones; the product is X, but Y's select is 1 as well.
    let ports = [(port::A, 0x3FFF_FFFF), (port::B, 1), (port::C, 1), (port::OPMODE, 53)];
    for cin in [0, 1] {
        let words = with(adding(0, 0, cin), &[(att::USE_MULT, 1)], &[], &ports);
        assert_eq!(settled(words), (cin, 0));
    }
    // A slice that can multiply, but selects A:B.
    assert_eq!(settled(with(adding(ONES, 1, 0), &[(att::USE_MULT, 1)], &[], &[])), (0, 1));
}

#[test]
fn no_lanes_carry() {
    for (lanes, p, carry) in [(0, 0, 1), (1, 0xFFFFFF_000000, 0), (2, 0xFFF_FFF_FFF_000, 0)] {
        let words = with(adding(ONES, 1, 0), &[(att::USE_SIMD, lanes)], &[], &[]);
        assert_eq!(settled(words), (p, carry));
    }
    // A carry out of the highest lane alone, and out of each.
    for (lanes, high, each) in [(0, 1, 1), (1, 0, 0), (2, 0, 0)] {
        let settled = |x, z| settled(with(adding(x, z, 0), &[(att::USE_SIMD, lanes)], &[], &[])).1;
        assert_eq!((settled(TOP, TOP), settled(ONES, ONES)), (high, each));
    }
}

#[test]
fn every_other_x_and_z_carries() {
    // P, PCIN and C are 2^47, which shifted is 2^48 - 2^30: OPMODE, then P and the carry.
    let shifted = 0xFFFF_C000_0000;
    let selects = [
        (2, TOP, 0),
        (2 + 16, 0, 1),
        (2 + 32, 0, 1),
        (2 + 48, 0, 1),
        (2 + 80, TOP - (1 << 30), 1),
        (2 + 96, TOP - (1 << 30), 1),
        // X 0 and Z alone, and neither.
        (16, TOP, 0),
        (96, shifted, 0),
        (0, 0, 0),
    ];
    for (opmode, p, carry) in selects {
        let below = slice(&[(att::PREG, 1)], &[(reg::P, TOP)], &[]);
        let ports = [(port::OPMODE, opmode)];
        let own = with(adding(0, TOP, 0), &[(att::PREG, 1)], &[(reg::P, TOP)], &ports);
        let mut column = [below, own];
        clocked(&mut column);
        let [_, own] = column;
        assert_eq!((own.registers[reg::P], own.registers[reg::CARRYOUT]), (p, carry), "{opmode}");
    }
    // Z all ones and CIN, which needs no X.
    for (opmode, carry) in [(48, 1), (0, 0)] {
        let words = with(adding(0, ONES, 1), &[], &[], &[(port::OPMODE, opmode)]);
        assert_eq!(settled(words).1, carry);
    }
}

#[test]
fn every_carryinsel_makes_the_carry() {
    // P and PCIN are negative: only "not" of a sign is 0.
    for (select, carry) in [(0, 1), (1, 0), (2, 1), (3, 1), (5, 0), (7, 1)] {
        let held = [(reg::P, TOP), (reg::CARRYOUT, 1)];
        let below = slice(&[(att::PREG, 1)], &held, &[]);
        let own = with(adding(ONES, 0, 1), &[(att::PREG, 1)], &held, &[(port::CARRYINSEL, select)]);
        let mut column = [below, own];
        clocked(&mut column);
        assert_eq!(column[1].registers[reg::CARRYOUT], carry, "CARRYINSEL {select}");
    }
}

#[test]
fn controls_are_those_in_effect() {
    // What the register and the port say of each control, and whether they carry.
    let controls = [
        (att::OPMODEREG, reg::OPMODE, port::OPMODE, ADD, ADD + W_RND),
        (att::OPMODEREG, reg::OPMODE, port::OPMODE, ADD, ADD + Y_ONES),
        (att::ALUMODEREG, reg::ALUMODE, port::ALUMODE, 0, 3),
    ];
    for (attribute, register, port, carrying, hiding) in controls {
        for (held, register_says, port_says, carry) in [
            (0, hiding, carrying, 1),
            (0, carrying, hiding, 0),
            (1, carrying, hiding, 1),
            (1, hiding, carrying, 0),
        ] {
            let (registers, ports) = ([(register, register_says)], [(port, port_says)]);
            let words = with(adding(ONES, 1, 0), &[(attribute, held)], &registers, &ports);
            assert_eq!(settled(words).1, carry);
        }
    }
}

#[test]
fn loads_and_clears_with_p() {
    // What it holds, what settles, CE and RST, then what it holds after the edge.
    let edges = [
        (0, 1, CE_P, 0, 1),
        (1, 0, CE_P, 0, 0),
        // Kept without CE P, whatever else is enabled.
        (0, 1, 0, 0, 0),
        (1, 0, 0, 0, 1),
        (0, 1, CE_ALL - CE_P, 0, 0),
        (1, 0, CE_ALL - CE_P, 0, 1),
        // Cleared by RST P, enabled or not, and by no other reset.
        (1, 1, 0, RST_P, 0),
        (1, 1, CE_P, RST_P, 0),
        (1, 1, CE_ALL, RST_ALL, 0),
        (0, 1, CE_ALL, RST_ALL - RST_P, 1),
        (1, 0, 0, RST_ALL - RST_P, 1),
    ];
    for (held, settling, enable, reset, after) in edges {
        // Bypassed or not, it loads; only what is shown differs.
        for (preg, shown) in [(0, settling), (1, held)] {
            let ports = [(port::CE, enable), (port::RST, reset)];
            let words = adding(ONES, settling, 0);
            let words = with(words, &[(att::PREG, preg)], &[(reg::CARRYOUT, held)], &ports);
            let (registers, outputs) = words.clocked();
            assert_eq!((outputs[CARRYOUT], registers[reg::CARRYOUT]), (shown, after), "{preg}");
        }
    }
}

#[test]
fn nothing_is_carried_into_the_bottom() {
    // Neither CARRYIN nor the carry that the slice itself holds is taken.
    for preg in [0, 1] {
        let registers = [(reg::CARRYOUT, 1), (reg::CARRYIN, 1)];
        let ports = [(port::CARRYINSEL, FROM_BELOW)];
        let attributes = [(att::PREG, preg), (att::CARRYINREG, 1)];
        let words = with(adding(ONES, 0, 1), &attributes, &registers, &ports);
        assert_eq!(settled(words), (ONES, 0));
        let words = with(adding(5, 7, 1), &attributes, &registers, &ports);
        assert_eq!(settled(words), (12, 0));
    }
}

#[test]
fn carried_up_as_it_is_shown() {
    // The slice below holds one carry and another settles: the one shown goes up.
    for (preg, held, settling, shown) in
        [(0, 0, 1, 1), (0, 1, 0, 0), (0, 1, 1, 1), (1, 0, 1, 0), (1, 1, 0, 1), (1, 1, 1, 1)]
    {
        let below = with(
            adding(ONES, settling, 0),
            &[(att::PREG, preg)],
            &[(reg::CARRYOUT, held)],
            &[(port::CE, CE_ALL)],
        );
        // CARRYIN says the contrary.
        let above = with(adding(5, 7, 1 - shown), &[], &[], &[(port::CARRYINSEL, FROM_BELOW)]);
        let outputs = clocked(&mut [below, above]);
        assert_eq!((outputs[0][CARRYOUT], outputs[1][0]), (shown, 12 + shown));
        assert_eq!(outputs[1][CARRYOUT], 0);
    }
}

#[test]
fn taken_by_the_register_of_carryinsel() {
    let below = adding(ONES, 1, 0);
    for (held, register, port, p) in
        [(1, FROM_BELOW, 0, 13), (1, 0, FROM_BELOW, 12), (0, FROM_BELOW, 0, 12)]
    {
        let (registers, ports) = ([(reg::CARRYINSEL, register)], [(port::CARRYINSEL, port)]);
        let above = with(adding(5, 7, 0), &[(att::CARRYINSELREG, held)], &registers, &ports);
        assert_eq!(clocked(&mut [below, above])[1][0], p);
    }
}

#[test]
fn taken_from_the_next_slice_below_alone() {
    // One slice of three carries; each but the lowest adds what comes from below to 10.
    for carrying in 0..3 {
        let words = |at| {
            let words = if at == carrying { adding(ONES, 11, 0) } else { adding(3, 7, 0) };
            with(words, &[], &[], &[(port::CARRYINSEL, FROM_BELOW)])
        };
        let outputs = clocked(&mut [words(0), words(1), words(2)]);
        for (at, shown) in outputs.iter().enumerate() {
            let expected = (10 + u64::from(at == carrying + 1), u64::from(at == carrying));
            assert_eq!((shown[0], shown[CARRYOUT]), expected, "slice {at}");
        }
    }
}

#[test]
fn subtracted_and_split_as_any_cin() {
    let below = adding(ONES, 1, 0);
    // 7 - (5 + 1); not Z + X + 1; and the lowest of two lanes alone takes it.
    let above = |attributes: Set, x, z, alumode| {
        let ports = [(port::CARRYINSEL, FROM_BELOW), (port::ALUMODE, alumode)];
        let above = with(adding(x, z, 0), attributes, &[], &ports);
        let [_, shown] = clocked(&mut [below, above]).try_into().unwrap();
        (shown[0], shown[CARRYOUT])
    };
    assert_eq!(above(&[], 5, 7, 3), (1, 0));
    assert_eq!(above(&[], 7, 7, 1), (0, 0));
    assert_eq!(above(&[], 5, 7, 2), (ONES - 13, 0));
    assert_eq!(above(&[], 12, 10, 12), (8, 0));
    assert_eq!(above(&[(att::USE_SIMD, 1)], 0xFFFFFF, 0, 0), (0, 0));
    assert_eq!(above(&[(att::USE_SIMD, 2)], 0x001_001_001_001, 0, 0), (0x001_001_001_002, 0));
}

#[test]
fn settles_up_the_tallest_column() {
    // All ones in every slice: CARRYIN of the lowest goes up through all that stay so.
    for stop in [0, 1, 12, 23, 24] {
        let words = |at: u64| {
            let x = if at == stop { ONES - 1 } else { ONES };
            let select = if at == 0 { 0 } else { FROM_BELOW };
            with(adding(x, 0, 1), &[], &[], &[(port::CARRYINSEL, select)])
        };
        let outputs = clocked(&mut (0..24).map(words).collect::<Vec<Slice>>());
        for (at, shown) in (0..).zip(outputs) {
            let expected = if at < stop { (0, 1) } else { (ONES, 0) };
            assert_eq!((shown[0], shown[CARRYOUT]), expected, "slice {at}");
        }
    }
}

#[test]
fn registers_hold_it_for_a_clock_each() {
    // Each slice holds its sum, so the carry goes up one slice a clock.
    let words = |at| {
        let select = if at == 0 { 0 } else { FROM_BELOW };
        let ports = [(port::CARRYINSEL, select), (port::CARRYIN, 1)];
        with(adding(ONES, 0, 0), &[(att::PREG, 1)], &[], &ports)
    };
    let mut column: Vec<Slice> = (0..5).map(words).collect();
    for clock in 0..7 {
        let carries: Vec<u64> = clocked(&mut column).iter().map(|shown| shown[CARRYOUT]).collect();
        let expected: Vec<u64> = (0..5).map(|at| u64::from(at < clock)).collect();
        assert_eq!(carries, expected, "clock {clock}");
    }
}

/// A high half above a low half, of 48 bits each.
type Wide = (u64, u64);

/// Two words of 96 bits and their sum modulo 2^96.
const WIDE_SUMS: [(Wide, Wide, Wide); 12] = [
    ((0, ONES), (0, 1), (1, 0)),
    ((ONES, ONES), (0, 1), (0, 0)),
    ((ONES, ONES), (ONES, ONES), (ONES, ONES - 1)),
    ((5, 7), (6, 8), (11, 15)),
    ((TOP, TOP), (TOP, TOP), (1, 0)),
    ((ONES, 0), (0, ONES), (ONES, ONES)),
    ((ONES, 0), (1, ONES), (0, ONES)),
    ((0, TOP - 1), (0, TOP), (0, ONES)),
    ((TOP - 1, ONES), (0, 1), (TOP, 0)),
    ((3, ONES - 1), (4, 2), (8, 0)),
    // 0xDEF0 + 0x4321 is 0x12211, and above 0x222222222221 takes that carry.
    (
        (0x1234_5678_9ABC, 0xDEF0_1234_5678),
        (0x0FED_CBA9_8765, 0x4321_0000_0000),
        (0x2222_2222_2222, 0x2211_1234_5678),
    ),
    ((0, 0), (0, 0), (0, 0)),
];

/// Two slices with PREG 1 alone; the registers hold what an earlier life left.
fn two_slices(left: Set) -> [Slice; 2] {
    [slice(&[(att::PREG, 1)], left, &[]); 2]
}

/// Drives the lower slice by its own CARRYIN 0 and the upper one by the carry below.
fn drive(column: &mut [Slice; 2], low: (u64, u64), high: (u64, u64)) {
    column[0].ports = sum_of(low.0, low.1);
    column[1].ports = sum_of(high.0, high.1);
    column[1].ports[port::CARRYINSEL] = FROM_BELOW;
}

#[test]
fn sums_of_96_bits_over_two_slices() {
    let left_over: [Set; 3] = [&[], &[(reg::CARRYOUT, 1)], &[(reg::P, ONES), (reg::CARRYOUT, 1)]];
    for left in left_over {
        for (x, z, (high, low)) in WIDE_SUMS {
            // What is fed in the other clock has no part in the sum.
            for beside in [(0, 0), (ONES, ONES), (ONES, 0), (TOP, 77)] {
                let mut column = two_slices(left);
                drive(&mut column, (x.1, z.1), beside);
                clocked(&mut column);
                drive(&mut column, beside, (x.0, z.0));
                assert_eq!(clocked(&mut column)[0][0], low, "{x:?} + {z:?}");
                drive(&mut column, beside, beside);
                assert_eq!(clocked(&mut column)[1][0], high, "{x:?} + {z:?}");
            }
        }
    }
}

#[test]
fn a_new_sum_of_96_bits_each_clock() {
    // The high halves of one sum and the low halves of the next are fed together.
    let mut column = two_slices(&[]);
    let sums = WIDE_SUMS.len();
    for clock in 0..sums + 2 {
        let fed = |at: usize| WIDE_SUMS.get(at).copied().unwrap_or_default();
        let (x, z, _) = fed(clock);
        let (x_before, z_before, _) = clock.checked_sub(1).map(fed).unwrap_or_default();
        drive(&mut column, (x.1, z.1), (x_before.0, z_before.0));
        let shown = clocked(&mut column);
        if (1..=sums).contains(&clock) {
            assert_eq!(shown[0][0], WIDE_SUMS[clock - 1].2 .1, "low half in clock {clock}");
        }
        if clock >= 2 {
            assert_eq!(shown[1][0], WIDE_SUMS[clock - 2].2 .0, "high half in clock {clock}");
        }
    }
}

#[test]
fn a_total_of_96_bits() {
    // X is P: four times 2^48 - 1 are 3 * 2^48 + 2^48 - 4.
    let mut column = two_slices(&[]);
    for _ in 0..4 {
        drive(&mut column, (0, ONES), (0, 0));
        column.iter_mut().for_each(|slice| slice.ports[port::OPMODE] = 50);
        clocked(&mut column);
    }
    drive(&mut column, (0, 0), (0, 0));
    column.iter_mut().for_each(|slice| slice.ports[port::OPMODE] = 50);
    assert_eq!(clocked(&mut column)[0][0], ONES - 3);
    assert_eq!(clocked(&mut column)[1][0], 3);
}

#[test]
fn lines_have_the_carry_as_seventh_output() {
    // 2^48 - 1 and 1 below in clock 0, and 5 and 7 above in clock 1.
    let held = "A\t0\t0\t0\t0\t0\t0\t0\t0\t0\t0\t1\t0\t0\t0\t0\t0\t0\t0\t0\t0\t0\n";
    let low = "P\t1073741823\t262143\t1\t0\t51\t0\t0\t0\t0\t256\t0\n";
    let high = "P\t0\t5\t7\t0\t51\t0\t0\t2\t0\t256\t0\n";
    let idle =
        ["P\t0\t0\t0\t0\t51\t0\t0\t0\t0\t256\t0\n", "P\t0\t0\t0\t0\t51\t0\t0\t2\t0\t256\t0\n"];
    let listing = format!("N\t2\n{held}{held}{low}{}{}{high}{}", idle[1], idle[0], idle.concat());
    // A P of 0 is the pattern once it is loaded, and 13 leaves it.
    let printed = "O\t0\t0\t0\t0\t0\t0\t0\t0\t0\n\
        O\t0\t1\t0\t0\t0\t0\t0\t0\t0\n\
        O\t1\t0\t0\t1\t0\t0\t0\t0\t1\n\
        O\t1\t1\t0\t1\t0\t0\t0\t0\t0\n\
        O\t2\t0\t0\t1\t0\t0\t0\t0\t0\n\
        O\t2\t1\t13\t0\t0\t1\t0\t0\t0\n\
        E\t3\n";
    assert_eq!(played(listing), printed);
}

#[test]
fn number_02_takes_19_registers_and_seven_outputs_a_slice() {
    for count in [1, 2, 6, 7, 8, 18, 19, 20, 24] {
        let lengths = [(19, 7, 3), (19, 0, 2), (19, 6, 2), (19, 8, 2), (18, 7, 2), (20, 7, 2)];
        for (registers, outputs, refusal) in lengths {
            // The attributes are wrong as well, which waits for the lengths.
            let slices = |words: usize, value: u64| vec![value; words * count];
            let [attributes, ports] = [slices(22, 3), slices(11, 0)];
            let lent = [&attributes, &slices(registers, 0), &ports, &slices(outputs, 9)];
            let lent = stretches(&lent.map(|words| &words[..]));
            let reply = answer(&format!("clock {count} {lent}")).unwrap();
            assert_eq!(reply, format!("{} {lent}", REFUSED + refusal), "{registers}, {outputs}");
        }
    }
}

#[test]
fn number_04_takes_one_bit() {
    for word in [2, 3, 1 << 48, u64::MAX] {
        let words = with(adding(ONES, 1, 0), &[], &[(reg::CARRYOUT, word)], &[]);
        let column = [&words.attributes[..], &words.registers, &words.ports, &[9; 7]];
        let lent = stretches(&column);
        let reply = answer(&format!("clock 1 {lent}")).unwrap();
        assert_eq!(reply, format!("{} {lent}", REFUSED + 4));
    }
}
