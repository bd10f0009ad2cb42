//! OVERFLOW and UNDERFLOW (02, Ask 2) by value, worked out by hand.
//!
//! PATTERN 0 and MASK 2^46 - 1 leave bits 47 and 46 in sight: 00 is PD and 11
//! is PBD, so the legal sums are those from -2^46 to 2^46 - 1.

mod one_slice;

const ONES: u64 = (1 << 48) - 1;
const HIGHEST: i64 = 70368744177663;
const LOWEST: i64 = -70368744177664;

/// What can stand beside a sum: PD, PBD, OVERFLOW and UNDERFLOW.
const POSITIVE: [u64; 4] = [1, 0, 0, 0];
const NEGATIVE: [u64; 4] = [0, 1, 0, 0];
const OVERFLOW: [u64; 4] = [0, 0, 1, 0];
const UNDERFLOW: [u64; 4] = [0, 0, 0, 1];
const UNMARKED: [u64; 4] = [0, 0, 0, 0];

/// OPMODE with Z the port C, and with Z the register P and Y the port C.
const SHOW_C: u64 = 48;
const ADD_C: u64 = 44;
const CE_P: u64 = 256;
const RST_P: u64 = 32;

/// One accepted clock: the registers after it and the outputs it showed, but for
/// PREADDWRAP and CARRYOUT.
fn clocked(preg: u64, registers: [u64; 19], ports: [u64; 11]) -> ([u64; 19], [u64; 5]) {
    let mut attributes = [0; 22];
    (attributes[10], attributes[20]) = (preg, HIGHEST as u64);
    let (after, [shown @ .., preaddwrap, carry_out]) =
        one_slice::clocked(&attributes, &registers, &ports);
    // The pre-adder adds 0 and 0, and X is 0 throughout.
    assert_eq!((preaddwrap, carry_out), (0, 0));
    (after, shown)
}

/// The four marks shown while PD, PBD, PDPAST and PBDPAST are held and C settles.
fn marks(preg: u64, held: [u64; 4], c: u64) -> [u64; 4] {
    let mut registers = [0; 19];
    registers[14..18].copy_from_slice(&held);
    let (_, [_, shown @ ..]) = clocked(preg, registers, [0, 0, c, 0, SHOW_C, 0, 0, 0, 0, CE_P, 0]);
    shown
}

/// Words for C that settle to PD, to PBD and to neither, with these marks.
const SETTLING: [(u64, [u64; 4]); 3] = [(0, POSITIVE), (ONES, NEGATIVE), (1 << 46, UNMARKED)];

/// PDPAST or PBDPAST, then PD and PBD, and the flag that they give.
const FLAG: [([u64; 3], u64); 8] = [
    ([0, 0, 0], 0),
    ([0, 0, 1], 0),
    ([0, 1, 0], 0),
    ([0, 1, 1], 0),
    ([1, 0, 0], 1),
    ([1, 0, 1], 0),
    ([1, 1, 0], 0),
    ([1, 1, 1], 0),
];

#[test]
fn overflow_of_each_setting() {
    for ([pd_past, pd, pbd], overflow) in FLAG {
        // Neither PBDPAST nor what settles bears on it.
        for pbd_past in [0, 1] {
            for (c, _) in SETTLING {
                let held = [pd, pbd, pd_past, pbd_past];
                assert_eq!(marks(1, held, c)[..3], [pd, pbd, overflow], "{held:?}, C {c}");
            }
        }
    }
}

#[test]
fn underflow_of_each_setting() {
    for ([pbd_past, pd, pbd], underflow) in FLAG {
        // Neither PDPAST nor what settles bears on it.
        for pd_past in [0, 1] {
            for (c, _) in SETTLING {
                let held = [pd, pbd, pd_past, pbd_past];
                assert_eq!(marks(1, held, c)[3], underflow, "{held:?}, C {c}");
            }
        }
    }
}

#[test]
fn no_flag_without_the_register_of_p() {
    for setting in 0..16 {
        let held = [setting >> 3 & 1, setting >> 2 & 1, setting >> 1 & 1, setting & 1];
        for (c, settled) in SETTLING {
            assert_eq!(marks(0, held, c), settled, "{held:?}, C {c}");
        }
    }
}

/// Lets P take each step from a cleared slice, and holds the true sum, cut to
/// 48 bits, and the marks against what is shown after it.
fn accumulates(trace: &[(i64, i64, [u64; 4])]) {
    // Modulo 2^48, adding a step is subtracting it with its sign turned.
    for (alumode, sign) in [(0, 1), (3, -1)] {
        let mut registers = [0; 19];
        for &(step, sum, expected) in trace {
            let c = (sign * step) as u64 & ONES;
            registers = clocked(1, registers, [0, 0, c, 0, ADD_C, alumode, 0, 0, 0, CE_P, 0]).0;
            let (_, [p, shown @ ..]) = clocked(1, registers, [0; 11]);
            assert_eq!((p, shown), (sum as u64 & ONES, expected), "mode {alumode}, sum {sum}");
        }
    }
}

#[test]
fn swing_through_zero_lights_neither() {
    accumulates(&[
        (5, 5, POSITIVE),
        (-8, -3, NEGATIVE),
        (7, 4, POSITIVE),
        (-4, 0, POSITIVE),
        (-1, -1, NEGATIVE),
        (1, 0, POSITIVE),
        // The widest swing there is, from end to end and back.
        (70368744177663, HIGHEST, POSITIVE),
        (-140737488355327, LOWEST, NEGATIVE),
        (140737488355327, HIGHEST, POSITIVE),
    ]);
}

#[test]
fn true_overflow_after_a_swing() {
    accumulates(&[
        (1000, 1000, POSITIVE),
        (-3000, -2000, NEGATIVE),
        (2001, 1, POSITIVE),
        (70368744177662, HIGHEST, POSITIVE),
        (1, 70368744177664, OVERFLOW),
        // Flagged once, on the way out, and not on the way back.
        (1, 70368744177665, UNMARKED),
        (-2, HIGHEST, POSITIVE),
        (1, 70368744177664, OVERFLOW),
    ]);
}

#[test]
fn true_underflow_after_a_swing() {
    accumulates(&[
        (-1000, -1000, NEGATIVE),
        (3000, 2000, POSITIVE),
        (-2001, -1, NEGATIVE),
        (-70368744177663, LOWEST, NEGATIVE),
        (-1, -70368744177665, UNDERFLOW),
        (-1, -70368744177666, UNMARKED),
        (2, LOWEST, NEGATIVE),
        (-1, -70368744177665, UNDERFLOW),
    ]);
}

#[test]
fn flag_goes_by_the_sign_that_was_left() {
    // From a legal negative sum to 01.., and on from there to 10..
    accumulates(&[
        (-1, -1, NEGATIVE),
        (70368744177665, 70368744177664, UNDERFLOW),
        (70368744177664, 140737488355328, UNMARKED),
    ]);
    accumulates(&[(-5, -5, NEGATIVE), (140737488355327, 140737488355322, UNDERFLOW)]);
    // From a legal sum that is not negative to 10.., and on from there to 01..
    accumulates(&[
        (0, 0, POSITIVE),
        (-70368744177665, -70368744177665, OVERFLOW),
        (-70368744177664, -140737488355329, UNMARKED),
    ]);
    accumulates(&[(HIGHEST, HIGHEST, POSITIVE), (-140737488355328, -70368744177665, OVERFLOW)]);
    // The farthest that one word leads: 3 * 2^46 - 2, still 10.., and -3 * 2^46, still 01..
    accumulates(&[(HIGHEST, HIGHEST, POSITIVE), (140737488355327, 211106232532990, OVERFLOW)]);
    accumulates(&[(LOWEST, LOWEST, NEGATIVE), (-140737488355328, -211106232532992, UNDERFLOW)]);
}

#[test]
fn first_sum_has_no_past() {
    // A cleared slice holds P 0 but PD 0 as well.
    accumulates(&[(70368744177664, 70368744177664, UNMARKED)]);
    accumulates(&[(-70368744177665, -70368744177665, UNMARKED)]);
}

#[test]
fn flag_stands_while_p_is_kept() {
    for (c, flagged) in [(0, OVERFLOW), (ONES, UNDERFLOW)] {
        let load = |c| [0, 0, c, 0, SHOW_C, 0, 0, 0, 0, CE_P, 0];
        let (inside, _) = clocked(1, [0; 19], load(c));
        let (outside, _) = clocked(1, inside, load(1 << 46));
        let (kept, shown) = clocked(1, outside, [0; 11]);
        assert_eq!((kept, &shown[1..]), (outside, &flagged[..]));
        // The reset, enabled or not, shows it once more and leaves nothing to flag.
        for enable in [0, CE_P] {
            let (reset, shown) = clocked(1, kept, [0, 0, 0, 0, 0, 0, 0, 0, 0, enable, RST_P]);
            assert_eq!((reset, &shown[1..]), ([0; 19], &flagged[..]));
        }
    }
}
