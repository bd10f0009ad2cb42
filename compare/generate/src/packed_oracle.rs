//! What packed and plain runs must answer, by plain arithmetic on the numbers that they are lent.

use std::ops::RangeInclusive;

use crate::read_calls::{Read, KINDS, PACKED};

/// The low sums that 18 bits hold, signed.
const LOW_SUMS: RangeInclusive<i128> = -(1 << 17)..=(1 << 17) - 1;

/// The high and the low sum of each row, once the lengths are right.
pub fn sums(call: &Read) -> Vec<[i128; 2]> {
    let rows = |which: usize| call.stretches[which].chunks(call.plain[0] as usize);
    let dot = |left: &[i128], right: &[i128]| left.iter().zip(right).map(|(l, r)| l * r).sum();
    let sides = rows(0).zip(rows(1)).zip(rows(2));
    sides.map(|((a, d), b)| [dot(a, b), dot(d, b)]).collect()
}

/// The lowest row whose low sum does not fit, once the lengths are right.
pub fn lowest_overfull(call: &Read) -> Option<usize> {
    sums(call).iter().position(|[_, low]| !LOW_SUMS.contains(low))
}

/// Says where an accepted run has another result than the numbers give.
pub fn check(kind: usize, call: &Read, answer: &Read) -> Result<(), String> {
    let name = KINDS[kind].0;
    let clocks = call.plain[0] + call.plain[1] + 3;
    let (returned, right) = (answer.plain[0], if kind == PACKED { clocks } else { 0 });
    if returned != right {
        return Err(format!("{name} returned {returned}, the oracle says {right}"));
    }
    let sums = sums(call);
    for (row, (given, right)) in answer.stretches[3].chunks(2).zip(&sums).enumerate() {
        if given != right {
            return Err(format!(
                "{name} answers {given:?} in row {row}, the oracle says {right:?}"
            ));
        }
    }
    match kind {
        PACKED => check_list(call, answer, &sums),
        _ => Ok(()),
    }
}

/// The list has what P shows: 0 until the first row is through, then one row after the other.
fn check_list(call: &Read, answer: &Read, sums: &[[i128; 2]]) -> Result<(), String> {
    let p = |[high, low]: &[i128; 2]| ((high << 18) + low).rem_euclid(1 << 48);
    let before = call.plain[0] as usize + 3;
    let right = std::iter::repeat(0).take(before).chain(sums.iter().map(p));
    for (clock, (given, right)) in answer.stretches[4].iter().zip(right).enumerate() {
        if *given != right {
            return Err(format!("packed lists {given} in clock {clock}, the oracle says {right}"));
        }
    }
    Ok(())
}
