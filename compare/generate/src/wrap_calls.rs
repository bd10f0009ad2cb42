//! Calls of clock at the ends of the pre-adder, by every way to it (02, Ask 4).

use std::io::{self, Write};

use crate::calls::Clock;
use crate::draw::a_word;
use crate::random::Random;
use crate::sweep_wrap::{cases, ways, Case, Way};
use crate::words::*;
use crate::wrap_oracle::{beside, pattern, BOTTOM, TOP};

/// Writes every sweep.
pub fn sweep(out: &mut impl Write, random: &mut Random) -> io::Result<()> {
    each_way(out, random)?;
    each_cascade(out, random)
}

/// Puts D and INMODE of a case where a slice takes them from.
fn put_d_and_inmode(clock: &mut Clock, slice: usize, way: &Way, case: &Case) {
    clock.put(slice, at::DREG, [po::D, rg::D], pattern(case.d));
    clock.put(slice, at::INMODEREG, [po::INMODE, rg::INMODE], way.inmode(case));
}

/// Puts a where a slice takes it from: A1, the A path's register, or its own port.
fn put_a(clock: &mut Clock, slice: usize, takes_a1: bool, a: u64) {
    match takes_a1 {
        true => clock.held(slice)[rg::A1] = a,
        false => clock.put(slice, at::AREG, [po::A, rg::A2], a),
    }
}

/// All cases by every way, a full column of them in each call; what is not read is drawn.
fn each_way(out: &mut impl Write, random: &mut Random) -> io::Result<()> {
    let ways = ways();
    let met: Vec<(Case, Way)> = cases(random)
        .into_iter()
        .flat_map(|case| ways.iter().map(move |way| (case, *way)))
        .collect();
    for part in met.chunks(FULL) {
        let slices: Vec<Attributes> =
            part.iter().map(|(_, way)| way.attributes(random, 0)).collect();
        let mut clock = Clock::of(random, &slices);
        for (slice, (case, way)) in part.iter().enumerate() {
            put_d_and_inmode(&mut clock, slice, way, case);
            let a = a_word(random, case.a);
            put_a(&mut clock, slice, way.takes_a1, a);
        }
        clock.write(out)?;
    }
    Ok(())
}

/// The lowest slice hands up a from each of its places, straight through the others, in each of
/// which it meets another d.
fn each_cascade(out: &mut impl Write, random: &mut Random) -> io::Result<()> {
    let through: Vec<Way> = ways().into_iter().filter(|way| !way.registers_a()).collect();
    for feeder in ways() {
        for a in [1, -1, TOP, BOTTOM] {
            let given = beside(a).into_iter().map(|given| Case::of(a, given));
            let above: Vec<(Case, Way)> = given.map(|case| (case, random.pick(&through))).collect();
            let mut slices = vec![feeder.attributes(random, 0)];
            slices.extend(above.iter().map(|(_, way)| way.attributes(random, 1)));
            let mut clock = Clock::of(random, &slices);
            for (slice, (case, way)) in above.iter().enumerate() {
                put_d_and_inmode(&mut clock, slice + 1, way, case);
            }
            let word = a_word(random, a);
            put_a(&mut clock, 0, feeder.hands_up_a1(), word);
            clock.write(out)?;
        }
    }
    Ok(())
}
