//! Clocks in which a carry is made, hidden, held and taken (02, Ask 7), for listings and for calls.

use std::ops::RangeInclusive;

use crate::carry_oracle::{Sources, CARRIES};
use crate::draw::{self, LOGIC_MODES};
use crate::oracle::Controls;
use crate::random::Random;
use crate::words::*;
use crate::wrap_oracle::signed;

/// What a slice reads in one clock, wherever it reads it from.
#[derive(Clone, Copy, Default)]
pub struct Reads {
    pub ab: u64,
    pub c: u64,
    pub carryin: u64,
    pub controls: Controls,
}

impl Reads {
    /// A:B and C that add up to a word and a carry.
    pub fn summing(random: &mut Random, word: u64, carry: u64) -> Reads {
        let sum = carry << 48 | word;
        // CARRYIN is needed where both are all ones, and may be there where anything is.
        let carryin = sum.saturating_sub(2 * ones(48)).max(random.below(2).min(sum));
        let both = sum - carryin;
        let ab = random.within(both.saturating_sub(ones(48)), both.min(ones(48)));
        Reads { ab, c: both - ab, carryin, controls: adding(ADDS_AB_AND_C, 0) }
    }

    /// C alone, which lanes do not change.
    pub fn c_alone(word: u64) -> Reads {
        Reads { c: word, controls: adding(3 << 4, 0), ..Reads::default() }
    }
}

fn adding(opmode: u64, carryinsel: u64) -> Controls {
    Controls { opmode, carryinsel, ..Controls::default() }
}

/// Enables and resets that load P, keep it, clear it, and clear it though it is enabled.
const LOADS: (u64, u64) = (CE_ALL, 0);
const LINES: [(u64, u64); 4] = [LOADS, (CE_ALL ^ CE_P, 0), (CE_ALL ^ CE_P, RST_P), (CE_ALL, RST_P)];

/// A slice in one clock: what P and the carry hold, what it reads, its enables and resets.
#[derive(Clone, Copy)]
pub struct Step {
    pub p: u64,
    pub carry: u64,
    pub reads: Reads,
    pub line: (u64, u64),
}

impl Step {
    /// A slice that adds what is drawn.
    fn any(random: &mut Random) -> Step {
        let [p, word] = [(); 2].map(|()| draw::word(random, 48));
        let [carry, settled] = [(); 2].map(|()| random.below(2));
        Step { p, carry, reads: Reads::summing(random, word, settled), line: LOADS }
    }

    /// A slice that shows a P and a carry, while the other one of its two carries is another.
    pub fn showing(random: &mut Random, at: &Attributes, p: u64, carry: u64) -> Step {
        let other = draw::word(random, 48);
        match at[at::PREG] {
            1 => {
                let reads = Reads::summing(random, other, 1 - carry);
                Step { p, carry, reads, line: LOADS }
            }
            _ => {
                let reads = Reads::summing(random, p, carry);
                Step { p: other, carry: 1 - carry, reads, line: LOADS }
            }
        }
    }

    /// A slice that adds the carry from below.
    pub fn taking(random: &mut Random, sum_without: Option<u64>) -> Step {
        let mut step = Step::any(random);
        if let Some(sum) = sum_without {
            step.reads = Reads::summing(random, sum, 0);
            step.reads.c += step.reads.carryin;
        }
        step.reads.controls.carryinsel = 2;
        step
    }
}

/// Clocks of a column, each in a state of its own.
pub struct Trial {
    pub aim: &'static str,
    pub attributes: Vec<Attributes>,
    pub clocks: Vec<Vec<Step>>,
}

/// Every trial.
pub fn trials(random: &mut Random) -> Vec<Trial> {
    let mut all = Vec::new();
    for (preg, simd) in [(0, 0), (0, 1), (0, 2), (1, 0), (1, 1), (1, 2)] {
        let cases = [made(random, preg, simd), hidden(random, preg, simd)].concat();
        all.extend(threes(random, preg, simd, &cases));
    }
    for preg in [0, 1] {
        all.push(edges_of_the_register(random, preg));
        all.extend([0, 1].map(|held| at_the_bottom(random, preg, held)));
    }
    all.extend([straight_up(random), clock_by_clock(random)]);
    all
}

/// Attributes of a slice without cascades and lanes, in which A and B go to the product straight.
fn attributes(random: &mut Random, preg: u64) -> Attributes {
    let mut at = draw::attributes(random);
    for word in [at::A_INPUT, at::B_INPUT, at::MREG, at::AMULTSEL, at::USE_SIMD] {
        at[word] = 0;
    }
    at[at::PREG] = preg;
    at
}

/// A full column of them.
fn full_column(random: &mut Random, mut preg: impl FnMut(&mut Random) -> u64) -> Vec<Attributes> {
    let mut slice = |_| {
        let preg = preg(random);
        attributes(random, preg)
    };
    (0..FULL).map(&mut slice).collect()
}

/// A slice that adds, and what it is given.
#[derive(Clone, Copy)]
struct Case {
    sources: Sources,
    controls: Controls,
}

/// The sums that a case may aim at: the edges of a carry, sums that carry, any sum.
const EDGES: [RangeInclusive<u64>; 3] =
    [CARRIES - 1..=CARRIES - 1, CARRIES..=CARRIES, 2 * CARRIES - 1..=2 * CARRIES - 1];
const CARRYING: RangeInclusive<u64> = CARRIES..=2 * CARRIES - 1;
const ANY: RangeInclusive<u64> = 0..=2 * CARRIES - 1;

/// How often a sum is tried for before it counts as one that cannot be.
const TRIES: u32 = 1000;

/// X + Z + CIN, with the product too.
fn sum(sources: &Sources, controls: Controls) -> u64 {
    let product = || (signed(sources.ab >> 18, 27) * signed(sources.ab, 18)) as u64 & ones(48);
    let x = sources.x(controls.x()).unwrap_or_else(product);
    x + sources.z(controls.z()) + sources.cin(controls.carryinsel)
}

fn draw_sources(random: &mut Random) -> Sources {
    let [whole, c, p, pcin] = [(); 4].map(|()| draw::word(random, 48));
    let sides = draw::word(random, 30) << 18 | draw::word(random, 18);
    let ab = random.pick(&[whole, sides]);
    Sources { ab, c, p, pcin, carryin: random.below(2), below: random.below(2) }
}

/// Adds what a sum lacks to an operand that is free for it.
fn make_up(sources: &mut Sources, controls: Controls, lacks: u64) {
    let word = match (controls.x(), controls.z()) {
        (3, _) => &mut sources.ab,
        (_, 3) => &mut sources.c,
        (_, 1) => &mut sources.pcin,
        (2, 0 | 5) | (0 | 1, 2) => &mut sources.p,
        _ => return,
    };
    let sum = word.wrapping_add(lacks);
    *word = if sum <= ones(48) { sum } else { *word };
}

/// What a slice with these controls is given for such a sum, or for any one where there is none;
/// `pin` says which of it is fixed.
fn case(
    random: &mut Random,
    controls: Controls,
    goal: RangeInclusive<u64>,
    pin: impl Fn(&mut Sources),
) -> Case {
    let mut sources = Sources::default();
    for _ in 0..TRIES {
        sources = draw_sources(random);
        pin(&mut sources);
        let aim = random.within(*goal.start(), *goal.end());
        let lacks = aim.wrapping_sub(sum(&sources, controls));
        make_up(&mut sources, controls, lacks);
        pin(&mut sources);
        if goal.contains(&sum(&sources, controls)) {
            break;
        }
    }
    Case { sources, controls }
}

/// The selects that a slice may have.
fn carryinsels(preg: u64) -> &'static [u64] {
    if preg == 1 {
        &[0, 1, 2, 3, 5, 7]
    } else {
        &[0, 1, 2, 3]
    }
}

fn xs_and_zs(preg: u64) -> Vec<(u64, u64)> {
    let takes_p = |x: u64, z: u64| x == 2 || z == 2 || z == 6;
    let all = [0, 2, 3].into_iter().flat_map(|x| [0, 1, 2, 3, 5, 6].map(|z| (x, z)));
    all.filter(|(x, z)| preg == 1 || !takes_p(*x, *z)).collect()
}

/// Carries that are made, or just not: by all operands, at all edges, by every CIN. In lanes they
/// are hidden.
fn made(random: &mut Random, preg: u64, simd: u64) -> Vec<Case> {
    let goals: Vec<_> = match simd {
        0 => EDGES.into_iter().chain([ANY, ANY]).collect(),
        _ => vec![CARRYING],
    };
    let mut cases = Vec::new();
    for (x, z) in xs_and_zs(preg) {
        for carryinsel in carryinsels(preg) {
            let controls = adding(z << 4 | x, *carryinsel);
            for goal in &goals {
                cases.push(case(random, controls, goal.clone(), |_| ()));
            }
        }
    }
    cases
}

/// ALUMODE, the W select and the Y select that hide a carry, one at a time.
fn hiders(preg: u64) -> Vec<(u64, u64, u64)> {
    let modes = (1..4).chain(LOGIC_MODES).map(|mode| (mode, 0, 0));
    let ws = (2 - preg..4).map(|w| (0, w, 0));
    modes.chain(ws).chain([(0, 0, 2), (0, 0, 3)]).collect()
}

/// Carries that a mode or a select hides, also one whose operand is 0, and one of the product.
fn hidden(random: &mut Random, preg: u64, simd: u64) -> Vec<Case> {
    if simd != 0 {
        return Vec::new();
    }
    let mut cases = Vec::new();
    for (alumode, w, y) in hiders(preg) {
        for (x, z) in xs_and_zs(preg) {
            let carryinsel = random.pick(carryinsels(preg));
            let opmode = w << 7 | z << 4 | y << 2 | x;
            let controls = Controls { opmode, alumode, inmode: 0, carryinsel };
            cases.push(case(random, controls, CARRYING, |_| ()));
            let of_0 = |sources: &mut Sources| match (w, y) {
                (1, _) => sources.p = 0,
                _ => sources.c = 0,
            };
            if [(1, 0), (3, 0), (0, 3)].contains(&(w, y)) {
                cases.push(case(random, controls, CARRYING, of_0));
            }
        }
    }
    for z in [0, 1, 2, 3, 5, 6].into_iter().filter(|z| preg == 1 || ![2, 6].contains(z)) {
        for goal in [CARRIES..=CARRIES, CARRYING, CARRYING] {
            let carryinsel = random.pick(carryinsels(preg));
            cases.push(case(random, adding(z << 4 | 5, carryinsel), goal, |_| ()));
        }
    }
    cases
}

/// The most clocks of a trial.
const CLOCKS: usize = 8;

/// The cases by slices in threes: one shows what a case gets from below, one has the case, and one
/// takes its carry, in any lanes. The threes begin at slice 0, 1 and 2 in turn.
fn threes(random: &mut Random, preg: u64, simd: u64, cases: &[Case]) -> Vec<Trial> {
    let mut trials = Vec::new();
    let mut left = cases;
    while !left.is_empty() {
        let middles: Vec<usize> = (1 + trials.len() % 3..FULL).step_by(3).collect();
        let (now, later) = left.split_at(left.len().min(CLOCKS * middles.len()));
        let mut attributes = full_column(random, |random| random.below(2));
        for (turn, k) in middles.iter().enumerate() {
            let at = &mut attributes[*k];
            (at[at::PREG], at[at::USE_SIMD], at[at::USE_MULT]) = (preg, simd, u64::from(simd == 0));
            // W 2 hides a carry also where it gives 0.
            at[at::RND] *= turn as u64 % 2;
            if let Some(above) = attributes.get_mut(k + 1) {
                (above[at::USE_SIMD], above[at::USE_MULT]) = (random.below(3), 0);
            }
        }
        let clocks = now.chunks(middles.len()).map(|part| {
            let met: Vec<(usize, &Case)> = middles.iter().copied().zip(part).collect();
            clock_of_threes(random, &attributes, &met)
        });
        let clocks = clocks.collect();
        trials.push(Trial { aim: "carries made and hidden", attributes, clocks });
        left = later;
    }
    trials
}

fn clock_of_threes(
    random: &mut Random,
    attributes: &[Attributes],
    met: &[(usize, &Case)],
) -> Vec<Step> {
    let mut steps: Vec<Step> = attributes.iter().map(|_| Step::any(random)).collect();
    for (k, Case { sources, controls }) in met {
        let Sources { ab, c, p, pcin, carryin, below } = *sources;
        steps[k - 1] = Step::showing(random, &attributes[k - 1], pcin, below);
        let reads = Reads { ab, c, carryin, controls: *controls };
        steps[*k] = Step { p, carry: random.below(2), reads, line: LOADS };
        if let Some(above) = steps.get_mut(k + 1) {
            *above = Step::taking(random, None);
            above.reads.controls.alumode = random.below(4);
        }
    }
    steps
}

/// Every slice with either carry held and either settled, while P is loaded, kept and cleared.
fn edges_of_the_register(random: &mut Random, preg: u64) -> Trial {
    let attributes = full_column(random, |_| preg);
    let mut step = |case: usize| {
        let word = draw::word(random, 48);
        let reads = Reads::summing(random, word, case as u64 >> 1 & 1);
        let p = draw::word(random, 48);
        Step { p, carry: case as u64 & 1, reads, line: LINES[case >> 2] }
    };
    let mut clock = |clock: usize| (0..FULL).map(|k| step((k + clock) % 16)).collect();
    let clocks = (0..16).map(&mut clock).collect();
    Trial { aim: "edges of the carry's register", attributes, clocks }
}

/// CARRYINSEL 2 in a slice alone, by its port or its register, beside every bit that it might take.
fn at_the_bottom(random: &mut Random, preg: u64, held: u64) -> Trial {
    let mut at = attributes(random, preg);
    at[at::CARRYINSELREG] = held;
    let mut clock = |case: u64| {
        let [carryin, carry, sign, exact] = [0, 1, 2, 3].map(|bit| case >> bit & 1);
        let mut step = Step::taking(random, (exact == 1).then_some(CARRIES - 1));
        (step.carry, step.reads.carryin) = (carry, carryin);
        step.p = draw::word(random, 47) | sign << 47;
        vec![step]
    };
    let clocks = (0..16).map(&mut clock).collect();
    Trial { aim: "CARRYINSEL 2 at the bottom", attributes: vec![at], clocks }
}

/// A carry of slice 0 that goes up to each slice in one clock, and no further.
fn straight_up(random: &mut Random) -> Trial {
    let attributes = full_column(random, |_| 0);
    let mut clock = |highest: usize| {
        let mut steps: Vec<Step> = (0..FULL).map(|_| Step::any(random)).collect();
        let word = draw::word(random, 48);
        steps[0].reads = Reads::summing(random, word, 1);
        for step in &mut steps[1..=highest] {
            *step = Step::taking(random, Some(CARRIES - 1));
        }
        steps
    };
    let clocks = (1..FULL).map(&mut clock).collect();
    Trial { aim: "carries straight up", attributes, clocks }
}

/// Carries that registers hand up, to every slice.
fn clock_by_clock(random: &mut Random) -> Trial {
    let attributes = full_column(random, |_| 1);
    let mut clock = |held: u64| {
        let mut steps: Vec<Step> = (0..FULL).map(|_| Step::taking(random, None)).collect();
        steps.iter_mut().enumerate().for_each(|(k, step)| step.carry = held >> (k % 2) & 1);
        steps
    };
    let clocks = (0..4).map(&mut clock).collect();
    Trial { aim: "carries from registers", attributes, clocks }
}
