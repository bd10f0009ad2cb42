//! Packed dot products: two sums a row from one column.

use crate::attributes::{Attributes, Lanes, Pipeline, Stages};
use crate::bits::{pattern, wrap};
use crate::column::Column;
use crate::ports::Ports;
use crate::refusal::{Reason, Refusal};

/// The triples of a run, row by row.
#[derive(Clone, Copy)]
pub struct Triples<'a> {
    pub terms: u64,
    pub rows: u64,
    pub a: &'a [i8],
    pub d: &'a [i8],
    pub b: &'a [i8],
}

/// A run whose sizes were accepted.
struct Run<'a> {
    terms: usize,
    rows: usize,
    triples: Triples<'a>,
}

/// The most terms a run can have, and the fewest that can overfill the low field (02, Ask 6).
const MOST_TERMS: u64 = 8;

/// How long a word needs from the first slice's ports to the top P.
const DELAY: usize = 3;

/// Steps the column, lists its top P clock by clock, and reads the answers.
pub fn clocked(triples: Triples, answers: &mut [i32], list: &mut [u64]) -> Result<u64, Refusal> {
    let run = judge(triples, answers.len(), Some(list.len()))?;
    let mut column = Column::cleared(vec![settings(); run.terms]);
    let mut steps = 0;
    for (clock, word) in list.iter_mut().enumerate() {
        let shown = column.clock(&run.ports(clock))?;
        let top = shown[run.terms - 1].p;
        *word = pattern(top, 48);
        steps += 1;
        if let Some(row) = clock.checked_sub(run.terms + DELAY) {
            let (high, low) = read_sums(top);
            answers[2 * row..][..2].copy_from_slice(&[high, low]);
        }
    }
    Ok(steps)
}

/// Works out both sums of each row directly.
pub fn plain(triples: Triples, answers: &mut [i32]) -> Result<u64, Refusal> {
    let run = judge(triples, answers.len(), None)?;
    for (row, pair) in answers.chunks_mut(2).enumerate() {
        let sums = (0..run.terms).map(|term| run.triple(row, term));
        let (high, low) = sums.fold((0, 0), |(high, low), (a, d, b)| (high + a * b, low + d * b));
        pair.copy_from_slice(&[high as i32, low as i32]);
    }
    Ok(0)
}

/// Both sums out of one P: the low field signed, the high one rounded down
/// and then given back what a negative low field borrowed.
pub fn read_sums(p: i64) -> (i32, i32) {
    let low = wrap(p, 18);
    let high = (p >> 18) + (p >> 17 & 1);
    (high as i32, low as i32)
}

/// Every check in its order; a row can be found once the sizes are right.
fn judge(triples: Triples, answers: usize, list: Option<usize>) -> Result<Run, Refusal> {
    let run = sized(triples, answers, list)?;
    match (0..run.rows).find(|row| run.overfills_low(*row)) {
        Some(lowest) => Err(Refusal::at(Reason::LowSum, lowest as u64)),
        None => Ok(run),
    }
}

/// The run whose memory has the right sizes.
fn sized(triples: Triples, answers: usize, list: Option<usize>) -> Result<Run, Refusal> {
    if !(1..=MOST_TERMS).contains(&triples.terms) {
        return Err(Refusal::whole(Reason::Terms));
    }
    if !(1..=4096).contains(&triples.rows) {
        return Err(Refusal::whole(Reason::Rows));
    }
    let (terms, rows) = (triples.terms as usize, triples.rows as usize);
    let right = [triples.a, triples.d, triples.b].iter().all(|array| array.len() == rows * terms)
        && answers == 2 * rows
        && list.iter().all(|words| *words == rows + terms + DELAY);
    if !right {
        return Err(Refusal::whole(Reason::Length));
    }
    Ok(Run { terms, rows, triples })
}

impl Run<'_> {
    /// Tells whether a row has all eight d and all eight b equal to -128 (02, Ask 6).
    /// Its low sum would be 131072, and no other leaves the 18 bits of the low field.
    fn overfills_low(&self, row: usize) -> bool {
        let lowest = |term| matches!(self.triple(row, term), (_, -128, -128));
        self.triples.terms == MOST_TERMS && (0..self.terms).all(lowest)
    }

    fn triple(&self, row: usize, term: usize) -> (i64, i64, i64) {
        let at = row * self.terms + term;
        (self.triples.a[at].into(), self.triples.d[at].into(), self.triples.b[at].into())
    }

    /// Slice k sees the row that entered slice 0 k clocks ago.
    fn ports(&self, clock: usize) -> Vec<Ports> {
        let due = |term: usize| clock.checked_sub(term).filter(|row| *row < self.rows);
        (0..self.terms)
            .map(|term| match due(term) {
                Some(row) => drive(self.triple(row, term)),
                None => drive((0, 0, 0)),
            })
            .collect()
    }
}

/// Product into X and Y, the slice below into Z, D into the pre-adder.
fn drive((a, d, b): (i64, i64, i64)) -> Ports {
    Ports { a: a << 18, d, b, opmode: 21, inmode: 4, enables: 8191, ..Ports::default() }
}

/// The settings every slice of a packed run has.
fn settings() -> Attributes {
    Attributes {
        a: Pipeline { stages: Stages::One, early_tap: false, from_below: false },
        b: Pipeline { stages: Stages::Two, early_tap: false, from_below: false },
        c_held: false,
        d_held: true,
        ad_held: true,
        m_held: true,
        p_held: true,
        opmode_held: false,
        alumode_held: false,
        inmode_held: false,
        carryin_held: false,
        carryinsel_held: false,
        multiplies: true,
        preadds: true,
        rnd: 0,
        pattern: 0,
        mask: 0,
        lanes: Lanes::One48,
    }
}
