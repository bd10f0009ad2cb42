//! The items that OVERFLOW and UNDERFLOW meet (02, Ask 2), in listings and in calls.

use crate::table::Table;
use crate::words::*;

/// What P does in one load, and the flags that follow: it swings through 0, or it leaves the legal
/// sums, from 0 or above (over) or from below 0 (under).
const MOVES: [&str; 6] = [
    "down through 0, no flag",
    "up through 0, no flag",
    "over, OVERFLOW alone",
    "under, UNDERFLOW alone",
    "over with PREG 0, no flag",
    "under with PREG 0, no flag",
];

/// The move of a P that had one PD and PBD and has another, where the flags are right for it.
fn move_of(preg: u64, before: [u64; 2], now: [u64; 2], flags: [u64; 2]) -> Option<usize> {
    match (preg, before, now, flags) {
        (1, [1, 0], [0, 1], [0, 0]) => Some(0),
        (1, [0, 1], [1, 0], [0, 0]) => Some(1),
        (1, [1, 0], [0, 0], [1, 0]) => Some(2),
        (1, [0, 1], [0, 0], [0, 1]) => Some(3),
        (0, [1, 0], [0, 0], [0, 0]) => Some(4),
        (0, [0, 1], [0, 0], [0, 0]) => Some(5),
        _ => None,
    }
}

/// The groups of listings, where PATTERN is 0 and MASK hides low bits.
pub struct SeenSums {
    default_mask: usize,
    other_mask: usize,
}

impl SeenSums {
    pub fn new(table: &mut Table) -> SeenSums {
        SeenSums {
            default_mask: table.group("sums with MASK 2^46 - 1", MOVES),
            other_mask: table.group("sums with another MASK of low bits", MOVES),
        }
    }

    /// Counts the accepted clocks of a column: its ports and outputs, slice by slice.
    pub fn column(
        &self,
        table: &mut Table,
        attributes: &[Attributes],
        ports: &[Ports],
        shown: &[Outputs],
    ) {
        for (slice, at) in attributes.iter().enumerate() {
            if let Some(group) = self.group(at) {
                let of_slice = |clock: usize| clock * attributes.len() + slice;
                for clock in 2..shown.len() / attributes.len() {
                    let last = [clock - 2, clock - 1, clock].map(of_slice);
                    let item = listed_move(at, last.map(|i| &ports[i]), last.map(|i| &shown[i]));
                    item.into_iter().for_each(|item| table.met(group, item));
                }
            }
        }
    }

    fn group(&self, at: &Attributes) -> Option<usize> {
        let low_bits = at[at::MASK] & (at[at::MASK] + 1) == 0 && at[at::MASK] < ones(48);
        match (at[at::PATTERN], at[at::MASK] == ones(46)) {
            (0, true) => Some(self.default_mask),
            (0, false) if low_bits => Some(self.other_mask),
            _ => None,
        }
    }
}

/// The move that three clocks in a row tell of a slice.
fn listed_move(at: &Attributes, ports: [&Ports; 3], shown: [&Outputs; 3]) -> Option<usize> {
    let matches = |clock: usize| [shown[clock][1], shown[clock][2]];
    let loads =
        |clock: usize| ports[clock][po::CE] & CE_P != 0 && ports[clock][po::RST] & RST_P == 0;
    let flags = [shown[2][3], shown[2][4]];
    match at[at::PREG] {
        1 => move_of(1, matches(1), matches(2), flags),
        // What is shown settles then; the registers have it a clock later, if P is loaded.
        _ if loads(0) && loads(1) => move_of(0, matches(0), matches(1), flags),
        _ => None,
    }
}

/// The groups of calls, where the registers are lent and may hold anything.
pub struct SeenHeld {
    moves: usize,
    held: [usize; 2],
}

impl SeenHeld {
    pub fn new(table: &mut Table) -> SeenHeld {
        let label = |held: usize| {
            let [pdpast, pbdpast, pd, pbd] = [3, 2, 1, 0].map(|bit| held >> bit & 1);
            format!("past {pdpast}/{pbdpast} now {pd}/{pbd}")
        };
        SeenHeld {
            moves: table.group("moves of P", MOVES),
            held: [0, 1].map(|preg| {
                table.group(&format!("PD/PBD held with PREG {preg}"), (0..16).map(label))
            }),
        }
    }

    /// Counts an accepted slice, by its registers and the flags it showed.
    pub fn slice(&self, table: &mut Table, at: &Attributes, held: &Registers, flags: [u64; 2]) {
        let [now, past] =
            [[rg::PD, rg::PBD], [rg::PDPAST, rg::PBDPAST]].map(|at| at.map(|i| held[i]));
        let item = [past, now].concat().iter().fold(0, |item, bit| item * 2 + bit);
        table.met(self.held[at[at::PREG] as usize], item as usize);
        let item = move_of(at[at::PREG], past, now, flags);
        item.into_iter().for_each(|item| table.met(self.moves, item));
    }
}
