//! The items that the pre-adder's mark meets (02, Ask 4), in listings and in calls.

use crate::table::Table;
use crate::words::inmode::*;
use crate::words::*;
use crate::wrap_oracle::{mark_of, Held, PreAdder, BOTTOM, TOP};

/// The groups of the table that one clock is counted in.
pub struct SeenWrap {
    ends: [usize; 4],
    farthest: usize,
    from_zero: usize,
    left_out: usize,
    not_used: usize,
    way: usize,
    behind: usize,
    other_word: usize,
    wide_a: usize,
    load: usize,
    slice: usize,
}

const SORTS: [&str; 2] = ["sum", "difference"];
const BEHIND: [&str; 4] =
    ["ADREG 0 USE_MULT 0", "ADREG 0 USE_MULT 1", "ADREG 1 USE_MULT 0", "ADREG 1 USE_MULT 1"];
const PLACES: [&str; 6] =
    ["at the top", "1 over it", "more over it", "at the bottom", "1 under it", "more under it"];
const FARTHEST: [&str; 4] =
    ["top plus top", "bottom plus bottom", "top minus bottom", "bottom minus top"];
const WAYS: [&str; 10] = [
    "A port",
    "A cascade",
    "A2 with AREG 1",
    "A2 with AREG 2",
    "A1 with AREG 1",
    "A1 with AREG 2",
    "D port",
    "D register",
    "INMODE port",
    "INMODE register",
];
const READ: [&str; 6] = ["A path", "A1", "D port", "D register", "INMODE port", "INMODE register"];
const LOADS: [&str; 3] = ["AD loads", "AD is kept", "AD is cleared"];

/// Where a true sum or difference lies, if at an end or past it.
fn place(result: i64) -> Option<usize> {
    match (result - TOP, result - BOTTOM) {
        (0, _) => Some(0),
        (1, _) => Some(1),
        (2.., _) => Some(2),
        (_, 0) => Some(3),
        (_, -1) => Some(4),
        (_, i64::MIN..=-2) => Some(5),
        _ => None,
    }
}

/// What AD does at the edge.
fn load(po: &Ports) -> usize {
    match (po[po::RST] & RST_D, po[po::CE] & CE_AD) {
        (0, 0) => 1,
        (0, _) => 0,
        _ => 2,
    }
}

/// Each name with both labels.
fn with_both<T: ToString>(names: impl IntoIterator<Item = T>, labels: [&str; 2]) -> Vec<String> {
    let names = names.into_iter().map(|name| name.to_string());
    names.flat_map(|name| labels.map(|label| format!("{name}, {label}"))).collect()
}

impl SeenWrap {
    pub fn new(table: &mut Table) -> SeenWrap {
        let ends = |sort| PLACES.map(|place| format!("{sort} {place}"));
        let left_out = ["a cleared, else sum", "a cleared, else difference"]
            .into_iter()
            .chain(["d left out, else sum", "d left out, else difference"]);
        let pregs = ["PREG 0", "PREG 1"];
        let loads = |adreg| LOADS.map(|load| format!("ADREG {adreg}, {load}"));
        SeenWrap {
            ends: BEHIND.map(|behind| {
                table.group(&format!("pre-adder with {behind}"), SORTS.into_iter().flat_map(ends))
            }),
            farthest: table.group("pre-adder, farthest past its ends", FARTHEST),
            from_zero: table.group("PREADDWRAP 1, d left out and a at the bottom", BEHIND),
            left_out: table.group("PREADDWRAP 0 with", with_both(left_out, ["over", "under"])),
            not_used: table
                .group("PREADDWRAP 0 with AMULTSEL 0 and a", ["at the top", "at the bottom"]),
            way: table.group("PREADDWRAP 1 by", WAYS),
            behind: table.group("PREADDWRAP 1 with", pregs.into_iter().chain(SIMD_NAMES)),
            other_word: table.group(
                "PREADDWRAP that the word not read would turn, with",
                with_both(READ, ["mark 0", "mark 1"]),
            ),
            wide_a: table.group("PREADDWRAP that A above 27 bits would turn", ["0", "1"]),
            load: table.group("PREADDWRAP 1 while", (0..2).flat_map(loads)),
            slice: table.group("PREADDWRAP 1 at slice", 0..24),
        }
    }

    /// Holds the marks that an accepted clock showed against the oracle, and counts what they met.
    pub fn clock(
        &self,
        table: &mut Table,
        attributes: &[Attributes],
        pre_adders: &[PreAdder],
        ports: &[Ports],
        marks: &[u64],
    ) -> Result<(), String> {
        for (slice, pre) in pre_adders.iter().enumerate() {
            let (shown, right) = (marks[slice], pre.mark());
            if shown != right {
                return Err(format!(
                    "PREADDWRAP is {shown} in slice {slice}, the oracle says {right}"
                ));
            }
        }
        for (slice, pre) in pre_adders.iter().enumerate() {
            let at = &attributes[slice];
            self.both_sides(table, at, pre);
            self.one_side(table, at, pre);
            self.words(table, pre);
            if pre.mark() == 1 {
                self.marked(table, at, pre, &ports[slice]);
                table.met(self.slice, slice);
            }
        }
        Ok(())
    }

    /// Counts a true sum or difference of a and d.
    fn both_sides(&self, table: &mut Table, at: &Attributes, pre: &PreAdder) {
        if pre.inmode() & (TAKES_D | CLEARS_A) != TAKES_D {
            return;
        }
        let subtracts = pre.inmode() & SUBTRACTS != 0;
        if let Some(item) = place(pre.result()) {
            let group = self.ends[behind(at)];
            table.met(group, usize::from(subtracts) * PLACES.len() + item);
        }
        let farthest = match (subtracts, pre.a_and_d()) {
            (false, [TOP, TOP]) => Some(0),
            (false, [BOTTOM, BOTTOM]) => Some(1),
            (true, [BOTTOM, TOP]) => Some(2),
            (true, [TOP, BOTTOM]) => Some(3),
            _ => None,
        };
        farthest.into_iter().for_each(|item| table.met(self.farthest, item));
        let mark = pre.mark();
        table.met_if(self.wide_a, mark as usize, pre.mark_of_wide_a() != mark);
    }

    /// Counts what INMODE leaves out, and a slice that takes A past its pre-adder.
    fn one_side(&self, table: &mut Table, at: &Attributes, pre: &PreAdder) {
        let inmode = pre.inmode();
        let [a, _] = pre.a_and_d();
        let (side, left_out) = match (inmode & TAKES_D, inmode & CLEARS_A) {
            (0, 0) => (1, TAKES_D),
            (TAKES_D, CLEARS_A) => (0, CLEARS_A),
            _ => return,
        };
        let with_it = pre.result_with_flipped(left_out);
        if pre.mark() < mark_of(with_it) {
            let sort = side * 2 + usize::from(inmode & SUBTRACTS != 0);
            table.met(self.left_out, sort * 2 + usize::from(with_it < 0));
        }
        table.met_if(self.from_zero, behind(at), side == 1 && pre.mark() == 1);
        let plain = side == 1 && at[at::AMULTSEL] == 0;
        table.met_if(self.not_used, 0, plain && a == TOP);
        table.met_if(self.not_used, 1, plain && a == BOTTOM);
    }

    /// Counts words beside those that are read, which would give another mark.
    fn words(&self, table: &mut Table, pre: &PreAdder) {
        let mark = pre.mark();
        let read = [pre.a_read(), pre.d_read, pre.inmode_read];
        for (word, other) in pre.marks_of_other_words().into_iter().enumerate() {
            let item = (word * 2 + read[word]) * 2 + mark as usize;
            table.met_if(self.other_word, item, other != mark);
        }
    }

    /// Counts the way to a mark of 1, and what stands behind the pre-adder then.
    fn marked(&self, table: &mut Table, at: &Attributes, pre: &PreAdder, po: &Ports) {
        let areg = at[at::AREG] as usize;
        let a_way = match (pre.a_read(), areg) {
            (0, 0) => at[at::A_INPUT] as usize,
            (first, _) => 1 + first * 2 + areg,
        };
        for item in [a_way, 6 + pre.d_read, 8 + pre.inmode_read] {
            table.met(self.way, item);
        }
        table.met(self.behind, at[at::PREG] as usize);
        table.met(self.behind, 2 + at[at::USE_SIMD] as usize);
        table.met(self.load, at[at::ADREG] as usize * LOADS.len() + load(po));
    }
}

/// The item of what stands behind a pre-adder.
fn behind(at: &Attributes) -> usize {
    (at[at::ADREG] * 2 + at[at::USE_MULT]) as usize
}

/// The groups of listings, where a clock follows another and all registers start at 0.
pub struct SeenWraps {
    clock: SeenWrap,
    turn: usize,
}

impl SeenWraps {
    pub fn new(table: &mut Table) -> SeenWraps {
        let adregs = ["ADREG 0", "ADREG 1"];
        SeenWraps {
            clock: SeenWrap::new(table),
            turn: table.group(
                "PREADDWRAP turns while AD loads, with",
                with_both(adregs, ["0 then 1", "1 then 0"]),
            ),
        }
    }

    /// Counts the accepted clocks of a column: its ports and outputs, slice by slice.
    pub fn column(
        &self,
        table: &mut Table,
        attributes: &[Attributes],
        ports: &[Ports],
        shown: &[Outputs],
    ) -> Result<(), String> {
        let slices = attributes.len();
        let mut held = vec![Held::default(); slices];
        let mut before = vec![None; slices];
        let clocks = ports.chunks(slices).zip(shown.chunks(slices));
        for (clock, (ports, shown)) in clocks.enumerate() {
            let pre_adders = PreAdder::all(attributes, &held, ports);
            let marks: Vec<u64> = shown.iter().map(|outputs| outputs[PREADDWRAP]).collect();
            let counted = self.clock.clock(table, attributes, &pre_adders, ports, &marks);
            counted.map_err(|why| format!("clock {clock}: {why}"))?;
            for (k, at) in attributes.iter().enumerate() {
                let turned = before[k] == Some(1 - marks[k]);
                table.met_if(self.turn, (at[at::ADREG] * 2 + 1 - marks[k]) as usize, turned);
                before[k] = (load(&ports[k]) == 0).then_some(marks[k]);
                held[k] = held[k].after(at, &ports[k], pre_adders[k].input);
            }
        }
        Ok(())
    }
}
