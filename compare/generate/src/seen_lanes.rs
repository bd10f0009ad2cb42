//! The items that an adder in lanes meets, in listings and in calls.

use crate::oracle::{attributes_refused, Controls};
use crate::table::Table;
use crate::words::*;

/// The groups of the table about USE_SIMD.
pub struct SeenLanes {
    arithmetic: usize,
    wrap: usize,
    by_carry: usize,
    logic: usize,
    carryinsel: usize,
    shift: usize,
    flag: usize,
}

/// How USE_SIMD alone can deserve refusal 3.
pub const CAUSES: [&str; 3] =
    ["USE_SIMD over 2", "USE_SIMD 1 with USE_MULT 1", "USE_SIMD 2 with USE_MULT 1"];

const LOGIC: [u64; 8] = [4, 5, 6, 7, 12, 13, 14, 15];
const SELECTS: [u64; 6] = [0, 1, 2, 3, 5, 7];
const SHIFTS: [u64; 2] = [5, 6];
const FLAGS: [&str; 4] = ["PATTERNDETECT", "PATTERNBDETECT", "OVERFLOW", "UNDERFLOW"];

/// Each setting with each of the labels.
fn with_each<T: ToString>(labels: impl IntoIterator<Item = T>) -> Vec<String> {
    let labels: Vec<String> = labels.into_iter().map(|label| label.to_string()).collect();
    let names = SIMD_NAMES.iter();
    names.flat_map(|name| labels.iter().map(move |label| format!("{name} {label}"))).collect()
}

fn lanes_of(simd: usize) -> usize {
    48 / LANE_WIDTHS[simd] as usize
}

/// The item of a lane among all lanes of all settings in all modes.
fn wrap_item(simd: usize, mode: usize, lane: usize) -> usize {
    let settings_before: usize = (0..simd).map(|before| 4 * lanes_of(before)).sum();
    settings_before + mode * lanes_of(simd) + lane
}

impl SeenLanes {
    pub fn new(table: &mut Table) -> SeenLanes {
        let carries = |mode| [0, 1].map(|carry| format!("mode {mode} CIN {carry}"));
        let mut wraps = Vec::new();
        for (simd, name) in SIMD_NAMES.iter().enumerate() {
            for mode in 0..4 {
                wraps.extend(
                    (0..lanes_of(simd)).map(|lane| format!("{name} mode {mode} lane {lane}")),
                );
            }
        }
        let modes = |mode| format!("mode {mode}");
        SeenLanes {
            arithmetic: table
                .group("USE_SIMD with arithmetic ALUMODE", with_each((0..4).flat_map(carries))),
            wrap: table.group("wrap out of a lane", wraps),
            by_carry: table.group("lowest lane wraps by CIN alone", with_each((0..4).map(modes))),
            logic: table.group("USE_SIMD with logic ALUMODE", with_each(LOGIC.map(modes))),
            carryinsel: table.group("USE_SIMD with CARRYINSEL", with_each(SELECTS)),
            shift: table
                .group("USE_SIMD with a shift", with_each(SHIFTS.map(|z| format!("Z select {z}")))),
            flag: table.group("USE_SIMD with a flag", with_each(FLAGS)),
        }
    }

    /// Counts one slice's unit; `held` is what the registers hold, if known.
    pub fn unit(
        &self,
        table: &mut Table,
        at: &Attributes,
        controls: Controls,
        po: &Ports,
        held: Option<&Registers>,
    ) {
        let simd = at[at::USE_SIMD] as usize;
        let place = |known: &[u64], value: u64| known.iter().position(|one| *one == value);
        if let Some(item) = place(&LOGIC, controls.alumode) {
            table.met(self.logic, simd * LOGIC.len() + item);
            return;
        }
        let select = place(&SELECTS, controls.carryinsel).unwrap();
        table.met(self.carryinsel, simd * SELECTS.len() + select);
        if let Some(item) = place(&SHIFTS, controls.z()) {
            table.met(self.shift, simd * SHIFTS.len() + item);
        }
        let mode = controls.alumode as usize;
        if let Some(cin) = carry(at, controls, po, held) {
            table.met(self.arithmetic, (simd * 4 + mode) * 2 + cin as usize);
            if let Some(words) = operands(at, controls, po, held) {
                self.wraps(table, simd, mode, words, cin);
            }
        }
    }

    fn wraps(&self, table: &mut Table, simd: usize, mode: usize, words: [u64; 4], cin: u64) {
        let width = LANE_WIDTHS[simd];
        for lane in 0..lanes_of(simd) {
            let cut = words.map(|word| word >> (lane as u32 * width) & ones(width));
            let added = if lane == 0 { cin } else { 0 };
            let wrapped = leaves(mode, width, cut, added);
            table.met_if(self.wrap, wrap_item(simd, mode, lane), wrapped);
            let by_carry = wrapped && !leaves(mode, width, cut, 0);
            table.met_if(self.by_carry, simd * 4 + mode, by_carry);
        }
    }

    /// Counts the four flags that a slice showed.
    pub fn flags(&self, table: &mut Table, at: &Attributes, flags: &[u64]) {
        for (item, flag) in flags.iter().enumerate() {
            table.met_if(self.flag, at[at::USE_SIMD] as usize * FLAGS.len() + item, *flag == 1);
        }
    }
}

/// The cause of refusal 3, where it is USE_SIMD and nothing else.
pub fn cause(at: &Attributes) -> Option<usize> {
    let mut one_lane = *at;
    one_lane[at::USE_SIMD] = 0;
    if attributes_refused(&one_lane) || !attributes_refused(at) {
        return None;
    }
    Some(match at[at::USE_SIMD] {
        lanes @ 1..=2 => lanes as usize,
        _ => 0,
    })
}

/// CIN, where it is no sign and its register, if it is read, is known.
fn carry(at: &Attributes, controls: Controls, po: &Ports, held: Option<&Registers>) -> Option<u64> {
    match (controls.carryinsel, at[at::CARRYINREG]) {
        (0, 0) => Some(po[po::CARRYIN]),
        (0, _) => held.map(|words| words[rg::CARRYIN]),
        _ => None,
    }
}

/// W, X, Y and Z, where ports and known registers tell them without any work.
fn operands(
    at: &Attributes,
    controls: Controls,
    po: &Ports,
    held: Option<&Registers>,
) -> Option<[u64; 4]> {
    let path = |reg: usize, input: usize, port: usize, last: usize| match (at[reg], at[input]) {
        (0, 0) => Some(po[port]),
        (0, _) => None,
        _ => held.map(|words| words[last]),
    };
    let a = path(at::AREG, at::A_INPUT, po::A, rg::A2);
    let b = path(at::BREG, at::B_INPUT, po::B, rg::B2);
    let c = if at[at::CREG] == 0 { Some(po[po::C]) } else { held.map(|words| words[rg::C]) };
    let p = held.map(|words| words[rg::P]);
    let w = [Some(0), p, Some(at[at::RND]), c][controls.w() as usize];
    let x = [Some(0), None, p, a.zip(b).map(|(a, b)| a << 18 | b)][controls.x() as usize];
    let y = [Some(0), None, Some(ones(48)), c][controls.y() as usize];
    let z = [Some(0), None, p, c].get(controls.z() as usize).copied().flatten();
    Some([w?, x?, y?, z?])
}

/// Whether a lane leaves its width: a sum at the top, a difference below 0.
fn leaves(mode: usize, width: u32, [w, x, y, z]: [u64; 4], cin: u64) -> bool {
    let others = w + x + y + cin;
    match mode {
        1 => ones(width) - z + others > ones(width),
        3 => z < others,
        _ => z + others > ones(width),
    }
}
