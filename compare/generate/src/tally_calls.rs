//! Reads calls with their answers and counts what they met.

use std::fs::File;
use std::io::{self, BufRead, BufReader};
use std::path::Path;

use crate::carry_oracle::{self, Carry};
use crate::oracle::{attributes_refused, clock_refused, too_wide, Controls};
use crate::packed_oracle::lowest_overfull;
use crate::read_calls::{records, Read, Slices, KINDS, PACKED, PLAIN, WHY};
use crate::seen_carry::{self, loads, SeenCarry};
use crate::seen_flags::SeenHeld;
use crate::seen_lanes::{cause, SeenLanes, CAUSES};
use crate::seen_packed::SeenRun;
use crate::seen_why::SeenWhy;
use crate::seen_wide::{SeenWide, UnderWay};
use crate::seen_wrap::SeenWrap;
use crate::table::Table;
use crate::words::*;
use crate::wrap_oracle::{Held, PreAdder};

const REFUSED: i128 = 1 << 48;

/// The numbers that each call may return.
const NUMBERS: [&[u64]; 6] = [
    &[0, 5, 8],
    &[0, 1, 2, 3, 4, 5, 6, 7, 8, 9],
    &[0, 1, 2],
    &[0, 2, 10, 11, 14],
    &[0, 2, 10, 11, 14],
    &[0, 1, 2, 3, 4, 5, 6, 7, 8, 9, 13],
];

/// The stretches of each call.
const STRETCHES: [&[&str]; 6] = [
    &[],
    &["attributes", "registers", "ports", "outputs"],
    &["registers"],
    &["a", "d", "b", "answers", "list"],
    &["a", "d", "b", "answers"],
    &["attributes", "registers", "ports", "why"],
];

/// The groups of the table.
struct Groups {
    returned: [usize; 6],
    slices: Vec<usize>,
    lengths: [usize; 6],
    adder_modes: usize,
    runs: [SeenRun; 2],
    heights: usize,
    simd: usize,
    lanes: SeenLanes,
    held: SeenHeld,
    wrap: SeenWrap,
    carry: SeenCarry,
    wide: SeenWide,
    former_lengths: usize,
    wide_word: usize,
    cleared: usize,
    causes: usize,
    why: SeenWhy,
    chain: Chain,
}

/// Lengths that were right before PREADDWRAP and the carry: the call, the stretch, words a slice.
const FORMER_LENGTHS: [(usize, usize, i128); 5] =
    [(1, 3, 5), (1, 3, 6), (1, 1, 18), (2, 0, 18), (WHY, 1, 18)];
/// Words of the carry's register that are over its width.
const WIDE_WORDS: [&str; 3] = ["2", "3", "more"];

/// The clock before, if the next one goes on from it, and the wide sums under way then.
#[derive(Default)]
struct Chain {
    attributes: Vec<Attributes>,
    after: Vec<Registers>,
    under_way: UnderWay,
}

impl Chain {
    /// Takes the next clock: its own words, and the registers after it.
    fn step(&mut self, attributes: &[Attributes], before: &[Registers], after: &[Registers]) {
        if self.attributes != attributes || self.after != before {
            self.under_way = UnderWay::default();
        }
        (self.attributes, self.after) = (attributes.to_vec(), after.to_vec());
    }
}

impl Groups {
    fn new(table: &mut Table) -> Groups {
        let returned = std::array::from_fn(|kind| {
            table.group(&format!("{} returned number", KINDS[kind].0), NUMBERS[kind])
        });
        let lengths = std::array::from_fn(|kind| {
            table.group(&format!("{} wrong length alone", KINDS[kind].0), STRETCHES[kind])
        });
        Groups {
            returned,
            slices: (3..10)
                .map(|number| table.group(&format!("clock refusal {number} at slice"), 0..24))
                .collect(),
            lengths,
            adder_modes: table
                .group("adder accepted mode", [0, 1, 2, 3, 4, 5, 6, 7, 12, 13, 14, 15]),
            runs: [PACKED, PLAIN].map(|kind| SeenRun::new(table, kind)),
            heights: table.group("clock accepted, by slices", 1..25),
            simd: table.group("clock accepted, by USE_SIMD", SIMD_NAMES),
            lanes: SeenLanes::new(table),
            held: SeenHeld::new(table),
            wrap: SeenWrap::new(table),
            carry: SeenCarry::new(table, &[0, 1]),
            wide: SeenWide::new(table),
            former_lengths: table.group(
                "wrong length alone, words a slice",
                FORMER_LENGTHS.map(|(kind, which, words)| {
                    format!("{} {words} {}", KINDS[kind].0, STRETCHES[kind][which])
                }),
            ),
            wide_word: table.group("clock refusal 4 by the carry alone, of", WIDE_WORDS),
            cleared: table.group("clear of a carry of", ["1", "more"]),
            causes: table.group("clock refusal 3 by", CAUSES),
            why: SeenWhy::new(table),
            chain: Chain::default(),
        }
    }
}

/// Prints the tally of a file of calls and tells whether all is met.
pub fn tally(calls: &Path, answers: &Path) -> io::Result<bool> {
    let mut table = Table::default();
    let mut groups = Groups::new(&mut table);
    let mut answers = BufReader::new(File::open(answers)?).lines();
    let (mut count, mut wrong) = (0, 0);
    for call in BufReader::new(File::open(calls)?).lines() {
        let (call, answer) = (call?, answers.next().transpose()?.unwrap_or_default());
        count += 1;
        if let Err(why) = one(&mut table, &mut groups, &call, &answer) {
            wrong += 1;
            println!("call {count}: {why}");
        }
    }
    let unmet = table.print();
    println!("calls: {count}");
    println!("answers the oracle disagrees with: {wrong}");
    Ok(unmet == 0 && wrong == 0 && answers.next().is_none())
}

/// Counts one call, and checks what can be checked without a product and a whole unit; of a run all
/// of its answer, and of why all that its answer tells about itself.
fn one(table: &mut Table, groups: &mut Groups, call: &str, answer: &str) -> Result<(), String> {
    let mut fields = call.split(' ');
    let name = fields.next().unwrap_or("");
    let kind = KINDS.iter().position(|(kind, _)| *kind == name).ok_or("unknown call")?;
    let call = Read::call(fields, kind).ok_or("unreadable call")?;
    let answer = Read::answer(answer, kind).ok_or("unreadable answer")?;
    let returned = answer.plain[0];
    let refusal = refusal(kind, &call);
    let (number, place) = refusal.unwrap_or((0, 0));
    let expected = refusal.map(|(number, place)| REFUSED + 256 * place + number);
    if expected.unwrap_or(returned) != returned || (expected.is_none() && returned >= REFUSED) {
        return Err(format!("{name} returned {returned}, the oracle says {expected:?}"));
    }
    if !lent_words_right(kind, number, &call, &answer) {
        return Err(format!("{name} wrote where it must not"));
    }
    match kind {
        PACKED | PLAIN => groups.runs[kind - PACKED].call(table, &call, &answer, refusal)?,
        WHY => groups.why.call(table, &call, &answer, refusal)?,
        _ => {}
    }
    let item = table.item(groups.returned[kind], &number.to_string());
    table.met(groups.returned[kind], item);
    match number {
        0 => accepted(table, groups, kind, &call, &answer)?,
        2 => wrong_lengths(table, groups, kind, &call),
        3..=9 if kind == 1 => refused(table, groups, &call, number, place as usize),
        _ => {}
    }
    Ok(())
}

/// Whether an answer has stretches as long as the call's, and those unchanged that must be.
fn lent_words_right(kind: usize, number: i128, call: &Read, answer: &Read) -> bool {
    let kept = match (kind, number) {
        (WHY, _) => 3,
        (_, 1..) => call.stretches.len(),
        (1, _) => 1,
        (2, _) => 0,
        _ => 3.min(call.stretches.len()),
    };
    let lengths = |read: &Read| read.stretches.iter().map(Vec::len).collect::<Vec<_>>();
    call.stretches[..kept] == answer.stretches[..kept] && lengths(call) == lengths(answer)
}

fn refused(table: &mut Table, groups: &Groups, call: &Read, number: i128, slice: usize) {
    table.met(groups.slices[number as usize - 3], slice);
    let Slices { attributes, registers, .. } = Slices::of(call);
    match number {
        3 => {
            let item = cause(&attributes[slice]);
            item.into_iter().for_each(|item| table.met(groups.causes, item));
        }
        4 if !too_wide(&registers[slice][..rg::CARRY], &REGISTER_WIDTHS) => {
            let item = registers[slice][rg::CARRY].min(4) - 2;
            table.met(groups.wide_word, item as usize);
        }
        _ => {}
    }
}

/// Counts the lanes that an accepted clock met, the flags it held and showed, its marks and its
/// carries; says where a mark, a carry or a wide sum is not the oracle's.
fn slices(
    table: &mut Table,
    groups: &mut Groups,
    call: &Read,
    answer: &Read,
) -> Result<(), String> {
    let slices = Slices::of(call);
    let Slices { attributes, registers, ports } = &slices;
    let shown: Vec<Outputs> = records(&answer.stretches[3]);
    for (k, at) in attributes.iter().enumerate() {
        table.met(groups.simd, at[at::USE_SIMD] as usize);
        groups.lanes.unit(table, at, slices.controls(k), &ports[k], Some(&registers[k]));
        let [_, flags @ .., _, _] = shown[k];
        groups.lanes.flags(table, at, &flags);
        groups.held.slice(table, at, &registers[k], [flags[2], flags[3]]);
    }
    let held: Vec<Held> = registers.iter().map(Held::of_registers).collect();
    let pre_adders = PreAdder::all(attributes, &held, ports);
    let marks: Vec<u64> = shown.iter().map(|outputs| outputs[PREADDWRAP]).collect();
    groups.wrap.clock(table, attributes, &pre_adders, ports, &marks)?;
    carries(table, groups, &slices, &shown, &records(&answer.stretches[1]))
}

/// Counts the carries of an accepted clock, and the wide sums that it goes on with.
fn carries(
    table: &mut Table,
    groups: &mut Groups,
    slices: &Slices,
    shown: &[Outputs],
    after: &[Registers],
) -> Result<(), String> {
    let Slices { attributes, registers, ports } = slices;
    let held: Vec<_> = registers.iter().map(carry_oracle::Held::of_registers).collect();
    let carries = Carry::all(attributes, &held, ports, shown);
    for (k, carry) in carries.iter().enumerate() {
        let (given, right) = (after[k][rg::CARRY], carry.after(&ports[k]));
        if given != right {
            return Err(format!("slice {k} then holds the carry {given}, it must be {right}"));
        }
    }
    let result = |k: usize| match attributes[k][at::PREG] {
        0 => Some(shown[k][0]),
        _ => loads(&ports[k]).then_some(after[k][rg::P]),
    };
    let results = (0..carries.len()).map(result).collect();
    let clock =
        seen_carry::Clock { attributes, ports, carries: &carries, shown, results, edge_seen: true };
    groups.carry.clock(table, &clock)?;
    groups.chain.step(attributes, registers, after);
    groups.wide.clock(table, &mut groups.chain.under_way, &clock)
}

fn accepted(
    table: &mut Table,
    groups: &mut Groups,
    kind: usize,
    call: &Read,
    answer: &Read,
) -> Result<(), String> {
    match kind {
        0 => {
            let item = table.item(groups.adder_modes, &call.plain[5].to_string());
            table.met(groups.adder_modes, item);
        }
        1 => {
            table.met(groups.heights, call.plain[0] as usize - 1);
            slices(table, groups, call, answer)?;
        }
        2 => cleared(table, groups, call, answer)?,
        _ => {}
    }
    Ok(())
}

/// Checks that all registers are 0, and counts the carries that they held.
fn cleared(table: &mut Table, groups: &Groups, call: &Read, answer: &Read) -> Result<(), String> {
    if answer.stretches[0].iter().any(|word| *word != 0) {
        return Err("clear left a register that is not 0".into());
    }
    for registers in records::<REGISTER_WORDS>(&call.stretches[0]) {
        let carry = registers[rg::CARRY];
        table.met_if(groups.cleared, 0, carry == 1);
        table.met_if(groups.cleared, 1, carry > 1);
    }
    Ok(())
}

fn wrong_lengths(table: &mut Table, groups: &Groups, kind: usize, call: &Read) {
    if let [which] = call.lengths_wrong(kind)[..] {
        table.met(groups.lengths[kind], which);
        let words = call.stretches[which].len() as i128;
        for (item, (of_kind, of_stretch, each)) in FORMER_LENGTHS.into_iter().enumerate() {
            let former = (of_kind, of_stretch, each * call.plain[0]) == (kind, which, words);
            table.met_if(groups.former_lengths, item, former);
        }
    }
}

type Refusal = Option<(i128, i128)>;

fn refusal(kind: usize, call: &Read) -> Refusal {
    match kind {
        0 => adder_refusal(call),
        1 => shape_refusal(kind, call).or_else(|| column_refusal(call)),
        2 => shape_refusal(kind, call),
        WHY => why_refusal(call),
        _ => packed_refusal(kind, call),
    }
}

fn adder_refusal(call: &Read) -> Refusal {
    let [w, x, y, z, cin, alumode] = call.plain[..] else { return Some((-1, 0)) };
    let all_ones = REFUSED - 1;
    let wide = [w, x, y, z].iter().any(|word| *word > all_ones) || cin > 1 || alumode > 15;
    let forbidden = match alumode {
        0..=3 => false,
        8..=11 => true,
        _ => w != 0 || (y != 0 && y != all_ones),
    };
    match (wide, forbidden) {
        (true, _) => Some((5, 0)),
        (false, true) => Some((8, 0)),
        _ => None,
    }
}

/// Numbers 1 and 2 of a call that has a count of slices.
fn shape_refusal(kind: usize, call: &Read) -> Refusal {
    if !(1..=24).contains(&call.plain[0]) {
        return Some((1, 0));
    }
    length_refusal(kind, call)
}

fn length_refusal(kind: usize, call: &Read) -> Refusal {
    (!call.lengths_wrong(kind).is_empty()).then_some((2, 0))
}

/// Numbers 3 to 9.
fn column_refusal(call: &Read) -> Refusal {
    let Slices { attributes, registers, ports } = Slices::of(call);
    if let Some(slice) = attributes.iter().position(attributes_refused) {
        return Some((3, slice as i128));
    }
    if let Some(slice) = registers.iter().position(|kept| too_wide(kept, &REGISTER_WIDTHS)) {
        return Some((4, slice as i128));
    }
    let held: Vec<Controls> = registers.iter().map(Controls::of_registers).collect();
    clock_refused(&attributes, &held, &ports).map(|(number, slice)| (number.into(), slice as i128))
}

fn why_refusal(call: &Read) -> Refusal {
    let above = call.plain[1] >= call.plain[0];
    let refusal = shape_refusal(WHY, call).or(above.then_some((13, 0)));
    refusal.or_else(|| column_refusal(call))
}

fn packed_refusal(kind: usize, call: &Read) -> Refusal {
    if !(1..=8).contains(&call.plain[0]) {
        return Some((10, 0));
    }
    if !(1..=4096).contains(&call.plain[1]) {
        return Some((11, 0));
    }
    let overfull = || lowest_overfull(call).map(|row| (14, row as i128));
    length_refusal(kind, call).or_else(overfull)
}
