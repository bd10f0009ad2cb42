//! The items that calls of why meet (02, Ask 3).

use crate::oracle::Controls;
use crate::read_calls::{Read, Slices};
use crate::seen_why_refused::SeenRefused;
use crate::table::Table;
use crate::why_oracle::{an, check, place, Answer};
use crate::words::*;

/// The groups of the table.
pub struct SeenWhy {
    asked: Asked,
    operands: Operands,
    paths: Paths,
    unit: Unit,
    refused: SeenRefused,
}

impl SeenWhy {
    pub fn new(table: &mut Table) -> SeenWhy {
        SeenWhy {
            asked: Asked::new(table),
            operands: Operands::new(table),
            paths: Paths::new(table),
            unit: Unit::new(table),
            refused: SeenRefused::new(table),
        }
    }

    /// Checks a call's answer words and counts what the call met.
    pub fn call(
        &self,
        table: &mut Table,
        call: &Read,
        answer: &Read,
        refusal: Option<(i128, i128)>,
    ) -> Result<(), String> {
        match refusal {
            Some((number, place)) => self.refused.call(table, call, answer, number, place),
            None => self.accepted(table, call, answer),
        }
    }

    fn accepted(&self, table: &mut Table, call: &Read, answer: &Read) -> Result<(), String> {
        let words: Vec<u64> = answer.stretches[3].iter().map(|word| *word as u64).collect();
        let why: Answer = words.try_into().map_err(|_| "why has other words than it was lent")?;
        let (slices, slice) = (Slices::of(call), call.plain[1] as usize);
        check(&slices, slice, &why)?;
        if answer.plain[0] != 0 {
            return Err(format!("why returned {}, the oracle says 0", answer.plain[0]));
        }
        let controls = slices.controls(slice);
        self.asked.count(table, slices.ports.len(), slice);
        self.operands.count(table, controls, &why);
        self.paths.count(table, &slices, slice, &why);
        self.unit.count(table, &slices.attributes[slice], controls, &why);
        Ok(())
    }
}

/// Groups about which slice was asked.
struct Asked {
    height: usize,
    slice: usize,
    position: usize,
}

impl Asked {
    fn new(table: &mut Table) -> Asked {
        Asked {
            height: table.group("why accepted, by slices", 1..25),
            slice: table.group("why accepted, asked slice", 0..24),
            position: table.group("why accepted, position", ["alone", "bottom", "between", "top"]),
        }
    }

    fn count(&self, table: &mut Table, height: usize, slice: usize) {
        table.met(self.height, height - 1);
        table.met(self.slice, slice);
        let position = match slice {
            0 => usize::from(height > 1),
            top if top == height - 1 => 3,
            _ => 2,
        };
        table.met(self.position, position);
    }
}

/// The names of the places.
const NAMES: [&str; 16] = [
    "0",
    "M",
    "P",
    "A:B",
    "all ones",
    "C",
    "PCIN",
    "PCIN shifted",
    "P shifted",
    "RND",
    "CARRYIN",
    "PCIN bit 47",
    "not PCIN bit 47",
    "P bit 47",
    "not P bit 47",
    "carry below",
];

/// An operand, its places whose value is always the same, and its other places.
const OPERANDS: [(&str, &[u64], &[u64]); 4] = [
    ("W", &[place::ZERO], &[place::P, place::RND, place::C]),
    ("X", &[place::ZERO], &[place::M, place::P, place::AB]),
    ("Y", &[place::ZERO, place::ONES], &[place::C]),
    (
        "Z",
        &[place::ZERO],
        &[place::PCIN, place::P, place::C, place::PCIN_SHIFTED, place::P_SHIFTED],
    ),
];

/// The operand that is 0 beside the product.
const Y: usize = 2;

fn position(known: &[u64], value: u64) -> Option<usize> {
    known.iter().position(|one| *one == value)
}

/// Groups about what was selected from where.
struct Operands {
    place: [usize; 4],
    product: usize,
    sign: [usize; 4],
    carry: [usize; 2],
}

impl Operands {
    fn new(table: &mut Table) -> Operands {
        let name = |place: &u64| NAMES[*place as usize];
        let signs =
            |place: &u64| ["above", "below"].map(|sign| format!("{} {sign} 0", name(place)));
        let bits = |place: u64| [0, 1].map(|bit| format!("{}, {bit}", name(&place)));
        let place = OPERANDS.map(|(operand, fixed, other)| {
            table.group(&format!("why {operand} from"), fixed.iter().chain(other).map(name))
        });
        Operands {
            place,
            product: table.item(place[Y], "0 with X and Y both 1"),
            sign: OPERANDS.map(|(operand, _, other)| {
                table.group(&format!("why {operand} with sign"), other.iter().flat_map(signs))
            }),
            carry: ["arithmetic", "logic"].map(|sort| {
                let carries = (place::CARRYIN..=place::CARRY_BELOW).flat_map(bits);
                table.group(&format!("why CIN with {sort} rule, from"), carries)
            }),
        }
    }

    fn count(&self, table: &mut Table, controls: Controls, why: &Answer) {
        for (operand, (_, fixed, other)) in OPERANDS.into_iter().enumerate() {
            let (value, place) = (why[operand], why[an::PLACES + operand]);
            let product = (operand, controls.x()) == (Y, 1);
            let item = position(&[fixed, other].concat(), place).unwrap();
            table.met(self.place[operand], if product { self.product } else { item });
            if let (Some(item), 1..) = (position(other, place), value) {
                table.met(self.sign[operand], item * 2 + (value >> 47) as usize);
            }
        }
        let place = why[an::PLACES + an::CIN] - place::CARRYIN;
        let sort = usize::from(why[an::RULE] > 4);
        table.met(self.carry[sort], (place * 2 + why[an::CIN]) as usize);
    }
}

/// Groups about the way that a value took to its place.
struct Paths {
    pcin: usize,
    carry: usize,
    path: usize,
    a_and_b: usize,
}

const PCINS: [&str; 6] = [
    "0 at the bottom, as Z",
    "0 at the bottom, shifted",
    "0 at the bottom, as CIN",
    "of a slice with PREG 0",
    "of a slice with PREG 1",
    "of a slice with PREG 0 that takes PCIN",
];

const CARRIES: [&str; 6] = [
    "0 at the bottom",
    "0 of a slice with PREG 0",
    "1 of a slice with PREG 0",
    "0 of a slice with PREG 1",
    "1 of a slice with PREG 1",
    "1 of a slice with PREG 0 that takes one",
];

/// The paths with a register: what is selected from them, and the attribute.
const PATHS: [(u64, usize); 3] =
    [(place::C, at::CREG), (place::M, at::MREG), (place::CARRYIN, at::CARRYINREG)];

impl Paths {
    fn new(table: &mut Table) -> Paths {
        let ways = |(place, attribute): (u64, usize)| {
            let name = ATTRIBUTE_NAMES[attribute];
            [0, 1].map(|reg| format!("{} with {name} {reg}", NAMES[place as usize]))
        };
        let sources = |side| ["port", "cascade", "register"].map(|from| format!("{side} {from}"));
        Paths {
            pcin: table.group("why Z or CIN by PCIN", PCINS),
            carry: table.group("why CIN by the carry below", CARRIES),
            path: table.group("why operand", PATHS.into_iter().flat_map(ways)),
            a_and_b: table.group("why A:B with", ["A", "B"].into_iter().flat_map(sources)),
        }
    }

    fn count(&self, table: &mut Table, slices: &Slices, slice: usize, why: &Answer) {
        let places = &why[an::PLACES..an::RULE];
        let at = &slices.attributes[slice];
        for (item, (place, attribute)) in PATHS.into_iter().enumerate() {
            let item = item * 2 + at[attribute] as usize;
            table.met_if(self.path, item, places.contains(&place));
        }
        for side in 0..2 {
            let source = match (at[at::AREG + side], at[at::A_INPUT + side]) {
                (0, 0) => 0,
                (0, _) => 1,
                _ => 2,
            };
            table.met_if(self.a_and_b, side * 3 + source, places[1] == place::AB);
        }
        self.pcin(table, slices, slice, [places[3], places[4]]);
        if places[4] == place::CARRY_BELOW {
            self.carry(table, slices, slice, why[an::CIN]);
        }
    }

    /// Counts the carry from below that CIN is.
    fn carry(&self, table: &mut Table, slices: &Slices, slice: usize, carry: u64) {
        let Some(below) = slice.checked_sub(1) else {
            table.met(self.carry, 0);
            return;
        };
        let preg = slices.attributes[below][at::PREG];
        table.met(self.carry, (1 + 2 * preg + carry) as usize);
        let takes_one = slices.controls(below).carryinsel == 2 && below > 0;
        table.met_if(self.carry, 5, carry == 1 && preg == 0 && takes_one);
    }

    /// Counts the PCIN that Z or CIN is taken from.
    fn pcin(&self, table: &mut Table, slices: &Slices, slice: usize, [z, cin]: [u64; 2]) {
        let taken = [
            z == place::PCIN,
            z == place::PCIN_SHIFTED,
            [place::PCIN_SIGN, place::NOT_PCIN_SIGN].contains(&cin),
        ];
        let any = taken.contains(&true);
        match slice.checked_sub(1) {
            None => (0..3).for_each(|item| table.met_if(self.pcin, item, taken[item])),
            Some(below) => {
                let preg = slices.attributes[below][at::PREG];
                let goes_on = [1, 5].contains(&slices.controls(below).z()) && below > 0;
                table.met_if(self.pcin, 3 + preg as usize, any);
                table.met_if(self.pcin, 5, any && preg == 0 && goes_on);
            }
        }
    }
}

/// Groups about the unit and its controls.
struct Unit {
    arithmetic: usize,
    logic: usize,
    mode: usize,
    preg: usize,
    held: usize,
}

const LOGIC: [u64; 8] = [4, 5, 6, 7, 12, 13, 14, 15];

impl Unit {
    fn new(table: &mut Table) -> Unit {
        let rules = |name| (1..5).map(move |rule| format!("{name} rule {rule}"));
        let carries = |rule: String| [0, 1].map(|bit| format!("{rule} CIN {bit}"));
        let logic = |name| (5..15).map(move |rule| format!("{name} rule {rule}"));
        let with_any = |mode| (0..4).map(move |y| format!("{mode} with Y {y}"));
        let with_even = |mode| [0, 2].map(|y| format!("{mode} with Y {y}"));
        let pregs = ["PREG 0", "PREG 1"].into_iter();
        let sorts = |preg| ["arithmetic", "logic"].map(|sort| format!("{preg} {sort}"));
        Unit {
            arithmetic: table.group(
                "why USE_SIMD with arithmetic",
                SIMD_NAMES.into_iter().flat_map(rules).flat_map(carries),
            ),
            logic: table.group("why USE_SIMD with logic", SIMD_NAMES.into_iter().flat_map(logic)),
            mode: table.group(
                "why ALUMODE",
                (0..4).flat_map(with_any).chain(LOGIC.into_iter().flat_map(with_even)),
            ),
            preg: table.group("why with", pregs.flat_map(sorts)),
            held: table
                .group("why in effect from a register, not 0", ["OPMODE", "ALUMODE", "CARRYINSEL"]),
        }
    }

    fn count(&self, table: &mut Table, at: &Attributes, controls: Controls, why: &Answer) {
        let [rule, lanes, cin] = [an::RULE, an::LANES, an::CIN].map(|word| why[word] as usize);
        let (mode, y) = (controls.alumode, controls.y());
        match position(&LOGIC, mode) {
            Some(row) => {
                table.met(self.logic, lanes * 10 + rule - 5);
                table.met(self.mode, 16 + row * 2 + (y / 2) as usize);
            }
            None => {
                table.met(self.arithmetic, (lanes * 4 + rule - 1) * 2 + cin);
                table.met(self.mode, (mode * 4 + y) as usize);
            }
        }
        table.met(self.preg, at[at::PREG] as usize * 2 + usize::from(rule > 4));
        let held = [
            (at::OPMODEREG, controls.opmode),
            (at::ALUMODEREG, mode),
            (at::CARRYINSELREG, controls.carryinsel),
        ];
        for (item, (attribute, value)) in held.into_iter().enumerate() {
            table.met_if(self.held, item, at[attribute] == 1 && value != 0);
        }
    }
}
