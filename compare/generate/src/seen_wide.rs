//! Sums wider than a slice (02, Ask 7): found in the clocks of listings and calls, held against
//! plain arithmetic, and counted.

use crate::carry_oracle::Adder;
use crate::seen_carry::{loads, Clock};
use crate::table::Table;
use crate::words::*;

/// Slices one above the other that add two wide numbers, a part each in one clock after the other.
#[derive(Clone)]
struct Stack {
    lowest: usize,
    /// The parts of both numbers, and of the sum as far as it was shown.
    parts: Vec<[u64; 2]>,
    sum: Vec<u64>,
}

impl Stack {
    /// Says where the sum is another one than plain arithmetic gives.
    fn check(&self) -> Result<(), String> {
        let mut right = long_sum(&self.parts);
        if let [low, high, ..] = self.parts[..] {
            right[..2].copy_from_slice(&sum_of_two([low, high]));
        }
        if self.sum != right {
            let Stack { lowest, sum, .. } = self;
            return Err(format!("from slice {lowest} on the sum is {sum:?}, it must be {right:?}"));
        }
        Ok(())
    }

    /// The carry out of each part.
    fn carries(&self) -> Vec<u64> {
        let mut carry = 0;
        let mut next = |[left, right]: &[u64; 2]| {
            carry = (left + right + carry) >> 48;
            carry
        };
        self.parts.iter().map(&mut next).collect()
    }
}

/// The sum of two 96-bit numbers modulo 2^96, low half first.
fn sum_of_two([low, high]: [[u64; 2]; 2]) -> [u64; 2] {
    let number = |which: usize| u128::from(high[which]) << 48 | u128::from(low[which]);
    let sum = (number(0) + number(1)) % (1 << 96);
    [sum as u64 & ones(48), (sum >> 48) as u64]
}

/// The sum of two numbers of any size, digit by digit, three digits of 16 bits a part.
fn long_sum(parts: &[[u64; 2]]) -> Vec<u64> {
    let mut carry = 0;
    let mut digit = |[left, right]: [u64; 2], low: u32| {
        let sum = (left >> low & ones(16)) + (right >> low & ones(16)) + carry;
        carry = sum >> 16;
        (sum & ones(16)) << low
    };
    parts.iter().map(|part| [0, 16, 32].map(|low| digit(*part, low)).iter().sum()).collect()
}

/// The stacks of a column that are under way, by their highest slice.
#[derive(Default)]
pub struct UnderWay {
    stacks: Vec<Option<Stack>>,
    /// The low carry of the sum of two slices that was whole in the clock before.
    whole: Vec<Option<u64>>,
}

/// Whether a slice has PREG 1 and no other register, and takes its inputs direct.
fn has_p_alone(at: &Attributes) -> bool {
    let mut p_alone = [0; 18];
    (p_alone[at::PREG], p_alone[at::USE_MULT]) = (1, at[at::USE_MULT]);
    p_alone[at::AMULTSEL] = at[at::AMULTSEL];
    at[..at::RND] == p_alone
}

/// Whether a slice adds A:B and C and P loads the sum.
fn adds(at: &Attributes, po: &Ports, adder: &Adder) -> bool {
    let right_controls = adder.makes_carry() && adder.controls.opmode == ADDS_AB_AND_C;
    has_p_alone(at) && right_controls && loads(po)
}

impl UnderWay {
    /// Takes the next clock. Gives the stacks whose highest part is now shown.
    fn clock(&mut self, clock: &Clock) -> Vec<Stack> {
        let slices = clock.carries.len();
        let mut shown_now = std::mem::take(&mut self.stacks);
        shown_now.resize(slices, None);
        for (stack, outputs) in shown_now.iter_mut().zip(clock.shown) {
            stack.iter_mut().for_each(|stack| stack.sum.push(outputs[0]));
        }
        let below = |k: usize| k.checked_sub(1).and_then(|below| shown_now[below].clone());
        let next = |k: usize| {
            let adder = &clock.carries[k].adder;
            let part = [adder.sources.ab, adder.sources.c];
            let first = Stack { lowest: k, parts: vec![part], sum: Vec::new() };
            match (adder.controls.carryinsel, adder.sources.carryin) {
                _ if !adds(&clock.attributes[k], &clock.ports[k], adder) => None,
                (0, 0) => Some(first),
                (2, _) => below(k).map(|mut stack| {
                    stack.parts.push(part);
                    stack
                }),
                _ => None,
            }
        };
        self.stacks = (0..slices).map(next).collect();
        shown_now.into_iter().flatten().filter(|stack| stack.parts.len() > 1).collect()
    }
}

/// The groups of the table.
pub struct SeenWide {
    carries: usize,
    special: usize,
    lowest: usize,
    row: usize,
    stack: usize,
    through: usize,
}

const WITH_CARRY: [&str; 4] =
    ["none", "out of the high half alone", "into the high half alone", "both"];
const SPECIAL: [&str; 4] =
    ["all ones + 1", "all ones + all ones", "sum all ones", "high carry by the low one alone"];
const THROUGH: [&str; 2] = ["no carry", "a carry out of every slice"];

impl SeenWide {
    pub fn new(table: &mut Table) -> SeenWide {
        let row = |bits: usize| format!("low carry {} then {}", bits >> 1, bits & 1);
        SeenWide {
            carries: table.group("96-bit sum with carry", WITH_CARRY),
            special: table.group("96-bit sum", SPECIAL),
            lowest: table.group("96-bit sum, low half in slice", 0..23),
            row: table.group("96-bit sums one clock apart", (0..4).map(row)),
            stack: table.group("wider sum, by slices", 3..25),
            through: table.group("wider sum with", THROUGH),
        }
    }

    /// Takes the next accepted clock of a column. Holds the sums that it completes against plain
    /// arithmetic, and counts them.
    pub fn clock(
        &self,
        table: &mut Table,
        under_way: &mut UnderWay,
        clock: &Clock,
    ) -> Result<(), String> {
        let mut whole = vec![None; clock.carries.len()];
        for stack in under_way.clock(clock) {
            stack.check()?;
            if let [low, high] = stack.parts[..] {
                let carry = stack.carries()[0];
                let before = under_way.whole.get(stack.lowest).copied().flatten();
                before.into_iter().for_each(|b: u64| table.met(self.row, (b * 2 + carry) as usize));
                whole[stack.lowest] = Some(carry);
                self.of_two(table, &stack, [low, high]);
            } else {
                self.of_more(table, &stack);
            }
        }
        under_way.whole = whole;
        Ok(())
    }

    fn of_two(&self, table: &mut Table, stack: &Stack, [low, high]: [[u64; 2]; 2]) {
        table.met(self.lowest, stack.lowest);
        let carries = stack.carries();
        table.met(self.carries, (carries[0] * 2 + carries[1]) as usize);
        let all = ones(48);
        let numbers = [0, 1].map(|which| [low[which], high[which]]);
        let special = [
            numbers.contains(&[1, 0]) && numbers.contains(&[all; 2]),
            numbers == [[all; 2]; 2],
            stack.sum == [all; 2],
            high[0] + high[1] == all && carries == [1, 1],
        ];
        for (item, met) in special.into_iter().enumerate() {
            table.met_if(self.special, item, met);
        }
    }

    fn of_more(&self, table: &mut Table, stack: &Stack) {
        table.met(self.stack, stack.parts.len() - 3);
        let carries = stack.carries();
        table.met_if(self.through, 0, !carries.contains(&1));
        table.met_if(self.through, 1, !carries.contains(&0));
    }
}
