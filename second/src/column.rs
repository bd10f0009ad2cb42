//! A column: settle every slice from the bottom up, then one edge for all.

use crate::attributes::Attributes;
use crate::control::{AluMode, CarryInSel, InMode, OpMode};
use crate::ports::Ports;
use crate::refusal::{each_slice, Reason, Refusal};
use crate::registers::Registers;
use crate::slice::{edge, Cascade, Controls, Outputs, Shown, Wired};

/// The height of one clock region's column.
pub const TALLEST: u64 = 24;

/// The slice count, when it is one a column can have.
pub fn height(count: u64) -> Result<usize, Refusal> {
    if (1..=TALLEST).contains(&count) {
        Ok(count as usize)
    } else {
        Err(Refusal::whole(Reason::Count))
    }
}

/// The place of a chosen slice, when a column of this height has it.
pub fn slice_within(height: usize, slice: u64) -> Result<usize, Refusal> {
    if slice < height as u64 {
        Ok(slice as usize)
    } else {
        Err(Refusal::whole(Reason::Slice))
    }
}

/// Slices with their settings and what they remember, bottom first.
#[derive(Clone, Debug)]
pub struct Column {
    attributes: Vec<Attributes>,
    registers: Vec<Registers>,
}

impl Column {
    /// A cleared column.
    pub fn cleared(attributes: Vec<Attributes>) -> Column {
        let registers = vec![Registers::default(); attributes.len()];
        Column { attributes, registers }
    }

    /// A column found in the middle of its life; its settings are judged first.
    pub fn found(attributes: &[u64], registers: &[u64]) -> Result<Column, Refusal> {
        let attributes = read_attributes(attributes)?;
        let kept = registers.chunks(Registers::WORDS).map(Registers::read);
        Ok(Column { attributes, registers: each_slice(kept, Reason::Register)? })
    }

    pub fn registers(&self) -> &[Registers] {
        &self.registers
    }

    /// One clock from port words; a refused clock changes nothing.
    pub fn clock_words(&mut self, words: &[u64]) -> Result<Vec<Outputs>, Refusal> {
        self.clock(&read_ports(words)?)
    }

    /// One clock from ports that keep their widths.
    pub fn clock(&mut self, ports: &[Ports]) -> Result<Vec<Outputs>, Refusal> {
        let shown = self.settled(ports)?;
        // Every wire has settled, so no slice can see another's new registers.
        for (k, register) in self.registers.iter_mut().enumerate() {
            *register = edge(&self.attributes[k], register, &ports[k], &shown[k]);
        }
        Ok(shown.iter().map(|slice| slice.outputs).collect())
    }

    /// What settles before the edge of a clock that is accepted.
    pub fn settled(&self, ports: &[Ports]) -> Result<Vec<Shown>, Refusal> {
        let controls = self.judge(ports)?;
        Ok(self.settle(ports, &controls))
    }

    /// Each check goes over all slices before the next one starts.
    fn judge(&self, ports: &[Ports]) -> Result<Vec<Controls>, Refusal> {
        let (att, reg) = (&self.attributes, &self.registers);
        let slices = || 0..att.len();
        let inmodes = each_slice(
            slices().map(|k| InMode::read(&att[k], &reg[k], &ports[k])),
            Reason::InMode,
        )?;
        let opmodes = each_slice(
            slices().map(|k| OpMode::read(&att[k], &reg[k], &ports[k])),
            Reason::OpMode,
        )?;
        let alumodes = each_slice(
            slices().map(|k| AluMode::read(&att[k], &reg[k], &ports[k], &opmodes[k])),
            Reason::AluMode,
        )?;
        let carryinsels = each_slice(
            slices().map(|k| CarryInSel::read(&att[k], &reg[k], &ports[k])),
            Reason::CarryInSel,
        )?;
        let together = |k: usize| Controls {
            inmode: inmodes[k],
            opmode: opmodes[k],
            alumode: alumodes[k],
            carryinsel: carryinsels[k],
        };
        Ok(slices().map(together).collect())
    }

    fn settle(&self, ports: &[Ports], controls: &[Controls]) -> Vec<Shown> {
        let mut below = Cascade::default();
        let mut shown = Vec::with_capacity(ports.len());
        for k in 0..self.attributes.len() {
            let slice = Wired {
                attributes: &self.attributes[k],
                registers: &self.registers[k],
                ports: &ports[k],
                controls: &controls[k],
                below,
            };
            let settled = slice.settle();
            below = settled.above;
            shown.push(settled);
        }
        shown
    }
}

/// The words one clock is lent; the last two are written when it is accepted.
pub struct LentClock<'a> {
    pub attributes: &'a [u64],
    pub registers: &'a mut [u64],
    pub ports: &'a [u64],
    pub outputs: &'a mut [u64],
}

/// One clock over lent words, with every check in its order.
pub fn clock(count: u64, lent: LentClock) -> Result<(), Refusal> {
    let height = height(count)?;
    let right = lengths_fit(height, lent.attributes, lent.registers, lent.ports)
        && lent.outputs.len() == height * Outputs::WORDS;
    if !right {
        return Err(Refusal::whole(Reason::Length));
    }
    let mut column = Column::found(lent.attributes, lent.registers)?;
    let outputs = column.clock_words(lent.ports)?;
    for (k, register) in column.registers().iter().enumerate() {
        lent.registers[k * Registers::WORDS..][..Registers::WORDS]
            .copy_from_slice(&register.words());
        lent.outputs[k * Outputs::WORDS..][..Outputs::WORDS].copy_from_slice(&outputs[k].words());
    }
    Ok(())
}

/// Tells whether these are the words of so many slices.
pub fn lengths_fit(height: usize, attributes: &[u64], registers: &[u64], ports: &[u64]) -> bool {
    attributes.len() == height * Attributes::WORDS
        && registers.len() == height * Registers::WORDS
        && ports.len() == height * Ports::WORDS
}

/// The settings of all slices, or the lowest slice that has a wrong one.
pub fn read_attributes(words: &[u64]) -> Result<Vec<Attributes>, Refusal> {
    each_slice(words.chunks(Attributes::WORDS).map(Attributes::read), Reason::Attribute)
}

/// The ports of all slices, or the lowest slice that has a word over its width.
pub fn read_ports(words: &[u64]) -> Result<Vec<Ports>, Refusal> {
    each_slice(words.chunks(Ports::WORDS).map(Ports::read), Reason::Port)
}

/// Clears lent registers, whatever they held.
pub fn clear(count: u64, registers: &mut [u64]) -> Result<(), Refusal> {
    if registers.len() != height(count)? * Registers::WORDS {
        return Err(Refusal::whole(Reason::Length));
    }
    registers.fill(0);
    Ok(())
}
