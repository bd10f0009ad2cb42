//! The items that the clocks of a column meet.

use crate::oracle::Controls;
use crate::seen_carry::SeenCarries;
use crate::seen_flags::SeenSums;
use crate::seen_lanes::SeenLanes;
use crate::seen_wrap::SeenWraps;
use crate::table::Table;
use crate::words::*;

/// The groups of the table that accepted clocks are counted in.
pub struct Seen {
    shape: Shape,
    control: Control,
    line: Line,
    lanes: SeenLanes,
    sums: SeenSums,
    wraps: SeenWraps,
    carries: SeenCarries,
    flag: [usize; 2],
    shown: usize,
}

/// Groups about how a column is built.
struct Shape {
    height: usize,
    attribute: [usize; 18],
    depth: [usize; 2],
    wide: [usize; 3],
    simd: usize,
    cascade: [usize; 3],
}

/// Groups about the controls in effect.
struct Control {
    select: [usize; 4],
    arithmetic: usize,
    logic: usize,
    carryinsel: usize,
    carryin: usize,
    inmode: [usize; 2],
    inmode_bit: usize,
    from_register: usize,
}

/// Groups about enables, resets and data.
struct Line {
    enable: [usize; 2],
    reset: [usize; 2],
    together: usize,
    data: [usize; 4],
}

const EDGE_NAMES: [&str; 5] = ["0", "1", "all ones", "sign alone", "all but the sign"];
const Z_LEGAL: [u64; 6] = [0, 1, 2, 3, 5, 6];
const SELECTS_LEGAL: [u64; 6] = [0, 1, 2, 3, 5, 7];
const LOGIC: [u64; 8] = [4, 5, 6, 7, 12, 13, 14, 15];
const FLAGS: [&str; 4] = ["PATTERNDETECT", "PATTERNBDETECT", "OVERFLOW", "UNDERFLOW"];

impl Shape {
    fn new(table: &mut Table) -> Shape {
        let attribute = std::array::from_fn(|word| {
            // A cascade depth of 0 is counted with its stages, below.
            let values = [0..3, 0..3, 1..3, 1..3].get(word).cloned().unwrap_or(0..2);
            table.group(&format!("attribute {}", ATTRIBUTE_NAMES[word]), values)
        });
        let depths = ["0 with 0", "1 with 1", "2 with 1", "2 with 2"];
        let wide = [at::RND, at::PATTERN, at::MASK];
        let slices = || (1..24).map(|slice| format!("up to {slice}"));
        Shape {
            height: table.group("columns that ran, by slices", 1..25),
            attribute,
            depth: ["AREG with ACASCREG", "BREG with BCASCREG"]
                .map(|name| table.group(name, depths)),
            wide: wide.map(|word| {
                table.group(&format!("attribute {}", ATTRIBUTE_NAMES[word]), EDGE_NAMES)
            }),
            simd: table.group("attribute USE_SIMD", SIMD_NAMES),
            cascade: ["A", "B", "P"]
                .map(|side| table.group(&format!("{side} cascade from slice 0"), slices())),
        }
    }
}

impl Control {
    fn new(table: &mut Table) -> Control {
        let carries = |mode| SELECTS_LEGAL.map(|carry| format!("{mode} with {carry}"));
        let ys = |mode| [0, 2].map(|y| format!("{mode} with Y {y}"));
        let paths = ["port 0", "port 1", "register"];
        let names = ["OPMODE", "ALUMODE", "INMODE", "CARRYINSEL"];
        Control {
            select: [
                table.group("W select", 0..4),
                table.group("X select", 0..4),
                table.group("Y select", 0..4),
                table.group("Z select", Z_LEGAL),
            ],
            arithmetic: table.group("arithmetic ALUMODE with CARRYINSEL", (0..4).flat_map(carries)),
            logic: table.group("logic ALUMODE", LOGIC.into_iter().flat_map(ys)),
            carryinsel: table.group("CARRYINSEL", SELECTS_LEGAL),
            carryin: table.group("CARRYIN path added", paths),
            inmode: [
                table.group("INMODE with AMULTSEL 0", (0..32).filter(|mode| mode & 12 == 0)),
                table.group("INMODE with AMULTSEL 1", 0..32),
            ],
            inmode_bit: table.group("INMODE bit set", 0..5),
            from_register: table.group("in effect from a register, not 0", names),
        }
    }
}

impl Line {
    fn new(table: &mut Table) -> Line {
        let enables = ["enable alone on", "enable alone off"];
        let resets = ["reset alone, enables on", "reset alone, enables off"];
        let together = ["all on", "all off", "resets all", "resets all, enables on"];
        Line {
            enable: enables.map(|name| table.group(name, CE_NAMES)),
            reset: resets.map(|name| table.group(name, RST_NAMES)),
            together: table.group("enables and resets", together),
            data: std::array::from_fn(|port| {
                table.group(&format!("port {}", PORT_NAMES[port]), EDGE_NAMES)
            }),
        }
    }
}

impl Seen {
    pub fn new(table: &mut Table) -> Seen {
        let shape = Shape::new(table);
        let control = Control::new(table);
        let line = Line::new(table);
        let lanes = SeenLanes::new(table);
        let sums = SeenSums::new(table);
        let wraps = SeenWraps::new(table);
        let carries = SeenCarries::new(table);
        let names = ["flag with PREG 0", "flag with PREG 1"];
        let flags = [&FLAGS[..2], &FLAGS[..]];
        Seen {
            shape,
            control,
            line,
            lanes,
            sums,
            wraps,
            carries,
            flag: std::array::from_fn(|preg| table.group(names[preg], flags[preg])),
            shown: table.group("shown P", EDGE_NAMES),
        }
    }

    /// Counts a column of which at least one clock ran.
    pub fn column(&self, table: &mut Table, attributes: &[Attributes]) {
        table.met(self.shape.height, attributes.len() - 1);
        for at in attributes {
            for (word, group) in self.shape.attribute.iter().enumerate() {
                let first = if (2..4).contains(&word) { 1 } else { 0 };
                if at[word] >= first {
                    table.met(*group, (at[word] - first) as usize);
                }
            }
            for (side, group) in self.shape.depth.iter().enumerate() {
                let pair = (at[side], at[side + 2]);
                let item = [(0, 0), (1, 1), (2, 1), (2, 2)].iter().position(|known| *known == pair);
                table.met(*group, item.unwrap());
            }
            for (word, group) in self.shape.wide.iter().enumerate() {
                edge(table, *group, at[at::RND + word], 48);
            }
            table.met(self.shape.simd, at[at::USE_SIMD] as usize);
        }
        for (input, group) in [at::A_INPUT, at::B_INPUT].into_iter().zip(self.shape.cascade) {
            reach(table, group, attributes.iter().map(|at| at[input] == 1));
        }
    }

    /// Counts one accepted clock.
    pub fn clock(
        &self,
        table: &mut Table,
        attributes: &[Attributes],
        held: &[Controls],
        ports: &[Ports],
    ) {
        let effect: Vec<Controls> =
            (0..ports.len()).map(|k| held[k].in_effect(&attributes[k], &ports[k])).collect();
        for k in 0..ports.len() {
            self.unit(table, &attributes[k], effect[k], ports[k][po::CARRYIN]);
            self.lanes.unit(table, &attributes[k], effect[k], &ports[k], None);
            self.inmode(table, &attributes[k], effect[k]);
            self.lines(table, &ports[k]);
        }
        let takes_pcin = effect.iter().map(|controls| [1, 5].contains(&controls.z()));
        reach(table, self.shape.cascade[2], takes_pcin);
    }

    /// Counts the operands and the unit.
    fn unit(&self, table: &mut Table, at: &Attributes, controls: Controls, carryin: u64) {
        table.met(self.control.select[0], controls.w() as usize);
        table.met(self.control.select[1], controls.x() as usize);
        table.met(self.control.select[2], controls.y() as usize);
        table.met(self.control.select[3], place(&Z_LEGAL, controls.z()));
        let carry = place(&SELECTS_LEGAL, controls.carryinsel);
        table.met(self.control.carryinsel, carry);
        if controls.alumode < 4 {
            let item = controls.alumode as usize * SELECTS_LEGAL.len() + carry;
            table.met(self.control.arithmetic, item);
        } else {
            let mode = place(&LOGIC, controls.alumode);
            table.met(self.control.logic, mode * 2 + (controls.y() / 2) as usize);
        }
        if controls.alumode < 4 && controls.carryinsel == 0 {
            let path = if at[at::CARRYINREG] == 1 { 2 } else { carryin as usize };
            table.met(self.control.carryin, path);
        }
    }

    /// Counts INMODE, and where the controls came from.
    fn inmode(&self, table: &mut Table, at: &Attributes, controls: Controls) {
        let inmode = controls.inmode;
        // Without the pre-adder only bits 0, 1 and 4 are left.
        let plain = (inmode & 3 | inmode >> 2 & 4) as usize;
        let item = if at[at::AMULTSEL] == 1 { inmode as usize } else { plain };
        table.met(self.control.inmode[at[at::AMULTSEL] as usize], item);
        for bit in 0..5 {
            table.met_if(self.control.inmode_bit, bit, inmode >> bit & 1 == 1);
        }
        let values = [controls.opmode, controls.alumode, inmode, controls.carryinsel];
        let registers = [at::OPMODEREG, at::ALUMODEREG, at::INMODEREG, at::CARRYINSELREG];
        for (item, (value, register)) in values.into_iter().zip(registers).enumerate() {
            table.met_if(self.control.from_register, item, at[register] == 1 && value != 0);
        }
    }

    /// Counts enables, resets and data.
    fn lines(&self, table: &mut Table, po: &Ports) {
        let (ce, rst) = (po[po::CE], po[po::RST]);
        for bit in 0..13 {
            table.met_if(self.line.enable[0], bit, ce == 1 << bit && rst == 0);
            table.met_if(self.line.enable[1], bit, ce == CE_ALL ^ 1 << bit && rst == 0);
        }
        for bit in 0..10 {
            table.met_if(self.line.reset[0], bit, rst == 1 << bit && ce == CE_ALL);
            table.met_if(self.line.reset[1], bit, rst == 1 << bit && ce == 0);
        }
        table.met_if(self.line.together, 0, ce == CE_ALL && rst == 0);
        table.met_if(self.line.together, 1, ce == 0 && rst == 0);
        table.met_if(self.line.together, 2, rst == RST_ALL && ce == 0);
        table.met_if(self.line.together, 3, rst == RST_ALL && ce == CE_ALL);
        for (port, group) in self.line.data.iter().enumerate() {
            edge(table, *group, po[port], PORT_WIDTHS[port]);
        }
    }

    /// Counts what the accepted clocks of a column showed, slice by slice; says where a mark of the
    /// pre-adder, a carry or a wide sum is not the oracle's.
    pub fn shown(
        &self,
        table: &mut Table,
        attributes: &[Attributes],
        ports: &[Ports],
        shown: &[Outputs],
    ) -> Result<(), String> {
        for (at, shown) in attributes.iter().cycle().zip(shown) {
            self.outputs(table, at, shown);
        }
        self.sums.column(table, attributes, ports, shown);
        self.wraps.column(table, attributes, ports, shown)?;
        self.carries.column(table, attributes, ports, shown)
    }

    /// Counts P and the four flags that one slice showed.
    fn outputs(&self, table: &mut Table, at: &Attributes, shown: &Outputs) {
        edge(table, self.shown, shown[0], 48);
        self.lanes.flags(table, at, &shown[1..PREADDWRAP]);
        for item in 0..4 {
            if shown[item + 1] == 1 {
                table.met(self.flag[at[at::PREG] as usize], item);
            }
        }
    }
}

fn place(legal: &[u64], value: u64) -> usize {
    legal.iter().position(|known| *known == value).unwrap()
}

fn edge(table: &mut Table, group: usize, value: u64, width: u32) {
    if let Some(item) = edges(width).iter().position(|edge| *edge == value) {
        table.met(group, item);
    }
}

/// Counts the highest slice that a chain from slice 0 reaches unbroken.
pub fn reach(table: &mut Table, group: usize, linked: impl Iterator<Item = bool>) {
    let links = linked.skip(1).take_while(|linked| *linked).count();
    if links > 0 {
        table.met(group, links - 1);
    }
}
