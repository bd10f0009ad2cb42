//! The items that the carry meets (02, Ask 7), in listings and in calls.

use crate::carry_oracle::{Adder, Carry, Held, CARRIES};
use crate::seen::reach;
use crate::seen_wide::{SeenWide, UnderWay};
use crate::table::Table;
use crate::words::*;

/// An accepted clock of a column, and what is seen of its edge.
pub struct Clock<'a> {
    pub attributes: &'a [Attributes],
    pub ports: &'a [Ports],
    pub carries: &'a [Carry],
    pub shown: &'a [Outputs],
    /// The result of each unit, where it is seen: as P in this clock, or as what P loads.
    pub results: Vec<Option<u64>>,
    /// Whether it is seen what a register that is read holds after the edge.
    pub edge_seen: bool,
}

impl Clock<'_> {
    /// Says where a carry, or a sum that makes one, is not the oracle's.
    fn check(&self) -> Result<(), String> {
        for (k, slice) in self.carries.iter().enumerate() {
            let (shown, right) = (self.shown[k][CARRY], slice.shown());
            if shown != right {
                return Err(format!("the carry is {shown} in slice {k}, the oracle says {right}"));
            }
            let right = slice.adder.sum().filter(|_| slice.adder.makes_carry());
            let right = right.map(|sum| sum % CARRIES);
            if let (Some(result), Some(right)) = (self.results[k], right) {
                if result != right {
                    return Err(format!("slice {k} has the sum {result}, the oracle says {right}"));
                }
            }
        }
        Ok(())
    }
}

/// Whether P, and the carry with it, loads at the edge.
pub fn loads(po: &Ports) -> bool {
    po[po::CE] & CE_P != 0 && po[po::RST] & RST_P == 0
}

/// The groups of the table that one clock is counted in.
pub struct SeenCarry {
    made: Made,
    hidden: Hidden,
    taken: Taken,
    edge: [Option<usize>; 2],
}

/// What the register does at an edge.
const MOVES: [&str; 4] = ["loads", "is kept", "is cleared", "is cleared, enabled too"];

impl SeenCarry {
    /// With the values of PREG for which an edge can be seen.
    pub fn new(table: &mut Table, edges_with: &[u64]) -> SeenCarry {
        let moves = |bits: usize| {
            MOVES.map(|what| format!("{} with {} settled {what}", bits >> 1, bits & 1))
        };
        SeenCarry {
            made: Made::new(table),
            hidden: Hidden::new(table),
            taken: Taken::new(table),
            edge: [0, 1].map(|preg| {
                let name = format!("register of the carry with PREG {preg}");
                edges_with.contains(&preg).then(|| table.group(&name, (0..4).flat_map(moves)))
            }),
        }
    }

    /// Holds the carries that an accepted clock showed against the oracle, and counts what they met.
    pub fn clock(&self, table: &mut Table, clock: &Clock) -> Result<(), String> {
        clock.check()?;
        for (k, slice) in clock.carries.iter().enumerate() {
            let (at, po) = (&clock.attributes[k], &clock.ports[k]);
            table.met_if(self.made.slice[at[at::PREG] as usize], k, slice.shown() == 1);
            if let Some(result) = clock.results[k] {
                self.made.count(table, at, slice);
                self.hidden.count(table, at, &slice.adder, result);
                self.taken.count(table, clock, k);
            }
            if let (Some(group), true) = (self.edge[at[at::PREG] as usize], clock.edge_seen) {
                table.met(group, move_of(slice, po));
            }
        }
        self.taken.straight_up(table, clock);
        Ok(())
    }
}

/// The item of what the register does.
fn move_of(slice: &Carry, po: &Ports) -> usize {
    let line = match (po[po::RST] & RST_P, po[po::CE] & CE_P) {
        (0, 0) => 1,
        (0, _) => 0,
        (_, 0) => 2,
        _ => 3,
    };
    (slice.held * 2 + slice.settled()) as usize * MOVES.len() + line
}

/// The selects that X and Z have where a carry is made, and their names.
const XS: [(u64, &str); 3] = [(0, "0"), (2, "P"), (3, "A:B")];
const ZS: [(u64, &str); 6] =
    [(0, "0"), (1, "PCIN"), (2, "P"), (3, "C"), (5, "PCIN shifted"), (6, "P shifted")];
/// The sums at the edges of a carry, and how they are called.
const EDGES: [(u64, &str); 3] =
    [(CARRIES - 1, "2^48 - 1"), (CARRIES, "2^48"), (2 * CARRIES - 1, "2^49 - 1")];

/// A group with an item for each pair of selects by which its aim can be met.
struct Pairs {
    group: usize,
    selects: Vec<(u64, u64)>,
}

impl Pairs {
    fn new(table: &mut Table, name: &str, can: impl Fn(u64, u64) -> bool) -> Pairs {
        let all = XS.into_iter().flat_map(|x| ZS.map(|z| (x, z)));
        let some: Vec<_> = all.filter(|((x, _), (z, _))| can(*x, *z)).collect();
        let labels = some.iter().map(|((_, x), (_, z))| format!("X {x} Z {z}"));
        let selects = some.iter().map(|((x, _), (z, _))| (*x, *z)).collect();
        Pairs { group: table.group(name, labels), selects }
    }

    fn met(&self, table: &mut Table, selects: (u64, u64)) {
        let item = self.selects.iter().position(|known| *known == selects);
        item.into_iter().for_each(|item| table.met(self.group, item));
    }
}

/// Groups about the setting that makes a carry.
struct Made {
    carry: [Pairs; 2],
    edge: [Pairs; 3],
    cin_decides: usize,
    slice: [usize; 2],
}

/// The ways of CIN.
const CINS: [&str; 7] = ["0 by its port", "0 by its register", "1", "2", "3", "5", "7"];

impl Made {
    fn new(table: &mut Table) -> Made {
        let not_empty = |x: u64, z: u64| (x, z) != (0, 0);
        // P and P shifted have one sign, so their sum is far from 2^48.
        let exact = |x: u64, z: u64| not_empty(x, z) && (x, z) != (2, 6);
        let bits = |way| ["carry 0", "carry 1"].map(|carry| format!("CARRYINSEL {way}, {carry}"));
        Made {
            carry: [
                Pairs::new(table, "carry 0 by", |_, _| true),
                Pairs::new(table, "carry 1 by", not_empty),
            ],
            edge: std::array::from_fn(|edge| {
                let name = format!("X + Z + CIN of {} by", EDGES[edge].1);
                // The last is the farthest that both take it together.
                Pairs::new(table, &name, |x, z| if edge < 2 { exact(x, z) } else { x * z != 0 })
            }),
            cin_decides: table
                .group("CIN alone decides the carry", CINS.into_iter().flat_map(bits)),
            slice: [0, 1].map(|preg| {
                table.group(&format!("carry 1 shown with PREG {preg}, at slice"), 0..24)
            }),
        }
    }

    fn count(&self, table: &mut Table, at: &Attributes, slice: &Carry) {
        let adder = &slice.adder;
        let Some(sum) = adder.sum().filter(|_| adder.makes_carry()) else { return };
        let selects = (adder.controls.x(), adder.controls.z());
        let carry = slice.settled() as usize;
        self.carry[carry].met(table, selects);
        let edge = EDGES.iter().position(|(edge, _)| *edge == sum);
        edge.into_iter().for_each(|edge| self.edge[edge].met(table, selects));
        if sum - adder.cin() == CARRIES - 1 {
            let way = match adder.controls.carryinsel {
                0 => at[at::CARRYINREG],
                select @ 1..=3 => 1 + select,
                select => 3 + select / 2,
            };
            table.met(self.cin_decides, way as usize * 2 + carry);
        }
    }
}

/// Groups about settings that hide a carry.
struct Hidden {
    alone: [usize; 2],
    by_0: usize,
    own_carry: usize,
}

/// What hides a carry: a word of an adder's setting, and a value of it that is not 0.
type Hider = (usize, u64);
const MODE: usize = 0;
const W: usize = 1;
const Y: usize = 2;
const LANES: usize = 3;

/// W 1 takes P, which PREG 0 does not allow, and so it is last.
const HIDERS: [Hider; 19] = [
    (MODE, 1),
    (MODE, 2),
    (MODE, 3),
    (MODE, 4),
    (MODE, 5),
    (MODE, 6),
    (MODE, 7),
    (MODE, 12),
    (MODE, 13),
    (MODE, 14),
    (MODE, 15),
    (W, 2),
    (W, 3),
    (Y, 1),
    (Y, 2),
    (Y, 3),
    (LANES, 1),
    (LANES, 2),
    (W, 1),
];
const HIDERS_WITHOUT_P: usize = 18;
/// Those that may select 0, and those that have a carry of their own.
const MAY_SELECT_0: [Hider; 5] = [(W, 1), (W, 2), (W, 3), (Y, 1), (Y, 3)];
const WITH_OWN_CARRY: [Hider; 4] = [(MODE, 1), (MODE, 3), (LANES, 1), (LANES, 2)];

fn name((word, value): &Hider) -> String {
    match *word {
        LANES => SIMD_NAMES[*value as usize].to_string(),
        word => format!("{} {value}", ["ALUMODE", "W", "Y"][word]),
    }
}

/// Counts a hider, where it is one of these.
fn met_hider(table: &mut Table, group: usize, known: &[Hider], hider: Hider) {
    let item = known.iter().position(|one| *one == hider);
    item.into_iter().for_each(|item| table.met(group, item));
}

/// What hides the carry of an adder, if it is one thing alone.
fn only_hider(adder: &Adder) -> Option<Hider> {
    let setting = adder.setting();
    let mut hiders = (0..4).map(|word| (word, setting[word])).filter(|(_, value)| *value != 0);
    let first = hiders.next()?;
    hiders.next().is_none().then_some(first)
}

/// What alone hides a carry of X + Z + CIN, by the result of the unit.
fn hides_alone(adder: &Adder, result: u64) -> Option<Hider> {
    let carries = match adder.sum() {
        Some(sum) => sum >= CARRIES,
        // The sum with the product is the result, unless it is the larger by 2^48.
        None => result < adder.z() + adder.cin(),
    };
    only_hider(adder).filter(|_| carries)
}

impl Hidden {
    fn new(table: &mut Table) -> Hidden {
        Hidden {
            alone: [0, 1].map(|preg| {
                let title = format!("carry hidden with PREG {preg}, by this alone");
                table.group(&title, HIDERS[..HIDERS_WITHOUT_P + preg].iter().map(name))
            }),
            by_0: table
                .group("carry hidden by a select that gives 0", MAY_SELECT_0.iter().map(name)),
            own_carry: table
                .group("carry hidden beside an own one of", WITH_OWN_CARRY.iter().map(name)),
        }
    }

    fn count(&self, table: &mut Table, at: &Attributes, adder: &Adder, result: u64) {
        self.own_carry(table, adder);
        let Some(hider) = hides_alone(adder, result) else { return };
        met_hider(table, self.alone[at[at::PREG] as usize], &HIDERS, hider);
        let selected = match hider {
            (W, 1) => adder.sources.p,
            (W, 2) => at[at::RND],
            (W | Y, 3) => adder.sources.c,
            // The product is X alone.
            (Y, 1) => 0,
            _ => return,
        };
        if selected == 0 {
            met_hider(table, self.by_0, &MAY_SELECT_0, hider);
        }
    }

    /// Counts a mode that carries with Z inverted, and lanes of which the highest one carries.
    fn own_carry(&self, table: &mut Table, adder: &Adder) {
        let (Some(hider), Some(x)) = (only_hider(adder), adder.x()) else { return };
        let carries = match hider {
            (MODE, _) => x + adder.cin() > adder.z(),
            (LANES, lanes) => {
                let width = LANE_WIDTHS[lanes as usize];
                (x >> (48 - width)) + (adder.z() >> (48 - width)) > ones(width)
            }
            _ => false,
        };
        if carries {
            met_hider(table, self.own_carry, &WITH_OWN_CARRY, hider);
        }
    }
}

/// Groups about CARRYINSEL 2.
struct Taken {
    from: usize,
    turned: usize,
    bottom: usize,
    hidden: usize,
    unit: usize,
    slice: [usize; 2],
    straight: usize,
}

/// Bits beside the one that is taken.
const BESIDE: [&str; 6] = [
    "CARRYIN",
    "own register",
    "P bit 47",
    "PCIN bit 47",
    "register below with PREG 0",
    "settled carry below with PREG 1",
];
const FROM: [&str; 5] =
    ["0 at the bottom", "0 of PREG 0", "1 of PREG 0", "0 of PREG 1", "1 of PREG 1"];

impl Taken {
    fn new(table: &mut Table) -> Taken {
        let by = |from: &str| ["port", "register"].map(|by| format!("{from} by {by}"));
        let bits = |beside: &str| [0, 1].map(|bit| format!("{bit} beside {beside}"));
        let straight = (1..24).map(|slice| format!("up to {slice}"));
        let modes = |name| (0..4).map(move |mode| format!("{name} mode {mode}"));
        Taken {
            from: table.group("CARRYINSEL 2 takes", FROM.into_iter().flat_map(by)),
            turned: table
                .group("CARRYINSEL 2 takes another bit,", BESIDE.into_iter().flat_map(bits)),
            bottom: table.group("CARRYINSEL 2 at the bottom takes 0 beside 1 of", &BESIDE[..3]),
            hidden: table.group(
                "CARRYINSEL 2 takes 0, hidden below by",
                HIDERS[..HIDERS_WITHOUT_P].iter().map(name),
            ),
            unit: table.group("CARRYINSEL 2 takes 1 in", SIMD_NAMES.into_iter().flat_map(modes)),
            slice: [0, 1].map(|preg| {
                table.group(&format!("CARRYINSEL 2 takes 1 of PREG {preg}, at slice"), 1..24)
            }),
            straight: table.group("carry straight up from slice 0", straight),
        }
    }

    /// Whether a slice adds the carry from below.
    fn takes(slice: &Carry) -> bool {
        slice.adder.controls.carryinsel == 2 && slice.adder.controls.alumode < 4
    }

    fn count(&self, table: &mut Table, clock: &Clock, k: usize) {
        let (at, slice) = (&clock.attributes[k], &clock.carries[k]);
        if !Taken::takes(slice) {
            return;
        }
        let by = at[at::CARRYINSELREG] as usize;
        let sources = &slice.adder.sources;
        // P is no register of a slice with PREG 0.
        let p = (at[at::PREG] == 1).then_some(sources.p >> 47);
        let own = [Some(sources.carryin), Some(slice.held), p];
        let Some(below) = k.checked_sub(1) else {
            table.met(self.from, by);
            (0..3).for_each(|item| table.met_if(self.bottom, item, own[item] == Some(1)));
            return;
        };
        let (preg, taken) = (clock.attributes[below][at::PREG], sources.below);
        table.met(self.from, (1 + preg * 2 + taken) as usize * 2 + by);
        let not_shown = [clock.carries[below].held, clock.carries[below].settled()];
        let of_below = [0, 1].map(|with| (preg == with).then_some(not_shown[with as usize]));
        let beside = own.into_iter().chain([Some(sources.pcin >> 47)]).chain(of_below);
        for (item, other) in beside.enumerate() {
            table.met_if(self.turned, item * 2 + taken as usize, other == Some(1 - taken));
        }
        self.by_value(table, clock, k, preg);
    }

    /// Counts where a 1 goes, and a 0 of a slice that hides a carry as it settles.
    fn by_value(&self, table: &mut Table, clock: &Clock, k: usize, preg: u64) {
        let adder = &clock.carries[k].adder;
        if adder.sources.below == 1 {
            table.met(self.slice[preg as usize], k - 1);
            table.met(self.unit, (adder.simd * 4 + adder.controls.alumode) as usize);
        } else if preg == 0 {
            let hider = hides_alone(&clock.carries[k - 1].adder, clock.shown[k - 1][0]);
            hider.into_iter().for_each(|hider| met_hider(table, self.hidden, &HIDERS, hider));
        }
    }

    /// Counts how far a carry of slice 0 goes in one clock, each slice carrying by it alone.
    fn straight_up(&self, table: &mut Table, clock: &Clock) {
        let by_cin_alone = |slice: &Carry| slice.adder.sum() == Some(CARRIES);
        let linked = (0..clock.carries.len()).map(|k| {
            let Some(below) = k.checked_sub(1) else { return true };
            let from = &clock.carries[below];
            let handed = clock.attributes[below][at::PREG] == 0 && from.shown() == 1;
            handed && Taken::takes(&clock.carries[k]) && (below == 0 || by_cin_alone(from))
        });
        reach(table, self.straight, linked);
    }
}

/// The groups of listings, where a clock follows another and all registers start at 0.
pub struct SeenCarries {
    clock: SeenCarry,
    wide: SeenWide,
}

impl SeenCarries {
    pub fn new(table: &mut Table) -> SeenCarries {
        // What a register holds is never shown with PREG 0.
        SeenCarries { clock: SeenCarry::new(table, &[1]), wide: SeenWide::new(table) }
    }

    /// Counts the accepted clocks of a column: its ports and outputs, slice by slice.
    pub fn column(
        &self,
        table: &mut Table,
        attributes: &[Attributes],
        ports: &[Ports],
        shown: &[Outputs],
    ) -> Result<(), String> {
        let slices = attributes.len();
        let mut held = vec![Held::default(); slices];
        let mut under_way = UnderWay::default();
        let shown: Vec<&[Outputs]> = shown.chunks(slices).collect();
        for (t, ports) in ports.chunks(slices).take(shown.len()).enumerate() {
            let (now, next) = (shown[t], shown.get(t + 1));
            let carries = Carry::all(attributes, &held, ports, now);
            let result = |k: usize| match attributes[k][at::PREG] {
                0 => Some(now[k][0]),
                _ => next.filter(|_| loads(&ports[k])).map(|next| next[k][0]),
            };
            let clock = Clock {
                attributes,
                ports,
                carries: &carries,
                shown: now,
                results: (0..slices).map(result).collect(),
                edge_seen: next.is_some(),
            };
            let counted = self.clock.clock(table, &clock);
            let counted = counted.and_then(|()| self.wide.clock(table, &mut under_way, &clock));
            counted.map_err(|why| format!("clock {t}: {why}"))?;
            for (k, at) in attributes.iter().enumerate() {
                held[k] = held[k].after(at, &ports[k], &carries[k]);
            }
        }
        Ok(())
    }
}
