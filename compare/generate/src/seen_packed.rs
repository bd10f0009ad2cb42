//! The items that packed and plain runs meet, most of them with eight terms (02, Ask 6).

use crate::packed_oracle::{check, sums};
use crate::read_calls::{Read, KINDS, PACKED};
use crate::table::Table;

/// The groups of the table for one of the two runs.
pub struct SeenRun {
    kind: usize,
    terms: usize,
    rows: usize,
    full_row: usize,
    eight_terms: usize,
    all_but_one: usize,
    line: usize,
    place: usize,
    others: usize,
    a: usize,
    length_first: usize,
    count_first: usize,
}

/// The least number, of which an overfull row has nothing else in d and b.
const LEAST: i128 = -128;
/// The terms with which such a row is overfull.
const OVERFULL_TERMS: usize = 8;
const ROWS: [i128; 4] = [1, 2, 4095, 4096];
const STRETCHES: [&str; 5] = ["a", "d", "b", "answers", "list"];
const EIGHT_TERMS: [&str; 7] = [
    "4096 rows",
    "low sum 130944",
    "low sum -130048",
    "high sum 131072",
    "high sum -130048",
    "all d -128 and not all b",
    "all b -128 and not all d",
];
const PLACES: [&str; 5] =
    ["the only row", "the first of several", "a middle one", "the last of several", "row 4095"];
const OTHERS: [&str; 2] = ["this row alone overfull", "a later row overfull too"];

/// The rows of which d and b are all -128, as far as both are lent.
fn full_rows(call: &Read) -> Vec<usize> {
    let rows = |which: usize| call.stretches[which].chunks_exact(call.plain[0] as usize);
    let full = |(row, (d, b)): (usize, (&[i128], &[i128]))| {
        d.iter().chain(b).all(|number| *number == LEAST).then_some(row)
    };
    rows(1).zip(rows(2)).enumerate().filter_map(full).collect()
}

/// The places of a row's numbers that are not -128.
fn not_least(numbers: &[i128]) -> Vec<usize> {
    (0..numbers.len()).filter(|place| numbers[*place] != LEAST).collect()
}

impl SeenRun {
    pub fn new(table: &mut Table, kind: usize) -> SeenRun {
        let run = KINDS[kind].0;
        let places = |side| (0..OVERFULL_TERMS).map(move |place| format!("{side} of term {place}"));
        let lent = if kind == PACKED { &STRETCHES[..] } else { &STRETCHES[..4] };
        let lengths =
            lent.iter().flat_map(|name| ["short", "long"].map(|how| format!("{name} too {how}")));
        let mut group =
            |what: &str, labels: Vec<String>| table.group(&format!("{run} {what}"), labels);
        let owned = |labels: &[&str]| labels.iter().map(|label| label.to_string()).collect();
        SeenRun {
            kind,
            terms: group("accepted terms", (1..=8).map(|terms| terms.to_string()).collect()),
            rows: group("accepted rows", ROWS.map(|rows| rows.to_string()).to_vec()),
            full_row: group(
                "accepted, a row all -128 in d and b, terms",
                (1..8).map(|terms| terms.to_string()).collect(),
            ),
            eight_terms: group("accepted with 8 terms", owned(&EIGHT_TERMS)),
            all_but_one: group(
                "accepted, a row all -128 in d and b but for",
                places("d").chain(places("b")).collect(),
            ),
            line: group(
                "accepted, eight d and b in a line -128 over two rows, from term",
                (1..8).map(|place| place.to_string()).collect(),
            ),
            place: group("refusal 14 at", owned(&PLACES)),
            others: group("refusal 14 with", owned(&OTHERS)),
            a: group("refusal 14 at a row whose a are", owned(&["all -128", "not all -128"])),
            length_first: group("refusal 2 before 14 by", lengths.collect()),
            count_first: group("refusal before 14", owned(&["10 by 9 terms", "11 by 4097 rows"])),
        }
    }

    /// Holds an accepted run against the oracle, and counts what a run met.
    pub fn call(
        &self,
        table: &mut Table,
        call: &Read,
        answer: &Read,
        refusal: Option<(i128, i128)>,
    ) -> Result<(), String> {
        match refusal {
            None => {
                check(self.kind, call, answer)?;
                self.accepted(table, call);
            }
            Some((2, _)) => self.wrong_length(table, call),
            Some((14, row)) => self.overfull(table, call, row as usize),
            Some((number, _)) => self.wrong_count(table, call, number),
        }
        Ok(())
    }

    fn accepted(&self, table: &mut Table, call: &Read) {
        let (terms, rows) = (call.plain[0] as usize, call.plain[1]);
        table.met(self.terms, terms - 1);
        let known = ROWS.iter().position(|known| *known == rows);
        known.into_iter().for_each(|item| table.met(self.rows, item));
        if terms == OVERFULL_TERMS {
            self.eight_terms(table, call);
            self.line(table, call);
        } else {
            table.met_if(self.full_row, terms - 1, !full_rows(call).is_empty());
        }
    }

    /// Counts sums and rows at the bound and next to it.
    fn eight_terms(&self, table: &mut Table, call: &Read) {
        table.met_if(self.eight_terms, 0, call.plain[1] == 4096);
        for [high, low] in sums(call) {
            let ends = [low == 130944, low == -130048, high == 131072, high == -130048];
            for (item, met) in ends.into_iter().enumerate() {
                table.met_if(self.eight_terms, 1 + item, met);
            }
        }
        let rows = |which: usize| call.stretches[which].chunks(OVERFULL_TERMS);
        for (d, b) in rows(1).zip(rows(2)) {
            let (d, b) = (not_least(d), not_least(b));
            table.met_if(self.eight_terms, 5, d.is_empty());
            table.met_if(self.eight_terms, 6, b.is_empty());
            match (&d[..], &b[..]) {
                ([place], []) => table.met(self.all_but_one, *place),
                ([], [place]) => table.met(self.all_but_one, OVERFULL_TERMS + place),
                _ => {}
            }
        }
    }

    /// Counts as many numbers of -128 as an overfull row has, but not in one row.
    fn line(&self, table: &mut Table, call: &Read) {
        let pairs = call.stretches[1].iter().zip(&call.stretches[2]);
        let least: Vec<bool> = pairs.map(|(d, b)| [*d, *b] == [LEAST; 2]).collect();
        for (from, line) in least.windows(OVERFULL_TERMS).enumerate() {
            let term = from % OVERFULL_TERMS;
            if term > 0 && line.iter().all(|least| *least) {
                table.met(self.line, term - 1);
            }
        }
    }

    fn overfull(&self, table: &mut Table, call: &Read, row: usize) {
        let last = call.plain[1] as usize - 1;
        let item = match row {
            0 if last == 0 => 0,
            0 => 1,
            _ if row < last => 2,
            _ => 3,
        };
        table.met(self.place, item);
        table.met_if(self.place, 4, row == 4095);
        let later = full_rows(call).iter().any(|other| *other > row);
        table.met(self.others, usize::from(later));
        let a = &call.stretches[0][row * OVERFULL_TERMS..][..OVERFULL_TERMS];
        table.met(self.a, usize::from(!not_least(a).is_empty()));
    }

    /// Counts a length that is wrong alone, where an overfull row is lent all the same.
    fn wrong_length(&self, table: &mut Table, call: &Read) {
        let [which] = call.lengths_wrong(self.kind)[..] else { return };
        let long = call.stretches[which].len() as i128 > call.right_lengths(self.kind)[which];
        if call.plain[0] == OVERFULL_TERMS as i128 && !full_rows(call).is_empty() {
            table.met(self.length_first, which * 2 + usize::from(long));
        }
    }

    /// Counts wrong terms or rows that alone are wrong, but for rows all -128.
    fn wrong_count(&self, table: &mut Table, call: &Read, number: i128) {
        let item = match (number, call.plain[0], call.plain[1]) {
            (10, 9, _) => 0,
            (11, 8, 4097) => 1,
            _ => return,
        };
        let alone = call.lengths_wrong(self.kind).is_empty();
        table.met_if(self.count_first, item, alone && !full_rows(call).is_empty());
    }
}
