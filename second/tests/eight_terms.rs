//! Eight terms (02, Ask 6) by value, worked out by hand.
//!
//! -128 times -128 is 16384, and eight of those are 131072, one more than 18 signed
//! bits hold; every other row of eight has a low sum from -130048 to 130944.

use second::calls::answer;
use second::refusal::REFUSED;

const TERMS: u64 = 10;
const ROWS: u64 = 11;
const LENGTH: u64 = 2;
const LOW_SUM: u64 = 14;

/// The a, the d and the b of one row.
type Row = [Vec<i64>; 3];

/// A row of so many terms that are all the same.
fn same(terms: usize, a: i64, d: i64, b: i64) -> Row {
    [a, d, b].map(|number| vec![number; terms])
}

/// A row whose low sum would be 131072.
fn forbidden() -> Row {
    same(8, 1, -128, -128)
}

/// A row whose sums are 8 and 16.
fn harmless() -> Row {
    same(8, 1, 2, 1)
}

/// Rows of which only those named are forbidden.
fn rows_with(forbidden_rows: &[usize], rows: usize) -> Vec<Row> {
    let row = |row| if forbidden_rows.contains(&row) { forbidden() } else { harmless() };
    (0..rows).map(row).collect()
}

/// What both kinds of run are lent, and the list of the clocked one.
#[derive(Clone)]
struct Lent {
    terms: u64,
    rows: u64,
    a: Vec<i64>,
    d: Vec<i64>,
    b: Vec<i64>,
    answers: Vec<i64>,
    list: Vec<i64>,
}

/// These rows with every length right; no run here answers the numbers lent.
fn lent(rows: &[Row]) -> Lent {
    let terms = rows[0][0].len();
    let array = |which: usize| rows.iter().flat_map(|row| row[which].clone()).collect();
    Lent {
        terms: terms as u64,
        rows: rows.len() as u64,
        a: array(0),
        d: array(1),
        b: array(2),
        answers: vec![777_777; 2 * rows.len()],
        list: vec![888_888; rows.len() + terms + 3],
    }
}

/// A stretch as a call writes it.
fn stretch(numbers: &[i64]) -> String {
    let fields = [&[numbers.len() as i64], numbers].concat();
    fields.iter().map(|field| format!(" {field}")).collect()
}

impl Lent {
    /// All that the plain run is lent, with these answers in it.
    fn stretches(&self, answers: &[i64]) -> String {
        [&self.a, &self.d, &self.b, answers].map(stretch).concat()
    }

    fn clocked(&self) -> String {
        let lent = self.stretches(&self.answers) + &stretch(&self.list);
        answer(&format!("packed {} {}{lent}", self.terms, self.rows)).unwrap()
    }

    fn plain(&self) -> String {
        let lent = self.stretches(&self.answers);
        answer(&format!("plain {} {}{lent}", self.terms, self.rows)).unwrap()
    }

    /// Expects the clocked run to be refused and to leave every stretch alone.
    fn clocked_refused(&self, number: u64, place: u64) {
        let word = REFUSED + 256 * place + number;
        let lent = self.stretches(&self.answers) + &stretch(&self.list);
        assert_eq!(self.clocked(), format!("{word}{lent}"));
    }

    /// Expects the plain run to be refused and to leave every stretch alone.
    fn plain_refused(&self, number: u64, place: u64) {
        let word = REFUSED + 256 * place + number;
        assert_eq!(self.plain(), format!("{word}{}", self.stretches(&self.answers)));
    }

    /// Expects the same refusal of both.
    fn refused(&self, number: u64, place: u64) {
        self.clocked_refused(number, place);
        self.plain_refused(number, place);
    }
}

/// Expects these sums, high then low, of both kinds of run: the clocked one steps
/// rows + terms + 3 clocks, and lists 0 until the first row's word comes to the top.
fn summed(rows: &[Row], sums: &[(i64, i64)]) {
    let lent = lent(rows);
    let answers: Vec<i64> = sums.iter().flat_map(|&(high, low)| [high, low]).collect();
    let after = lent.stretches(&answers);
    assert_eq!(lent.plain(), format!("0{after}"));
    let before = vec![0; lent.terms as usize + 3];
    let words = sums.iter().map(|&(high, low)| (high * 262_144 + low).rem_euclid(1 << 48));
    let list: Vec<i64> = before.into_iter().chain(words).collect();
    assert_eq!(lent.clocked(), format!("{}{after}{}", list.len(), stretch(&list)));
}

#[test]
fn eight_terms_are_summed() {
    let row = [
        vec![1, 2, 3, 4, 5, 6, 7, 8],
        vec![3, 1, 4, 1, 5, 9, 2, 6],
        vec![1, 10, 100, -1, -10, -100, 2, 3],
    ];
    let rows = [row.clone(), harmless(), same(8, -128, 127, 127), row];
    // 1 + 20 + 300 - 4 - 50 - 600 + 14 + 24, and 3 + 10 + 400 - 1 - 50 - 900 + 4 + 18;
    // 8 times -128 times 127, and 8 times 127 times 127.
    let sums = [(-295, -516), (8, 16), (-130048, 129032), (-295, -516)];
    summed(&rows[..1], &sums[..1]);
    // Each row has its own sums, whatever stands beside it.
    summed(&rows, &sums);
}

#[test]
fn the_words_of_eight_terms() {
    // One row of eight takes 1 + 8 + 3 clocks, and its word is 2^18 + 2 eight times.
    let ones = "8 1 1 1 1 1 1 1 1";
    let twos = "8 2 2 2 2 2 2 2 2";
    let reply =
        answer(&format!("packed 8 1 {ones} {twos} {ones} 2 7 7 12 9 9 9 9 9 9 9 9 9 9 9 9"));
    let expected = format!("12 {ones} {twos} {ones} 2 8 16 12 0 0 0 0 0 0 0 0 0 0 0 2097168");
    assert_eq!(reply.unwrap(), expected);
    let reply = answer(&format!("plain 8 1 {ones} {twos} {ones} 2 7 7")).unwrap();
    assert_eq!(reply, format!("0 {ones} {twos} {ones} 2 8 16"));
}

#[test]
fn all_of_eight_terms_at_the_lowest_are_refused() {
    lent(&[same(8, -128, -128, -128)]).refused(LOW_SUM, 0);
    // The word itself: 2^48 and 14.
    let lowest = "8 -128 -128 -128 -128 -128 -128 -128 -128";
    let arrays = format!("{lowest} {lowest} {lowest}");
    let reply = answer(&format!("packed 8 1 {arrays} 2 7 7 12 9 9 9 9 9 9 9 9 9 9 9 9")).unwrap();
    assert_eq!(reply, format!("281474976710670 {arrays} 2 7 7 12 9 9 9 9 9 9 9 9 9 9 9 9"));
    let reply = answer(&format!("plain 8 1 {arrays} 2 7 7")).unwrap();
    assert_eq!(reply, format!("281474976710670 {arrays} 2 7 7"));
}

#[test]
fn a_forbidden_row_is_one_whatever_its_a() {
    for a in [-128, -127, -1, 0, 1, 127] {
        lent(&[same(8, a, -128, -128)]).refused(LOW_SUM, 0);
    }
    let mut row = forbidden();
    row[0] = vec![-128, -128, 127, -128, 0, -128, -128, 5];
    lent(&[row]).refused(LOW_SUM, 0);
}

#[test]
fn one_b_above_the_lowest_fits() {
    for term in 0..8 {
        let mut row = same(8, -128, -128, -128);
        row[2][term] = -127;
        // 7 times 16384, and 128 times 127.
        summed(&[row.clone()], &[(130944, 130944)]);
        row[2][term] = 127;
        // 7 times 16384, less 128 times 127.
        summed(&[row], &[(98432, 98432)]);
    }
}

#[test]
fn one_d_above_the_lowest_fits() {
    for term in 0..8 {
        let mut row = same(8, -128, -128, -128);
        row[1][term] = -127;
        summed(&[row.clone()], &[(131072, 130944)]);
        row[1][term] = 0;
        summed(&[row], &[(131072, 114688)]);
    }
}

#[test]
fn the_lowest_low_sums_fit() {
    // 8 times -128 times 127.
    summed(&[same(8, 1, -128, 127)], &[(1016, -130048)]);
    summed(&[same(8, -128, -128, 127)], &[(-130048, -130048)]);
    summed(&[same(8, 1, 127, -128)], &[(-1024, -130048)]);
    summed(&[same(8, 127, 127, -128)], &[(-130048, -130048)]);
    // The word itself, with no high sum: 2^48 less 130048.
    let row = lent(&[same(8, 0, -128, 127)]).clocked();
    assert!(row.ends_with(" 2 0 -130048 12 0 0 0 0 0 0 0 0 0 0 0 281474976580608"), "{row}");
}

#[test]
fn the_highest_high_sum_fits() {
    // The high field is wider, so that its sum may be 131072, whatever low sum is beside it.
    let lows = [
        (127, -130048),
        (1, -1024),
        (0, 0),
        (-1, 1024),
        (-64, 65536),
        (-120, 122880),
        (-127, 130048),
    ];
    for (d, low) in lows {
        summed(&[same(8, -128, d, -128)], &[(131072, low)]);
    }
    // All d and all b are -128, but never in the same row.
    let rows = [same(8, -128, -128, -127), same(8, -128, -127, -128)];
    summed(&rows, &[(130048, 130048), (131072, 130048)]);
}

#[test]
fn fewer_terms_at_the_lowest_are_accepted() {
    // Enough rows that eight times -128 stand in line in each array.
    for (terms, sum) in
        [(1, 16384), (2, 32768), (3, 49152), (4, 65536), (5, 81920), (6, 98304), (7, 114688)]
    {
        summed(&vec![same(terms, -128, -128, -128); 9], &[(sum, sum); 9]);
    }
}

#[test]
fn eight_in_line_over_two_rows_are_accepted() {
    let mut rows = [same(8, 1, -128, -128), same(8, 1, -128, -128)];
    for which in [1, 2] {
        rows[0][which][..4].fill(1);
        rows[1][which][4..].fill(2);
    }
    // High 4 - 4 * 128 and 4 * 2 - 4 * 128, low 4 + 4 * 16384 and 4 * 4 + 4 * 16384.
    summed(&rows, &[(-508, 65540), (-504, 65552)]);
}

#[test]
fn a_forbidden_row_is_named_where_it_stands() {
    for row in 0..5 {
        lent(&rows_with(&[row], 5)).refused(LOW_SUM, row as u64);
    }
    // The same rows without one.
    summed(&rows_with(&[], 5), &[(8, 16); 5]);
}

#[test]
fn the_lowest_of_several_forbidden_rows_is_named() {
    for lowest in 0..5 {
        for other in lowest + 1..6 {
            lent(&rows_with(&[lowest, other], 6)).refused(LOW_SUM, lowest as u64);
        }
    }
    lent(&rows_with(&[0, 1, 2, 3, 4, 5], 6)).refused(LOW_SUM, 0);
}

#[test]
fn the_last_of_the_most_rows() {
    let mut rows = rows_with(&[4095], 4096);
    lent(&rows).refused(LOW_SUM, 4095);
    // The word itself: 2^48, 256 times 4095 and 14.
    assert!(lent(&rows).plain().starts_with("281474977758990 32768 1 "));
    rows[4095][2][7] = -127;
    // 8 times -128 and one more; 7 times 16384, and 128 times 127.
    let mut sums = vec![(8, 16); 4095];
    sums.push((-1023, 130944));
    summed(&rows, &sums);
}

#[test]
fn a_wrong_length_comes_before_a_forbidden_row() {
    let right = lent(&rows_with(&[1], 2));
    right.refused(LOW_SUM, 1);
    let shared: [fn(&mut Lent) -> &mut Vec<i64>; 4] =
        [|lent| &mut lent.a, |lent| &mut lent.d, |lent| &mut lent.b, |lent| &mut lent.answers];
    for which in shared {
        let (mut short, mut long) = (right.clone(), right.clone());
        which(&mut short).pop();
        short.refused(LENGTH, 0);
        which(&mut long).push(-128);
        long.refused(LENGTH, 0);
    }
}

#[test]
fn a_wrong_list_comes_before_a_forbidden_row() {
    let right = lent(&rows_with(&[1], 2));
    for length in [0, 12, 14] {
        let mut wrong = right.clone();
        wrong.list.resize(length, 888_888);
        wrong.clocked_refused(LENGTH, 0);
        // The plain run has no list.
        wrong.plain_refused(LOW_SUM, 1);
    }
}

#[test]
fn nine_terms_are_refused() {
    lent(&[same(9, 1, 1, 1)]).refused(TERMS, 0);
    lent(&[same(9, -128, -128, -128)]).refused(TERMS, 0);
}

#[test]
fn wrong_terms_come_before_a_forbidden_row() {
    for terms in [0, 9, 16, u64::MAX] {
        Lent { terms, ..lent(&rows_with(&[0, 1], 2)) }.refused(TERMS, 0);
    }
}

#[test]
fn wrong_rows_come_before_a_forbidden_row() {
    for rows in [0, 4097, u64::MAX] {
        Lent { rows, ..lent(&rows_with(&[0, 1], 2)) }.refused(ROWS, 0);
    }
    // One row too many, with every length right.
    lent(&rows_with(&[4096], 4097)).refused(ROWS, 0);
}
