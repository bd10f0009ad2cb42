//! The first match (02, Ask 8): by value, worked out by hand, and held against what the
//! same listing prints without the `N` line's third field.
//!
//! Unless a test sets more, a slice has no registers and the pattern 5 with no bit masked.

mod drawn;
mod one_slice;
mod played;

use drawn::Draws;
use one_slice::{att, port, Set};
use played::{line, played, played_unread};

const ONES: u64 = (1 << 48) - 1;

/// OPMODE that shows the port C, and one that shows the slice below.
const SHOW_C: u64 = 12;
const SHOW_PCIN: u64 = 16;

const CE_P: u64 = 256;
const CE_CTRL: u64 = 512;
const RST_P: u64 = 32;

const PREG: Set = &[(att::PREG, 1)];

/// A line of as many numbers, all 0 but for the words set.
fn zeros_but(tag: char, numbers: usize, set: Set) -> String {
    let mut words = vec![0; numbers];
    set.iter().for_each(|&(word, value)| words[word] = value);
    line(tag, &words)
}

/// An `A` line with the pattern 5 and these words.
fn settings(set: Set) -> String {
    zeros_but('A', 21, &[&[(att::PATTERN, 5)], set].concat())
}

/// A `P` line that gives C as the result, with P enabled, and these words over it.
fn shows(c: u64, set: Set) -> String {
    let given = [(port::C, c), (port::OPMODE, SHOW_C), (port::CE, CE_P)];
    zeros_but('P', 11, &[&given, set].concat())
}

/// A `P` line whose result is the pattern.
fn hit() -> String {
    shows(5, &[])
}

/// A `P` line whose result is not the pattern, by a single bit.
fn miss() -> String {
    shows(4, &[])
}

/// A `P` line that is refused with number 7, though its result would be the pattern.
fn forbidden() -> String {
    shows(5, &[(port::OPMODE, SHOW_C + 64)])
}

/// What is printed for a chosen slice of as many slices with these settings.
fn sought(count: usize, slice: usize, set: Set, clocks: &[String]) -> String {
    let column = settings(set).repeat(count);
    played(format!("N\t{count}\t{slice}\n{column}{}", clocks.concat()))
}

/// What is printed for a slice alone.
fn sought_alone(clocks: &[String]) -> String {
    sought(1, 0, &[], clocks)
}

#[test]
fn the_hand_example() {
    let clocks = [4, 5].map(|c| shows(c, &[(port::CE, 0)])).concat();
    let listing = format!("N\t1\t0\n{}{clocks}", settings(&[]));
    assert_eq!(played(listing + "anything\n"), "M\t1\n");
    let clocks = [4, 5].map(|c| shows(c, &[])).concat();
    let listing = format!("N\t1\t0\n{}{clocks}", settings(PREG));
    assert_eq!(played(listing + "anything\n"), "R\t12\t2\t5\n");
}

#[test]
fn in_clock_0() {
    assert_eq!(sought_alone(&[hit()]), "M\t0\n");
    assert_eq!(sought_alone(&[hit(), miss(), hit()]), "M\t0\n");
}

#[test]
fn in_the_last_clock() {
    for misses in [1, 2, 3, 9, 10, 11, 2000] {
        let clocks = [miss().repeat(misses), hit()];
        assert_eq!(sought_alone(&clocks), format!("M\t{misses}\n"));
    }
}

#[test]
fn the_first_of_several() {
    let clocks = [miss(), miss(), hit(), hit(), miss(), hit()];
    assert_eq!(sought_alone(&clocks), "M\t2\n");
}

#[test]
fn never() {
    assert_eq!(sought_alone(&[]), "E\t0\n");
    for misses in [1, 2, 10] {
        assert_eq!(sought_alone(&[miss().repeat(misses)]), format!("E\t{misses}\n"));
    }
}

#[test]
fn the_complement_is_no_match() {
    // PATTERNBDETECT alone, then both, as nothing is left to compare.
    let inverse = shows(ONES - 5, &[]);
    assert_eq!(sought_alone(&[inverse.clone()]), "E\t1\n");
    assert_eq!(sought(1, 0, &[(att::MASK, ONES)], &[inverse]), "M\t0\n");
}

#[test]
fn masked_bits_do_not_count() {
    let small = &[(att::PATTERN, 0), (att::MASK, 70368744177663)];
    let beside = [shows(70368744177664, &[]), shows(211106232532992, &[])].concat();
    assert_eq!(sought(1, 0, small, &[beside.clone()]), "E\t2\n");
    assert_eq!(sought(1, 0, small, &[beside, shows(70368744177663, &[])]), "M\t2\n");
}

#[test]
fn in_another_slice_only() {
    // Slice 0 in clock 1 alone, slice 2 in all clocks, slice 1 in none.
    let clocks = [miss(), miss(), hit(), hit(), miss(), hit()];
    assert_eq!(sought(3, 0, &[], &clocks), "M\t1\n");
    assert_eq!(sought(3, 1, &[], &clocks), "E\t2\n");
    assert_eq!(sought(3, 2, &[], &clocks), "M\t0\n");
}

#[test]
fn every_slice_of_the_highest_column() {
    // Slice k has the pattern in clock k, and in no other.
    let clock = |hitting| (0..24).map(move |slice| if slice == hitting { hit() } else { miss() });
    let clocks: Vec<String> = (0..24).flat_map(clock).collect();
    for slice in 0..24 {
        assert_eq!(sought(24, slice, &[], &clocks), format!("M\t{slice}\n"));
    }
}

#[test]
fn the_settings_of_the_chosen_slice_count() {
    // The patterns are 5, 6 and 7 from the bottom, and all slices show the same.
    let column: String = (5..8).map(|pattern| settings(&[(att::PATTERN, pattern)])).collect();
    let clocks: String = [7, 6, 5].map(|c| shows(c, &[]).repeat(3)).concat();
    for (slice, clock) in [(0, 2), (1, 1), (2, 0)] {
        let printed = played(format!("N\t3\t{slice}\n{column}{clocks}"));
        assert_eq!(printed, format!("M\t{clock}\n"));
    }
}

#[test]
fn lanes_make_the_match() {
    // 4095 + 1 is 0 in a lane of 12 bits, and 4096 in one of 48.
    let sum = zeros_but('P', 11, &[(port::B, 4095), (port::C, 1), (port::OPMODE, 15)]);
    for (lanes, printed) in [(0, "E\t1\n"), (1, "E\t1\n"), (2, "M\t0\n")] {
        let parted = zeros_but('A', 22, &[(att::USE_SIMD, lanes)]);
        assert_eq!(played(format!("N\t1\t0\n{parted}{sum}")), printed);
    }
}

#[test]
fn a_register_shows_it_a_clock_later() {
    let clocks = [miss(), hit(), miss(), miss()];
    assert_eq!(sought(1, 0, &[], &clocks), "M\t1\n");
    assert_eq!(sought(1, 0, PREG, &clocks), "M\t2\n");
    // No clock is left to show what the last one loaded.
    assert_eq!(sought(1, 0, &[], &clocks[..2]), "M\t1\n");
    assert_eq!(sought(1, 0, PREG, &clocks[..2]), "E\t2\n");
}

#[test]
fn a_register_shows_only_what_it_loaded() {
    let (kept, reset) = (shows(5, &[(port::CE, 0)]), shows(5, &[(port::RST, RST_P)]));
    assert_eq!(sought(1, 0, PREG, &[kept, miss()]), "E\t2\n");
    assert_eq!(sought(1, 0, PREG, &[reset.clone(), miss()]), "E\t2\n");
    // A reset takes it away only after the clock that shows it.
    assert_eq!(sought(1, 0, PREG, &[hit(), reset]), "M\t1\n");
}

#[test]
fn a_cleared_register_is_no_match() {
    // P is 0 and so is the pattern, yet the cleared PD is 0.
    let zero = &[(att::PREG, 1), (att::PATTERN, 0)];
    let idle = zeros_but('P', 11, &[]);
    assert_eq!(sought(1, 0, zero, &[idle.repeat(3)]), "E\t3\n");
    assert_eq!(sought(1, 0, zero, &[shows(0, &[]), idle]), "M\t1\n");
    assert_eq!(sought(1, 0, &[(att::PATTERN, 0)], &[shows(0, &[])]), "M\t0\n");
}

#[test]
fn a_held_opmode_delays_it() {
    let held = &[(att::OPMODEREG, 1)];
    let loading = shows(5, &[(port::CE, CE_CTRL)]);
    assert_eq!(sought(1, 0, held, &[loading, hit()]), "M\t1\n");
    assert_eq!(sought(1, 0, held, &[hit(), hit()]), "E\t2\n");
}

#[test]
fn up_the_cascade() {
    let above = zeros_but('P', 11, &[(port::OPMODE, SHOW_PCIN), (port::CE, CE_P)]);
    let clocks = [hit(), above.clone(), miss(), above.clone(), miss(), above].concat();
    for (set, below, above) in [(&[] as Set, 0, 0), (PREG, 1, 2)] {
        assert_eq!(sought(2, 0, set, &[clocks.clone()]), format!("M\t{below}\n"));
        assert_eq!(sought(2, 1, set, &[clocks.clone()]), format!("M\t{above}\n"));
    }
}

/// What refuses a clock, by its number.
const FAULTS: [(u64, (usize, u64)); 7] = [
    (5, (port::CARRYIN, 2)),
    (5, (port::A, 1 << 30)),
    (6, (port::INMODE, 4)),
    (7, (port::OPMODE, SHOW_C + 64)),
    (8, (port::ALUMODE, 8)),
    (9, (port::CARRYINSEL, 4)),
    (9, (port::CARRYINSEL, 7)),
];

#[test]
fn a_refused_clock_is_no_match() {
    for (number, fault) in FAULTS {
        let refused = shows(5, &[fault]);
        assert_eq!(sought_alone(&[miss(), refused.clone()]), format!("R\t{number}\t1\t0\n"));
        // The slice that is refused is not the chosen one.
        for slice in 0..3 {
            let clocks = [miss().repeat(3), hit(), hit(), refused.clone()];
            let printed = sought(3, slice, &[], &clocks);
            assert_eq!(printed, format!("R\t{number}\t1\t2\n"), "slice {slice}");
        }
    }
}

#[test]
fn a_match_held_in_a_refused_clock_is_none() {
    assert_eq!(sought(1, 0, PREG, &[hit(), miss()]), "M\t1\n");
    assert_eq!(sought(1, 0, PREG, &[hit(), forbidden()]), "R\t7\t1\t0\n");
    assert_eq!(sought(1, 0, PREG, &[hit(), "P\n".into()]), "R\t12\t1\t4\n");
}

#[test]
fn a_refusal_beside_the_match() {
    assert_eq!(sought_alone(&[miss(), forbidden(), hit()]), "R\t7\t1\t0\n");
    assert_eq!(sought_alone(&[miss(), hit(), forbidden()]), "M\t1\n");
    assert_eq!(sought_alone(&[forbidden(), hit()]), "R\t7\t0\t0\n");
    assert_eq!(sought_alone(&[hit(), forbidden()]), "M\t0\n");
    // Nothing is printed for the clocks before it.
    assert_eq!(sought_alone(&[miss(), miss(), miss(), forbidden()]), "R\t7\t3\t0\n");
}

#[test]
fn a_malformed_line_beside_the_match() {
    let bad = || "P\t0\n".to_string();
    assert_eq!(sought_alone(&[miss(), bad(), hit()]), "R\t12\t1\t4\n");
    assert_eq!(sought_alone(&[miss(), hit(), bad()]), "M\t1\n");
    // In the matching clock itself, below and above the chosen slice.
    assert_eq!(sought(2, 1, &[], &[miss(), miss(), bad(), hit()]), "R\t12\t1\t6\n");
    assert_eq!(sought(2, 0, &[], &[miss(), miss(), hit(), bad()]), "R\t12\t1\t7\n");
    // It comes before what the clock's other lines mean.
    assert_eq!(sought(2, 0, &[], &[forbidden(), bad()]), "R\t12\t0\t5\n");
}

#[test]
fn a_short_matching_clock() {
    assert_eq!(sought(2, 0, &[], &[hit()]), "R\t12\t0\t5\n");
    assert_eq!(sought(2, 0, &[], &[miss(), miss(), hit()]), "R\t12\t1\t7\n");
    assert_eq!(sought(2, 0, &[], &[hit(), miss()]), "M\t0\n");
}

#[test]
fn the_matching_clock_needs_its_newline() {
    let open = |line: String| line.trim_end().to_string();
    assert_eq!(sought_alone(&[open(hit())]), "R\t12\t0\t3\n");
    assert_eq!(sought_alone(&[miss(), open(hit())]), "R\t12\t1\t4\n");
    assert_eq!(sought(2, 0, &[], &[hit(), open(miss())]), "R\t12\t0\t5\n");
    assert_eq!(sought(2, 1, &[], &[miss(), open(hit())]), "R\t12\t0\t5\n");
    assert_eq!(sought_alone(&[open(miss())]), "R\t12\t0\t3\n");
}

#[test]
fn what_follows_the_match_changes_nothing() {
    let garbage: [&[u8]; 12] = [
        b"",
        b"\n",
        b"x",
        b"P",
        b"P\n",
        b"P\t0",
        b"\0",
        b"\xff\xfe\n",
        b"\r\n",
        b"E\t2\n",
        b"N\t25\t99\n",
        &[b'0'; 9999],
    ];
    let lines = [hit(), hit().trim_end().into(), forbidden(), shows(1 << 48, &[])];
    for end in garbage.into_iter().chain(lines.iter().map(|line| line.as_bytes())) {
        for (count, clocks) in [(1, [miss(), hit()].concat()), (2, [hit(), miss()].concat())] {
            let start = format!("N\t{count}\t0\n{}{clocks}", settings(&[]).repeat(count));
            let printed = played([start.as_bytes(), end].concat());
            assert_eq!(printed, format!("M\t{}\n", 2 - count), "{end:?}");
        }
    }
}

#[test]
fn nothing_after_the_match_is_read() {
    let column = settings(&[]);
    assert_eq!(played_unread(format!("N\t1\t0\n{column}{}", hit())), "M\t0\n");
    let clocks = [miss().repeat(3), miss(), miss(), hit()].concat();
    let column = column.repeat(3);
    assert_eq!(played_unread(format!("N\t3\t2\n{column}{clocks}")), "M\t1\n");
}

#[test]
fn slices_up_to_the_count() {
    for count in 1..=24 {
        for slice in 0..count {
            assert_eq!(sought(count, slice, &[], &[]), "E\t0\n", "{count} {slice}");
        }
        // The top slice alone has the pattern, in clock 1 alone.
        let clocks = [miss().repeat(2 * count - 1), hit()];
        assert_eq!(sought(count, count - 1, &[], &clocks), "M\t1\n", "{count}");
    }
}

#[test]
fn number_13_slice() {
    for count in 1..=24 {
        for slice in [count, count + 1, 24, 255, 256, 1 << 32, u64::MAX - 1, u64::MAX] {
            // As soon as the line is read.
            let printed = played_unread(format!("N\t{count}\t{slice}\n"));
            assert_eq!(printed, "R\t13\t0\t0\n", "{count} {slice}");
        }
    }
    // Ahead of all that follows: lines malformed, settings wrong, a match.
    for rest in ["x\n".into(), settings(&[(att::AREG, 3)]), settings(&[]) + &hit()] {
        assert_eq!(played(format!("N\t1\t1\n{rest}")), "R\t13\t0\t0\n");
    }
}

#[test]
fn number_1_comes_first() {
    for count in [0, 25, 26, u64::MAX] {
        for slice in [0, 1, 23, 24, 25, 26, u64::MAX] {
            let printed = played_unread(format!("N\t{count}\t{slice}\n"));
            assert_eq!(printed, "R\t1\t0\t0\n", "{count} {slice}");
        }
    }
}

#[test]
fn malformed_slices() {
    let bad = [
        "",
        "00",
        "01",
        "000",
        "+0",
        "-0",
        "-1",
        " 0",
        "0 ",
        "0\r",
        "0x0",
        "0.0",
        "x",
        "\u{660}",
        "18446744073709551616",
        "18446744073709551617",
        "99999999999999999999",
        "184467440737095516150",
        // A fourth field, whatever it is.
        "\t",
        "0\t",
        "\t0",
        "0\t0",
        "1\t0",
        "0\t0\t0",
    ];
    for slice in bad {
        // Ahead of a count that is wrong.
        for count in ["0", "1", "24", "25", "18446744073709551615"] {
            let printed = played_unread(format!("N\t{count}\t{slice}\n"));
            assert_eq!(printed, "R\t12\t0\t1\n", "{count} {slice:?}");
        }
    }
}

#[test]
fn malformed_counts_and_tags() {
    for line in ["N", "N\t", "N\t\t0", "N\t01\t0", "N\t1 0", "N1\t0", "n\t1\t0", "NM\t1\t0", "1\t0"]
    {
        assert_eq!(played_unread(format!("{line}\n")), "R\t12\t0\t1\n", "{line:?}");
    }
    for line in ["N\t1\t0", "N\t1\t1", "N\t25\t0", "N\t1\t"] {
        assert_eq!(played(line), "R\t12\t0\t1\n", "without a newline: {line:?}");
    }
}

#[test]
fn refusals_before_any_clock() {
    let (right, wrong) = (settings(&[]), settings(&[(att::AREG, 3)]));
    assert_eq!(played("N\t2\t1\n"), "R\t12\t0\t2\n");
    assert_eq!(played(format!("N\t2\t1\n{right}")), "R\t12\t0\t3\n");
    assert_eq!(played(format!("N\t2\t1\n{right}{}", hit())), "R\t12\t0\t3\n");
    assert_eq!(played(format!("N\t2\t0\n{right}{wrong}{}{}", hit(), hit())), "R\t3\t0\t1\n");
    assert_eq!(played(format!("N\t2\t0\n{wrong}A\n")), "R\t12\t0\t3\n");
}

#[test]
fn without_the_field_all_is_printed() {
    let listing = format!("N\t1\n{}{}{}{}", settings(&[]), miss(), hit(), forbidden());
    let shown = ["O\t0\t0\t4\t0\t0\t0\t0\t0\t0\n", "O\t1\t0\t5\t1\t0\t0\t0\t0\t0\n"];
    assert_eq!(played(listing), format!("{}R\t7\t2\t0\n", shown.concat()));
}

/// What the first match prints, worked out from all that the listing shows.
fn worked_out(whole: &str, slice: u64) -> String {
    let slice = slice.to_string();
    let fields = whole.lines().map(|line| line.split('\t').collect::<Vec<_>>());
    let mut shown = fields.filter(|fields| fields[0] == "O");
    match shown.find(|fields| fields[2] == slice && fields[4] == "1") {
        Some(fields) => format!("M\t{}\n", fields[1]),
        None => format!("{}\n", whole.lines().last().unwrap()),
    }
}

/// What kind of answer this is, and whether a clock was run before it.
fn kind(printed: &str) -> String {
    let fields: Vec<&str> = printed.trim_end().split('\t').collect();
    let clocks = if fields[0] == "R" { fields[2] } else { fields[1] };
    let number = if fields[0] == "R" { fields[1] } else { "" };
    format!("{}{number}{}", fields[0], if clocks == "0" { "" } else { " later" })
}

#[test]
fn the_whole_listing_gives_the_same() {
    let mut draws = Draws(8);
    let mut kinds = std::collections::BTreeMap::new();
    for listing in 0..500 {
        let count = if listing % 25 == 0 { 24 } else { 1 + draws.below(4) };
        let body = draws.body(count);
        let whole = played([format!("N\t{count}\n").as_bytes(), &body].concat());
        for slice in 0..count {
            let heading = format!("N\t{count}\t{slice}\n");
            let printed = played([heading.as_bytes(), &body].concat());
            assert_eq!(printed, worked_out(&whole, slice), "listing {listing}, slice {slice}");
            *kinds.entry(kind(&printed)).or_insert(0) += 1;
        }
    }
    // Every kind of answer was among them, and more than once.
    let numbers = ["R5 later", "R6 later", "R7 later", "R8 later", "R9 later", "R12 later"];
    for kind in ["M", "M later", "E", "E later", "R3", "R12"].iter().chain(&numbers) {
        assert!(kinds.get(*kind) > Some(&9), "{kind}: {kinds:?}");
    }
}
