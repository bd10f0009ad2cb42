//! Sweeps: `N` lines with the slice to watch (02, Ask 8), good and malformed, and text that is no
//! listing before a match, in its clock, and after it.

use std::io;

use crate::book::{Book, Watch};
use crate::match_oracle::with_match;
use crate::random::Random;
use crate::sweep_lanes::alternate;
use crate::sweep_match::{alike, from_clocks, STANDS};
use crate::sweep_text::{bytes_of, clocks_before, sorts};
use crate::words::*;

pub fn write(book: &mut Book, random: &mut Random) -> io::Result<()> {
    let lines = small(random, 0).lines(alternate);
    malformed_first_lines(book, &lines)?;
    first_lines_by_hand(book, &lines)?;
    for preg in [0, 1] {
        spoiled_lines(book, random, preg)?;
        ends(book, &small(random, preg))?;
        after_the_match(book, &small(random, preg))?;
    }
    Ok(())
}

/// The clock in which slice 0 of a small column is first to match. Slice 1 never does.
const MATCH: usize = 1;
const MATCHES: [Option<usize>; 2] = [Some(MATCH), None];

/// Two slices and three clocks.
fn small(random: &mut Random, preg: usize) -> Column {
    let attributes = alike(random, 2, preg as u64);
    from_clocks(random, attributes, 3, &[MATCH - preg, 3])
}

/// Each slice of a text watched, by the clocks in which they are first to match.
fn watches(
    aim: impl Fn(Option<usize>) -> String,
    whole: &str,
    matches: &[Option<usize>],
) -> Vec<Watch> {
    let watch = |(slice, clock): (usize, &Option<usize>)| Watch {
        aim: aim(*clock),
        slice: slice as u64,
        ending: with_match(whole, *clock),
    };
    matches.iter().enumerate().map(watch).collect()
}

/// An `N` line that watches, spoiled in each way; and each byte of its last field and around it.
fn malformed_first_lines(book: &mut Book, lines: &[Vec<u8>]) -> io::Result<()> {
    let rest = lines[1..].concat();
    for (sort, spoiled) in sorts(b"N\t2\t1") {
        let aim = format!("N line that watches, {sort}");
        book.text(&aim, &[spoiled, rest.clone()].concat(), "R 12 0 1")?;
    }
    let count_end = lines[0].len() - 1;
    bytes_of(book, &watching(&lines.concat(), 0), count_end..=count_end + "\t0".len())
}

/// `N` lines that are malformed, whatever else; with a bad count, whatever the slice; and with a
/// slice that two do not have.
const MALFORMED: [&str; 14] = [
    "N",
    "N\t",
    "N\t2\t",
    "N\t\t1",
    "N\t\t",
    "N\t2\t0\t",
    "N\t2\t0\t0",
    "N\t2\t0\t0\t0",
    "N\t2\t2\t0",
    "N\t02\t0",
    "N\t2\t00",
    "N\t25\t00",
    "N\t0\t18446744073709551616",
    "N\t18446744073709551616\t0",
];
const BAD_COUNT: [&str; 8] = [
    "N\t0\t0",
    "N\t0\t1",
    "N\t25\t0",
    "N\t25\t24",
    "N\t25\t25",
    "N\t25\t18446744073709551615",
    "N\t18446744073709551615\t0",
    "N\t18446744073709551615\t18446744073709551615",
];
const BAD_SLICE: [&str; 8] = [
    "N\t2\t2",
    "N\t2\t3",
    "N\t2\t10",
    "N\t2\t256",
    "N\t2\t4294967296",
    "N\t2\t4294967297",
    "N\t2\t9223372036854775808",
    "N\t2\t18446744073709551615",
];

/// Those lines, before a listing, before nothing, and without their newline.
fn first_lines_by_hand(book: &mut Book, lines: &[Vec<u8>]) -> io::Result<()> {
    let rest = [b"\n", &lines[1..].concat()[..]].concat();
    for (firsts, ending) in
        [(&MALFORMED[..], "R 12 0 1"), (&BAD_COUNT[..], "R 1 0 0"), (&BAD_SLICE[..], "R 13 0 0")]
    {
        let aim = format!("N line that watches: {ending}");
        for first in firsts {
            let with = |after: &[u8]| [first.as_bytes(), after].concat();
            book.text(&aim, &with(&rest), ending)?;
            book.text(&aim, &with(b"\n"), ending)?;
            book.text("N line that watches, without its newline", &with(b""), "R 12 0 1")?;
        }
    }
    Ok(())
}

/// Each line after the first, spoiled in some way, with matches of the slices in different clocks.
fn spoiled_lines(book: &mut Book, random: &mut Random, preg: usize) -> io::Result<()> {
    for height in 1..=3 {
        let first: Vec<usize> = (0..height).map(|slice| (slice + height) % 3).collect();
        let matches: Vec<Option<usize>> = first.iter().map(|clock| Some(clock + preg)).collect();
        let attributes = alike(random, height, preg as u64);
        let column = from_clocks(random, attributes, 3, &first);
        let lines = column.lines(alternate);
        for (index, line) in lines.iter().enumerate().skip(1) {
            let mut sorts = sorts(&line[..line.len() - 1]);
            let (_, spoiled) = sorts.swap_remove(random.below(sorts.len() as u64) as usize);
            let text = [lines[..index].concat(), spoiled, lines[index + 1..].concat()].concat();
            let clock = clocks_before(&column, index);
            let whole = format!("R 12 {clock} {}", index + 1);
            let place = |matched: Option<usize>| match index <= height {
                true => "in a setting",
                false => stands(clock, matched),
            };
            let aim = |matched| format!("refusal 12 {}", place(matched));
            book.watched_text(&text, &whole, &watches(aim, &whole, &matches))?;
        }
    }
    Ok(())
}

/// How a refused clock stands to that of a match.
fn stands(refused: usize, matched: Option<usize>) -> &'static str {
    let place = matched.and_then(|clock| (refused + 1).checked_sub(clock));
    place.and_then(|place| STANDS.get(place)).copied().unwrap_or("far from a match")
}

/// The input ends after each line, and before the newline of each.
fn ends(book: &mut Book, column: &Column) -> io::Result<()> {
    let (lines, height) = (column.lines(alternate), column.attributes.len());
    let watches = |aim: &str, whole: &str| watches(|_| aim.into(), whole, &MATCHES);
    for index in 1..=lines.len() {
        let kept = lines[..index].concat();
        let clocks = clocks_before(column, index);
        let refusal = format!("R 12 {clocks} {}", index + 1);
        // Only between clocks may the input end.
        let may_end = index > height && (index - 1) % height == 0;
        let whole = if may_end { format!("E {clocks}") } else { refusal.clone() };
        let aim = if may_end { "watches, ends after a clock" } else { "watches, ends too soon" };
        book.watched_text(&kept, &whole, &watches(aim, &whole))?;
        if let Some(line) = lines.get(index) {
            let cut = [&kept[..], &line[..line.len() - 1]].concat();
            book.watched_text(&cut, &refusal, &watches("watches, newline missing", &refusal))?;
        }
    }
    Ok(())
}

/// Whatever follows the clock of the match must change nothing; the slice without one shows that it
/// is not always so.
fn after_the_match(book: &mut Book, column: &Column) -> io::Result<()> {
    let lines = column.lines(alternate);
    let (head, next) = lines.split_at(1 + 2 + 2 * (MATCH + 1));
    let (clocks, line) = (MATCH + 1, head.len() + 1);
    let malformed = format!("R 12 {clocks} {line}");
    let wide = format!("P{}\t1024\n", "\t0".repeat(10)).repeat(2);
    let tails = [
        ("nothing", vec![], format!("E {clocks}")),
        ("a clock", next.concat(), format!("E {}", clocks + 1)),
        ("a refused clock", wide.into_bytes(), format!("R 5 {clocks} 0")),
        ("half a clock", next[0].clone(), format!("R 12 {clocks} {}", line + 1)),
        ("no newline", next[0][..next[0].len() - 1].to_vec(), malformed.clone()),
        ("an empty line", b"\n".to_vec(), malformed.clone()),
        ("an N line", b"N\t2\t1\n".to_vec(), malformed.clone()),
        ("an A line", lines[1].clone(), malformed.clone()),
        ("NUL", vec![0; 3], malformed.clone()),
        ("bytes over 127", vec![255; 600], malformed.clone()),
        ("513 bytes", [&[b'9'; 513][..], b"\n"].concat(), malformed.clone()),
        ("a line without end", vec![b'9'; 200_000], malformed),
    ];
    for (tail, bytes, whole) in tails {
        let text = [head.concat(), bytes].concat();
        let aim = |_| format!("after a match: {tail}");
        book.watched_text(&text, &whole, &watches(aim, &whole, &MATCHES))?;
    }
    Ok(())
}
