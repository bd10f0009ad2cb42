//! Sweeps: text that is no listing, in every place and of every sort.

use std::io;
use std::ops::RangeInclusive;

use crate::book::Book;
use crate::draw::Growing;
use crate::random::Random;
use crate::sweep_lanes::{alternate, alternating, with_numbers};
use crate::words::*;

pub fn write(book: &mut Book, random: &mut Random) -> io::Result<()> {
    for height in 1..=3 {
        let column = alternating(random, height);
        spoiled_lines(book, &column)?;
        missing_lines(book, &column)?;
    }
    short_columns(book, random)?;
    numbers_in_every_field(book)?;
    every_byte(book)?;
    first_come(book)?;
    first_come_in_lanes(book)
}

/// The clocks that have run when the line of this index is read.
pub fn clocks_before(column: &Column, index: usize) -> usize {
    let height = column.attributes.len();
    index.saturating_sub(1 + height) / height
}

/// How a line is spoiled: what sort it is, and what it becomes.
pub type Spoiled = (&'static str, Vec<u8>);

/// All sorts of spoiled lines; `line` comes without its newline.
pub fn sorts(line: &[u8]) -> Vec<Spoiled> {
    let text = String::from_utf8_lossy(line).into_owned();
    let with = |changed: String| (changed + "\n").into_bytes();
    let last = text.rfind('\t').unwrap();
    let (head, number) = (&text[..last], &text[last + 1..]);
    let mut sorts = vec![
        ("empty line", with(String::new())),
        ("blank line", with(" ".into())),
        ("tab alone", with("\t".into())),
        ("tag alone", with(text[..1].into())),
        ("leading tab", with(format!("\t{text}"))),
        ("trailing tab", with(format!("{text}\t"))),
        ("double tab", with(text.replacen('\t', "\t\t", 1))),
        ("no tab after the tag", with(text.replacen('\t', "", 1))),
        ("blank for a tab", with(format!("{head} {number}"))),
        ("blank after the tag", with(text.replacen('\t', " ", 1))),
        ("leading blank", with(format!(" {text}"))),
        ("trailing blank", with(format!("{text} "))),
        ("blank before a number", with(format!("{head}\t {number}"))),
        ("CR at the end", with(format!("{text}\r"))),
        ("CR for the newline", format!("{text}\r").into_bytes()),
        ("vertical tab", with(text.replacen('\t', "\u{b}", 1))),
        ("form feed at the end", with(format!("{text}\u{c}"))),
        ("NUL at the end", with(format!("{text}\0"))),
        ("NUL at the start", with(format!("\0{text}"))),
        ("NUL in a number", with(format!("{text}\x001"))),
        ("byte-order mark", with(format!("\u{feff}{text}"))),
        ("byte over 127", [b"\xff", line, b"\n"].concat()),
        ("comment", with(format!("{text}#"))),
    ];
    sorts.extend(number_sorts(head, number).into_iter().map(|(sort, line)| (sort, with(line))));
    sorts.extend(tag_sorts(&text).into_iter().map(|(sort, line)| (sort, with(line))));
    sorts.extend(count_sorts(line));
    sorts.extend(length_sorts(line));
    sorts
}

fn number_sorts(head: &str, number: &str) -> Vec<(&'static str, String)> {
    let put = |number: &str| format!("{head}\t{number}");
    vec![
        ("empty number", put("")),
        ("leading zero", put(&format!("0{number}"))),
        ("two zeros", put("00")),
        ("plus sign", put(&format!("+{number}"))),
        ("minus sign", put(&format!("-{number}"))),
        ("minus zero", put("-0")),
        ("hexadecimal", put("0x1")),
        ("bare hexadecimal digit", put("a")),
        ("decimal point", put("1.0")),
        ("exponent", put("1e0")),
        ("underscore", put("1_0")),
        ("comma", put("1,0")),
        ("digit of another script", put("\u{661}")),
        ("full-width digit", put("\u{ff11}")),
        ("letter in a number", put(&format!("{number}x"))),
        ("byte before 0", put("/")),
        ("byte after 9", put(":")),
        ("2^64", put("18446744073709551616")),
        ("2^64+1", put("18446744073709551617")),
        ("19 nines and a 9", put("99999999999999999999")),
        ("21 digits", put("100000000000000000000")),
        ("2^64 times ten", put("184467440737095516160")),
        ("2^128", put("340282366920938463463374607431768211456")),
        ("leading zero before 2^64-1", put("018446744073709551615")),
    ]
}

/// Fewer numbers than a line may have, and more; `N` and `A` lines have two counts.
fn count_sorts(line: &[u8]) -> Vec<Spoiled> {
    let (fewest, most) = match line[0] {
        b'N' => (1, 2),
        b'A' => (SHORT_A_LINE, SHORT_A_LINE + 1),
        _ => (11, 11),
    };
    vec![
        ("a number too few", with_numbers(line, fewest - 1)),
        ("a number too many", with_numbers(line, most + 1)),
        ("many numbers too many", with_numbers(line, most + 30)),
    ]
}

fn tag_sorts(text: &str) -> Vec<(&'static str, String)> {
    let rest = &text[1..];
    let mut sorts = vec![
        ("no tag", rest.to_string()),
        ("small tag", text[..1].to_lowercase() + rest),
        ("double tag", text[..1].to_string() + text),
        ("unknown tag", format!("X{rest}")),
        ("tag O", format!("O{rest}")),
        ("tag E", format!("E{rest}")),
        ("tag R", format!("R{rest}")),
        ("number for a tag", format!("1{rest}")),
    ];
    // A well-formed line of another kind than is due, and the same numbers
    // under another tag.
    for (tag, count, kind, renamed) in [
        ("N", 1, "N line instead", "tag N instead"),
        ("A", 22, "A line instead", "tag A instead"),
        ("P", 11, "P line instead", "tag P instead"),
    ] {
        if !text.starts_with(tag) {
            sorts.push((kind, tag.to_string() + &"\t1".repeat(count)));
            sorts.push((renamed, tag.to_string() + rest));
        }
    }
    if !text.starts_with('A') {
        sorts.push(("short A line instead", "A".to_string() + &"\t1".repeat(SHORT_A_LINE)));
    }
    sorts
}

/// Lines at and over the limit of 512 bytes, ended and not.
fn length_sorts(line: &[u8]) -> Vec<Spoiled> {
    let fill = |bytes: usize, end: &str| {
        let mut long = line.to_vec();
        long.resize(bytes, b'0');
        [&long, end.as_bytes()].concat()
    };
    vec![
        ("511 bytes", fill(511, "\n")),
        ("512 bytes", fill(512, "\n")),
        ("513 bytes", fill(513, "\n")),
        ("514 bytes", fill(514, "\n")),
        ("513 bytes and no newline", fill(513, "")),
        ("5,000 bytes", fill(5000, "\n")),
        ("70,000 bytes", fill(70000, "\n")),
    ]
}

/// Each line of a listing spoiled in each way, the rest kept as it is.
fn spoiled_lines(book: &mut Book, column: &Column) -> io::Result<()> {
    let lines = column.lines(alternate);
    for (index, line) in lines.iter().enumerate() {
        let ending = format!("R 12 {} {}", clocks_before(column, index), index + 1);
        for (sort, spoiled) in sorts(&line[..line.len() - 1]) {
            let tag = char::from(line[0]);
            let text = [lines[..index].concat(), spoiled, lines[index + 1..].concat()].concat();
            book.text(&format!("{tag} line, {sort}"), &text, &ending)?;
        }
    }
    Ok(())
}

/// The input ends after each line, and within each line.
fn missing_lines(book: &mut Book, column: &Column) -> io::Result<()> {
    let (lines, height) = (column.lines(alternate), column.attributes.len());
    for index in 0..=lines.len() {
        let kept = lines[..index].concat();
        let clocks = clocks_before(column, index);
        // Only between clocks may the input end.
        let whole = index > height && (index - 1) % height == 0;
        if whole {
            book.text("ends after a clock", &kept, &format!("E {clocks}"))?;
        } else {
            book.text("ends before it may", &kept, &format!("R 12 {clocks} {}", index + 1))?;
        }
        if let Some(line) = lines.get(index) {
            let ending = format!("R 12 {clocks} {}", index + 1);
            let cut = [&kept[..], &line[..line.len() - 1]].concat();
            book.text("newline missing", &cut, &ending)?;
            book.text("tag and no more", &[&kept[..], &line[..1]].concat(), &ending)?;
            // Without this line the next ones are one short.
            let without = [&kept[..], &lines[index + 1..].concat()].concat();
            book.text("line left out", &without, "")?;
            let twice = [&kept[..], line, line, &lines[index + 1..].concat()].concat();
            book.text("line given twice", &twice, "")?;
        }
    }
    Ok(())
}

/// The last clock of a column of each height, short by each number of lines.
fn short_columns(book: &mut Book, random: &mut Random) -> io::Result<()> {
    for height in 1..=24u64 {
        let mut growing = Growing::random(random, height);
        growing.grow(random, 2);
        let lines = growing.column.lines(|_| random.percent(50));
        for missing in 1..height as usize {
            let kept = lines.len() - missing;
            let text = lines[..kept].concat();
            book.text("short last clock", &text, &format!("R 12 1 {}", kept + 1))?;
        }
        let settings = random.below(height) as usize;
        let text = lines[..1 + settings].concat();
        book.text("A lines missing", &text, &format!("R 12 0 {}", settings + 2))?;
        // A line too many begins a clock that is not finished.
        let text = [lines.concat(), lines[lines.len() - 1].clone()].concat();
        let ending =
            if height == 1 { String::new() } else { format!("R 12 2 {}", lines.len() + 2) };
        book.text("a P line too many", &text, &ending)?;
    }
    Ok(())
}

/// Every field of every kind of line: the largest number, and one above it.
fn numbers_in_every_field(book: &mut Book) -> io::Result<()> {
    let zeros = Column { attributes: vec![[0; 22]], clocks: vec![vec![[0; 11]]] };
    let [long, short] = [false, true].map(|short| zeros.lines(|_| short));
    for (lines, index, largest) in [
        (&long, 0, "R 1 0 0"),
        (&long, 1, "R 3 0 0"),
        (&short, 1, "R 3 0 0"),
        (&long, 2, "R 5 0 0"),
    ] {
        let fields = lines[index].iter().filter(|byte| **byte == b'\t').count();
        for field in 1..=fields {
            let put = |number: &str| {
                let line = String::from_utf8(lines[index].clone()).unwrap();
                let mut parts: Vec<&str> = line.trim_end().split('\t').collect();
                parts[field] = number;
                let line = (parts.join("\t") + "\n").into_bytes();
                [lines[..index].concat(), line, lines[index + 1..].concat()].concat()
            };
            let malformed = format!("R 12 0 {}", index + 1);
            book.text("largest number in each field", &put("18446744073709551615"), largest)?;
            for number in ["18446744073709551616", "01", "", " ", "1 ", "+0", "-1"] {
                book.text("malformed number in each field", &put(number), &malformed)?;
            }
        }
    }
    Ok(())
}

/// A small listing cut at each byte, and with each byte changed, lost, added.
fn every_byte(book: &mut Book) -> io::Result<()> {
    let mut at = [0; 22];
    at[at::MASK] = 10;
    let clock = vec![[0, 5, 7, 0, 15, 0, 0, 0, 1, 0, 10]];
    let short = Column { attributes: vec![at], clocks: vec![clock.clone()] }.lines(|_| true);
    at[at::USE_SIMD] = 1;
    let long = Column { attributes: vec![at], clocks: vec![clock.clone(), clock] }.lines(|_| false);
    bytes_of(book, &long.concat(), 0..=long.concat().len())?;
    // Of the short A line only the end, where a number more might follow.
    let end = short[..2].concat().len();
    bytes_of(book, &short.concat(), end - 6..=end)
}

/// The same at some places of a text.
pub fn bytes_of(book: &mut Book, text: &[u8], places: RangeInclusive<usize>) -> io::Result<()> {
    for place in places {
        book.text("cut at each byte", &text[..place], "")?;
        let (head, tail) = text.split_at(place);
        for byte in *b"\0\t\n\r 019+-ANP\xff" {
            book.text("byte added at each place", &[head, &[byte], tail].concat(), "")?;
            if let Some((_, rest)) = tail.split_first() {
                book.text("byte changed at each place", &[head, &[byte], rest].concat(), "")?;
            }
        }
        if let Some((_, rest)) = tail.split_first() {
            book.text("byte lost at each place", &[head, rest].concat(), "")?;
        }
    }
    Ok(())
}

/// Which of two faults is met first, when one of them is in the text.
fn first_come(book: &mut Book) -> io::Result<()> {
    let a = "A\t0\t0\t0\t0\t0\t0\t0\t0\t0\t0\t0\t0\t0\t0\t0\t0\t0\t0\t0\t0\t0\n";
    let p = "P\t0\t5\t7\t0\t15\t0\t0\t0\t0\t0\t0\n";
    let (wrong_a, wide_p) = (a.replacen('0', "3", 1), p.replacen('0', "1073741824", 1));
    let bad_opmode = p.replace("\t15\t", "\t64\t");
    let cases = [
        ("N\t0\n\n\n".into(), "R 1 0 0"),
        (format!("N\t25\n{a}{p}"), "R 1 0 0"),
        (format!("N\t025\n{a}{p}"), "R 12 0 1"),
        (format!("N\t2\n{wrong_a}A\n"), "R 12 0 3"),
        (format!("N\t2\n{wrong_a}{p}"), "R 12 0 3"),
        (format!("N\t2\n{wrong_a}"), "R 12 0 3"),
        (format!("N\t2\n{a}{wrong_a}"), "R 3 0 1"),
        (format!("N\t2\n{wrong_a}{wrong_a}\0"), "R 3 0 0"),
        (format!("N\t1\n{wrong_a}"), "R 3 0 0"),
        (format!("N\t1\n{wrong_a}{}", "9".repeat(600)), "R 3 0 0"),
        (format!("N\t2\n{a}{a}{wide_p}P\n"), "R 12 0 5"),
        (format!("N\t2\n{a}{a}{wide_p}"), "R 12 0 5"),
        (format!("N\t2\n{a}{a}{wide_p}{a}"), "R 12 0 5"),
        (format!("N\t2\n{a}{a}{wide_p}{p}P\n"), "R 5 0 0"),
        (format!("N\t2\n{a}{a}{p}{wide_p}"), "R 5 0 1"),
        (format!("N\t2\n{a}{a}{bad_opmode}{wide_p}"), "R 5 0 1"),
        (format!("N\t2\n{a}{a}{bad_opmode}P"), "R 12 0 5"),
        (format!("N\t2\n{a}{a}{bad_opmode}{bad_opmode}P"), "R 7 0 0"),
        (format!("N\t2\n{a}{a}{p}{p}{p}{bad_opmode}P"), "R 7 1 1"),
        (format!("N\t1\n{a}{p}{p}{p}x"), "R 12 3 6"),
        (format!("N\t1\n{a}{p}{p}{p}\n"), "R 12 3 6"),
        (format!("N\t1\n{a}{p}N\t1\n{a}{p}"), "R 12 1 4"),
        (format!("N\t1\n{a}"), "E 0"),
        (format!("N\t1\n{a}{p}"), "E 1"),
        (format!("\nN\t1\n{a}{p}"), "R 12 0 1"),
        (String::new(), "R 12 0 1"),
    ];
    for (text, ending) in cases {
        book.text("first come", text.as_bytes(), ending)?;
    }
    Ok(())
}

/// The same where one of the faults is USE_SIMD.
fn first_come_in_lanes(book: &mut Book) -> io::Result<()> {
    let zeros = |count: usize| "\t0".repeat(count);
    let a = format!("A{}\n", zeros(21));
    let (no_setting, too_many) = (a.replace('\n', "\t3\n"), a.replace('\n', "\t0\t0\n"));
    // USE_MULT is the 17th number.
    let multiplies = format!("A{}\t1{}\t2\n", zeros(16), zeros(4));
    let cases = [
        (format!("N\t2\n{no_setting}A\n"), "R 12 0 3"),
        (format!("N\t2\n{multiplies}{too_many}"), "R 12 0 3"),
        (format!("N\t2\n{a}{no_setting}P\n"), "R 3 0 1"),
        (format!("N\t2\n{multiplies}{no_setting}"), "R 3 0 0"),
        (format!("N\t3\n{a}{a}{multiplies}"), "R 3 0 2"),
    ];
    for (text, ending) in cases {
        book.text("first come, lanes", text.as_bytes(), ending)?;
    }
    Ok(())
}
