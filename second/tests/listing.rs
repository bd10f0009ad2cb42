//! Listings byte for byte: the worked example and the edges of the text.

mod played;

use played::{played, played_unread};

const N1: &str = "N\t1\n";
const A0: &str = "A\t0\t0\t0\t0\t0\t0\t0\t0\t0\t0\t0\t0\t0\t0\t0\t0\t0\t0\t0\t0\t0\n";
const P12: &str = "P\t0\t5\t7\t0\t15\t0\t0\t0\t0\t0\t0\n";

#[test]
fn the_worked_example() {
    assert_eq!(played(format!("{N1}{A0}{P12}")), "O\t0\t0\t12\t0\t0\t0\t0\t0\t0\nE\t1\n");
}

#[test]
fn no_clocks_at_all() {
    assert_eq!(played(format!("{N1}{A0}")), "E\t0\n");
    assert_eq!(played(format!("{N1}{}", A0.replace("A\t0", "A\t3"))), "R\t3\t0\t0\n");
}

#[test]
fn missing_lines() {
    assert_eq!(played(""), "R\t12\t0\t1\n");
    assert_eq!(played(N1), "R\t12\t0\t2\n");
    assert_eq!(played(format!("N\t2\n{A0}")), "R\t12\t0\t3\n");
    assert_eq!(played(format!("N\t2\n{A0}{A0}{P12}")), "R\t12\t0\t5\n");
}

#[test]
fn missing_newlines() {
    assert_eq!(played("N\t25"), "R\t12\t0\t1\n");
    assert_eq!(played("N\t25\n"), "R\t1\t0\t0\n");
    assert_eq!(played(format!("{N1}{}", A0.trim_end())), "R\t12\t0\t2\n");
    let shown = "O\t0\t0\t12\t0\t0\t0\t0\t0\t0\n";
    assert_eq!(played(format!("{N1}{A0}{P12}P")), format!("{shown}R\t12\t1\t4\n"));
}

#[test]
fn line_length() {
    let long = |bytes: usize| format!("{N1}{A0}{}", "0".repeat(bytes));
    for bytes in [1, 511, 512, 513, 514, 9999] {
        assert_eq!(played(long(bytes)), "R\t12\t0\t3\n");
        assert_eq!(played(long(bytes) + "\n"), "R\t12\t0\t3\n");
    }
}

#[test]
fn refusals_come_as_soon_as_they_can() {
    assert_eq!(played_unread([b'x'; 513]), "R\t12\t0\t1\n");
    assert_eq!(played_unread("N\t25\n"), "R\t1\t0\t0\n");
    assert_eq!(played_unread("N\t01\n"), "R\t12\t0\t1\n");
}

#[test]
fn a_failed_read_prints_no_end() {
    struct Failing<'a>(&'a [u8]);
    impl std::io::Read for Failing<'_> {
        fn read(&mut self, buffer: &mut [u8]) -> std::io::Result<usize> {
            match self.0.read(buffer)? {
                0 => Err(std::io::ErrorKind::Other.into()),
                count => Ok(count),
            }
        }
    }
    let listing = format!("{N1}{A0}{P12}");
    let mut printed = Vec::new();
    let input = std::io::BufReader::new(Failing(listing.as_bytes()));
    assert!(second::listing::play(input, &mut printed).is_err());
    assert_eq!(printed, b"O\t0\t0\t12\t0\t0\t0\t0\t0\t0\n");
}

#[test]
fn numbers_as_text() {
    for bad in [
        "",
        "+1",
        "-1",
        "01",
        "00",
        " 1",
        "1 ",
        "1\r",
        "1\0",
        "1\t",
        "\t1",
        "0x1",
        "1.0",
        "1e0",
        "18446744073709551616",
        "99999999999999999999",
        "184467440737095516150",
        "\u{661}",
    ] {
        assert_eq!(played(format!("N\t{bad}\n")), "R\t12\t0\t1\n", "{bad:?}");
    }
    assert_eq!(played("N\t18446744073709551615\n"), "R\t1\t0\t0\n");
}

#[test]
fn tags_as_text() {
    for bad in
        ["", "\n", "n\t1\n", "NN\t1\n", "N1\n", "N\n", "N\t1\t0\t0\n", "\t1\n", "\u{feff}N\t1\n"]
    {
        assert_eq!(played(bad), "R\t12\t0\t1\n", "{bad:?}");
    }
    assert_eq!(played(format!("{N1}{P12}")), "R\t12\t0\t2\n");
    assert_eq!(played(format!("{N1}{A0}{A0}")), "R\t12\t0\t3\n");
    assert_eq!(played(format!("{N1}{A0}\n")), "R\t12\t0\t3\n");
    assert_eq!(played([N1.as_bytes(), b"\xff\n"].concat()), "R\t12\t0\t2\n");
}

/// An `A` line of zeros but for USE_MULT, with this many numbers.
fn settings(multiplies: u64, numbers: usize) -> String {
    let words = (0..numbers).map(|word| if word == 16 { multiplies } else { 0 });
    let words: Vec<String> = words.map(|word| format!("\t{word}")).collect();
    format!("A{}\n", words.concat())
}

#[test]
fn lengths_of_a_line() {
    let shown = "O\t0\t0\t12\t0\t0\t0\t0\t0\t0\n";
    for numbers in [21, 22] {
        let listing = format!("{N1}{}{P12}", settings(0, numbers));
        assert_eq!(played(listing), format!("{shown}E\t1\n"), "{numbers}");
    }
    for numbers in [0, 1, 11, 20, 23, 24, 44, 200] {
        let listing = format!("{N1}{}{P12}", settings(0, numbers));
        assert_eq!(played(listing), "R\t12\t0\t2\n", "{numbers}");
    }
    for end in ["\t\n", "\t0\t\n", "\t01\n", "\tx\n", "\t18446744073709551616\n", " 0\n"] {
        let listing = format!("{N1}{}{end}{P12}", A0.trim_end());
        assert_eq!(played(listing), "R\t12\t0\t2\n", "{end:?}");
    }
}

#[test]
fn both_lengths_in_one_listing() {
    // All ones and 1: two lanes keep the high ones, four the upper three, one none.
    let sum = "P\t1073741823\t262143\t1\t0\t15\t0\t0\t0\t0\t0\t0\n";
    let (one, two, four) = (A0, A0.replace('\n', "\t1\n"), A0.replace('\n', "\t2\n"));
    // One lane has P 0, which is the pattern as it stands.
    let shown = [
        "O\t0\t0\t0\t1\t0\t0\t0\t0\t0\n",
        "O\t0\t1\t281474959933440\t0\t0\t0\t0\t0\t0\n",
        "O\t0\t2\t281474976706560\t0\t0\t0\t0\t0\t0\n",
        "O\t0\t3\t0\t1\t0\t0\t0\t0\t0\nE\t1\n",
    ];
    let clock = sum.repeat(4);
    assert_eq!(played(format!("N\t4\n{one}{two}{four}{one}{clock}")), shown.concat());
    // A wrong count is found at its line, before what the others mean.
    let three = A0.replace('\n', "\t3\n");
    assert_eq!(played(format!("N\t3\n{three}{one}{}", settings(0, 23))), "R\t12\t0\t4\n");
    assert_eq!(played(format!("N\t3\n{one}{three}{two}{sum}")), "R\t3\t0\t1\n");
    let wrong = settings(1, 21).replace('\n', "\t2\n");
    assert_eq!(played(format!("N\t3\n{two}{}{wrong}", settings(1, 21))), "R\t3\t0\t2\n");
}

#[test]
fn meaning_waits_for_the_group() {
    let wrong = A0.replace("A\t0", "A\t3");
    assert_eq!(played(format!("N\t2\n{wrong}A\n")), "R\t12\t0\t3\n");
    assert_eq!(played(format!("N\t2\n{wrong}{A0}P\n")), "R\t3\t0\t0\n");
    let wide = P12.replace("P\t0", "P\t18446744073709551615");
    assert_eq!(played(format!("N\t2\n{A0}{A0}{wide}P\n")), "R\t12\t0\t5\n");
    assert_eq!(played(format!("N\t2\n{A0}{A0}{wide}{P12}P\n")), "R\t5\t0\t0\n");
}
