//! The twelve values to hold against.

mod played;

use second::alu::adder;
use second::bits::{pattern, signed};
use second::calls::answer;
use second::packed::read_sums;

const ONES: u64 = (1 << 48) - 1;

/// Plays a listing and gives what it prints, both with blanks for tabs.
fn played(listing: &str) -> String {
    played::played(listing.replace(' ', "\t")).replace('\t', " ")
}

#[test]
fn value_01_sum() {
    assert_eq!(adder(0, 5, 7, 0, 0, 0), 12);
}

#[test]
fn value_02_difference() {
    assert_eq!(adder(0, 1, 0, 0, 0, 3), 281474976710655);
}

#[test]
fn value_03_complemented_z() {
    assert_eq!(adder(0, 0, 0, 0, 0, 1), 281474976710655);
}

#[test]
fn value_04_complemented_z_and_carry() {
    assert_eq!(adder(0, 0, 0, 0, 1, 1), 0);
}

#[test]
fn value_05_four_operands_of_ones() {
    assert_eq!(adder(ONES, ONES, ONES, ONES, 1, 0), 281474976710653);
}

#[test]
fn value_06_mode_12_twice() {
    assert_eq!(adder(0, 12, 0, 10, 0, 12), 8);
    assert_eq!(adder(0, 12, ONES, 10, 0, 12), 14);
}

#[test]
fn value_07_shift_keeps_the_sign() {
    assert_eq!(pattern(signed(1 << 47, 48) >> 17, 48), 281473902968832);
    // The same through a column: slice 0 shows C, slice 1 shifts it.
    let zeros = "A 0 0 0 0 0 0 0 0 0 0 0 0 0 0 0 0 0 0 0 0 0\n";
    let ports = "P 0 0 140737488355328 0 48 0 0 0 0 0 0\nP 0 0 0 0 80 0 0 0 0 0 0\n";
    let printed = played(&format!("N 2\n{zeros}{zeros}{ports}"));
    assert!(printed.contains("\nO 0 1 281473902968832 0 0 0 0 0 0\n"), "{printed}");
}

#[test]
fn value_08_preadder_wraps() {
    // USE_MULT, AMULTSEL and no registers: D + A times 1, shown at once.
    let listing = "N 1\nA 0 0 0 0 0 0 0 0 0 0 0 0 0 0 0 0 1 1 0 0 0\n\
                   P 1 1 0 67108863 5 0 4 0 0 0 0\n";
    let expected = pattern(-67108864, 48);
    assert_eq!(played(listing), format!("O 0 0 {expected} 0 0 0 0 1 0\nE 1\n"));
    assert_eq!(signed(67108863 + 1, 27), -67108864);
    // The AD register takes the pattern; P is still that of its 0, but the mark is there.
    let attributes = "22 0 0 0 0 0 0 0 0 1 0 0 0 0 0 0 0 1 1 0 0 0 0";
    let registers = "19 0 0 0 0 0 0 0 0 0 0 0 0 0 0 0 0 0 0 0";
    let ports = "11 1 1 0 67108863 5 0 4 0 0 64 0";
    let call = format!("clock 1 {attributes} {registers} {ports} 7 9 9 9 9 9 9 9");
    let reply = answer(&call).unwrap();
    assert!(reply.contains(" 19 0 0 0 0 0 0 67108864 0 0 0 0 0 0 0 0 0 0 0 0 "), "{reply}");
    assert!(reply.ends_with(" 7 0 1 0 0 0 1 0"), "{reply}");
}

#[test]
fn value_09_most_negative_product() {
    let listing = "N 1\nA 0 0 0 0 0 0 0 0 0 0 0 0 0 0 0 0 1 0 0 0 0\n\
                   P 67108864 131072 0 0 5 0 0 0 0 0 0\n";
    assert_eq!(played(listing), "O 0 0 8796093022208 0 0 0 0 0 0\nE 1\n");
}

#[test]
fn value_10_patterns() {
    let shown = |c: u64| {
        played(&format!(
            "N 1\nA 0 0 0 0 0 0 0 0 0 0 0 0 0 0 0 0 0 0 0 0 70368744177663\n\
             P 0 0 {c} 0 48 0 0 0 0 0 0\n"
        ))
    };
    assert_eq!(shown(70368744177663), "O 0 0 70368744177663 1 0 0 0 0 0\nE 1\n");
    assert_eq!(shown(70368744177664), "O 0 0 70368744177664 0 0 0 0 0 0\nE 1\n");
    assert_eq!(shown(211106232532992), "O 0 0 211106232532992 0 1 0 0 0 0\nE 1\n");
}

#[test]
fn value_11_one_row() {
    assert_eq!(read_sums(262143), (1, -1));
    let reply = answer("packed 1 1 1 1 1 -1 1 1 2 7 7 5 8 8 8 8 8").unwrap();
    assert_eq!(reply, "5 1 1 1 -1 1 1 2 1 -1 5 0 0 0 0 262143");
    let reply = answer("plain 1 1 1 1 1 -1 1 1 2 7 7").unwrap();
    assert_eq!(reply, "0 1 1 1 -1 1 1 2 1 -1");
}

#[test]
fn value_12_seven_terms() {
    let sevens = "7 -128 -128 -128 -128 -128 -128 -128";
    let arrays = format!("{sevens} {sevens} {sevens}");
    let reply = answer(&format!("packed 7 1 {arrays} 2 0 0 11 0 0 0 0 0 0 0 0 0 0 0")).unwrap();
    assert!(reply.starts_with(&format!("11 {arrays} 2 114688 114688 11 ")), "{reply}");
    let reply = answer(&format!("plain 7 1 {arrays} 2 0 0")).unwrap();
    assert_eq!(reply, format!("0 {arrays} 2 114688 114688"));
}
