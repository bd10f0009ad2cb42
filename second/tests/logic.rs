//! The logic modes of the adder call by value, worked out by hand from 01's rows.

use second::alu::adder;

const ONES: u64 = (1 << 48) - 1;

/// Each mode, then what X 12 and Z 10 give with Y 0 and with Y all ones; in bits
/// X is 1100 and Z is 1010, so each pair of bits is there, and 0 and 0 above.
const ROWS: [(u64, [u64; 2]); 8] = [
    (4, [6, 281474976710649]),
    (5, [281474976710649, 6]),
    (6, [281474976710649, 6]),
    (7, [6, 281474976710649]),
    (12, [8, 14]),
    (13, [4, 281474976710653]),
    (14, [281474976710647, 281474976710641]),
    (15, [281474976710651, 2]),
];

#[test]
fn each_logic_mode_with_both_ys() {
    for (alumode, [zero, ones]) in ROWS {
        for cin in [0, 1] {
            assert_eq!(adder(0, 12, 0, 10, cin, alumode), zero, "mode {alumode}, Y 0");
            assert_eq!(adder(0, 12, ONES, 10, cin, alumode), ones, "mode {alumode}, Y all ones");
        }
    }
}
