//! The split adder (02, Ask 1) by value: what each lane gives, worked out by hand.

mod one_slice;

use one_slice::clocked;

const ONES: u64 = (1 << 48) - 1;
const ONE48: u64 = 0;
const TWO24: u64 = 1;
const FOUR12: u64 = 2;

/// A slice with P's register whose operands are W the RND word, X the word
/// A:B, Y the port C and Z the register P.
struct Slice {
    attributes: [u64; 22],
    registers: [u64; 19],
    ports: [u64; 11],
}

fn slice(lanes: u64, alumode: u64, [w, x, y, z]: [u64; 4], carryin: u64) -> Slice {
    let mut words = Slice { attributes: [0; 22], registers: [0; 19], ports: [0; 11] };
    (words.attributes[10], words.attributes[18], words.attributes[21]) = (1, w, lanes);
    words.registers[8] = z;
    // W 2, Z 2, Y 3, X 3, and the enable of P.
    words.ports = [x >> 18, x & 0x3FFFF, y, 0, 303, alumode, 0, 0, carryin, 256, 0];
    words
}

impl Slice {
    /// The registers after one accepted clock.
    fn clocked(&self) -> [u64; 19] {
        clocked(&self.attributes, &self.registers, &self.ports).0
    }

    fn result(&self) -> u64 {
        self.clocked()[8]
    }
}

/// The result in one lane, in two and in four.
fn results(alumode: u64, wxyz: [u64; 4], carryin: u64) -> [u64; 3] {
    [ONE48, TWO24, FOUR12].map(|lanes| slice(lanes, alumode, wxyz, carryin).result())
}

#[test]
fn a_sum_wraps_in_its_lane() {
    assert_eq!(results(0, [0, ONES, 1, 0], 0), [0, 0xFFFFFF_000000, 0xFFF_FFF_FFF_000]);
    assert_eq!(results(0, [0, ONES, 1, 0], 1), [1, 0xFFFFFF_000001, 0xFFF_FFF_FFF_001]);
    // Each lane's highest bit twice, so the carry out of each is lost.
    assert_eq!(results(0, [0, 1 << 11, 1 << 11, 0], 0), [1 << 12, 1 << 12, 0]);
    assert_eq!(results(0, [0, 1 << 23, 0, 1 << 23], 0), [1 << 24, 0, 0]);
    assert_eq!(results(0, [1 << 35, 0, 1 << 35, 0], 0), [1 << 36, 1 << 36, 0]);
    assert_eq!(results(0, [1 << 47, 1 << 47, 0, 0], 0), [0, 0, 0]);
}

#[test]
fn four_operands_of_ones() {
    // Four times minus one in each lane, and the carry in the lowest.
    let sums = [0xFFFFFFFFFFFD, 0xFFFFFC_FFFFFD, 0xFFC_FFC_FFC_FFD];
    assert_eq!(results(0, [ONES; 4], 1), sums);
    // Mode 1 drops Z's ones, mode 2 is the complement of the sum.
    assert_eq!(results(1, [ONES; 4], 1), [0xFFFFFFFFFFFE, 0xFFFFFD_FFFFFE, 0xFFD_FFD_FFD_FFE]);
    assert_eq!(results(2, [ONES; 4], 1), [2, 0x000003_000002, 0x003_003_003_002]);
    // Mode 3: minus one less minus three, less the carry.
    assert_eq!(results(3, [ONES; 4], 1), [1, 0x000002_000001, 0x002_002_002_001]);
}

#[test]
fn mode_1_complements_z_in_its_lane() {
    // Low lane: 2^24 - 1 - 0 + 1; high lane: 2^24 - 1 - 1 + 2. Both wrap to 0.
    let wxyz = [0, 0x000002_000001, 0, 0x000001_000000];
    assert_eq!(results(1, wxyz, 0)[..2], [0x000001_000000, 0]);
    // All ones and 4, 3, 2, 1 from the lowest lane up; the carry is the lowest's.
    assert_eq!(results(1, [0, 0x001_002_003_004, 0, 0], 0)[2], 0x000_001_002_003);
    assert_eq!(results(1, [0, 0x001_002_003_004, 0, 0], 1)[2], 0x000_001_002_004);
    assert_eq!(results(1, [0; 4], 0), [ONES; 3]);
    assert_eq!(results(1, [0; 4], 1), [0, 0xFFFFFF_000000, 0xFFF_FFF_FFF_000]);
}

#[test]
fn mode_2_complements_the_sum_of_its_lane() {
    // Sums from the lowest lane: 1 + 2 + 1, then 0 twice out of a wrap, then 0.
    let wxyz = [0, 0x000_800_FFF_001, 0x000_800_001_002, 0];
    assert_eq!(results(2, wxyz, 1)[2], 0xFFF_FFF_FFF_FFB);
    // In one lane both carries move up: 0x001_001_000_004.
    assert_eq!(results(2, wxyz, 1)[0], 0xFFE_FFE_FFF_FFB);
    // Two lanes: 2^24 - 1 + 1 wraps to 0 below, and above the sum stays 1.
    assert_eq!(results(2, [0, 0x000001_FFFFFF, 1, 0], 0)[1], 0xFFFFFE_FFFFFF);
    assert_eq!(results(2, [0; 4], 1), [ONES - 1; 3]);
}

#[test]
fn mode_3_borrows_from_no_other_lane() {
    assert_eq!(results(3, [0, 1, 0, 0], 0), [ONES, 0xFFFFFF, 0xFFF]);
    assert_eq!(results(3, [0, 1, 0, 0], 1), [ONES - 1, 0xFFFFFE, 0xFFE]);
    // 3 - 1 - 1, 2 - 1, 1 - 1 and 0 - 1 from the lowest lane.
    let wxyz = [0, 0x001_001_001_001, 0, 0x000_001_002_003];
    assert_eq!(results(3, wxyz, 1)[2], 0xFFF_000_001_001);
    assert_eq!(results(3, [0, 0x000000_000001, 0, 0x000001_000000], 0)[1], 0x000001_FFFFFF);
}

#[test]
fn logic_sees_48_bits() {
    for lanes in [TWO24, FOUR12] {
        let result = |alumode: u64, ones: bool| {
            let mut words = slice(lanes, alumode, [0, 12, 0, 0x800_001_00A], 1);
            // X A:B and Z P, with Y 0 or all ones.
            words.ports[4] = if ones { 43 } else { 35 };
            words.result()
        };
        assert_eq!([result(4, false), result(4, true)], [0x800_001_006, ONES - 0x800_001_006]);
        assert_eq!([result(12, false), result(12, true)], [8, 0x800_001_00E]);
        assert_eq!([result(14, false), result(14, true)], [ONES - 8, ONES - 0x800_001_00E]);
    }
}

#[test]
fn shift_and_signs_see_48_bits() {
    for lanes in [TWO24, FOUR12] {
        // Z is P shifted: over the lanes' borders, and filled with bit 47.
        let shifted = |p: u64| {
            let mut words = slice(lanes, 0, [0, 0, 0, p], 0);
            words.ports[4] = 96;
            words.result()
        };
        assert_eq!(shifted(1 << 47), 0xFFFFC0000000);
        assert_eq!(shifted(1 << 24), 1 << 7);
        assert_eq!(shifted(1 << 46), 1 << 29);
        // CARRYINSEL 5 and 7: bit 47 and no lane's top bit, into the lowest lane.
        let carried = |p: u64, select: u64| {
            let mut words = slice(lanes, 0, [0, 0, 0, p], 0);
            (words.ports[4], words.ports[7]) = (0, select);
            words.result()
        };
        assert_eq!([carried(1 << 47, 5), carried(1 << 47, 7)], [0, 1]);
        for top in [11, 23, 35] {
            assert_eq!([carried(1 << top, 5), carried(1 << top, 7)], [1, 0]);
        }
    }
}

#[test]
fn detector_sees_48_bits() {
    for (lanes, result) in [(TWO24, 0xFFFFFF_000000), (FOUR12, 0xFFF_FFF_FFF_000)] {
        let marks = |pattern: u64, mask: u64| {
            let mut words = slice(lanes, 0, [0, ONES, 1, 0], 0);
            (words.attributes[19], words.attributes[20]) = (pattern, mask);
            words.clocked()[14..16].to_vec()
        };
        assert_eq!(marks(result, 0), [1, 0]);
        assert_eq!(marks(ONES - result, 0), [0, 1]);
        // One lane that agrees is not enough, but the rest may be masked out.
        assert_eq!(marks(0, 0), [0, 0]);
        assert_eq!(marks(0, ONES - 0xFFF), [1, 0]);
    }
}
