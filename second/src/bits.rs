//! Between bit patterns and the signed numbers they stand for.

/// Reads the low `width` bits as a two's complement number.
pub const fn signed(word: u64, width: u32) -> i64 {
    wrap(word as i64, width)
}

/// Brings a number into the two's complement range of `width` bits.
pub const fn wrap(value: i64, width: u32) -> i64 {
    // Up to the top and back: the arithmetic shift copies the sign.
    value << (64 - width) >> (64 - width)
}

/// The bit pattern of a number in `width` bits.
pub const fn pattern(value: i64, width: u32) -> u64 {
    value as u64 & (u64::MAX >> (64 - width))
}

/// A word read as a signed number, or nothing when it is over its width.
pub fn number(word: u64, width: u32) -> Option<i64> {
    (word >> width == 0).then(|| signed(word, width))
}

/// A word read as a small bit field, or nothing when it is over its width.
pub fn field(word: u64, width: u32) -> Option<u16> {
    (word >> width == 0).then_some(word as u16)
}

/// A word read as a flag, or nothing when it is neither 0 nor 1.
pub fn flag(word: u64) -> Option<bool> {
    match word {
        0 => Some(false),
        1 => Some(true),
        _ => None,
    }
}

/// Tells whether one bit of a field is set.
pub const fn bit(field: u16, place: u32) -> bool {
    field >> place & 1 == 1
}
