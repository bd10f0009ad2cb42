//! Why a call was refused, and how the border says so in one word.

/// The reasons, by their numbers.
#[derive(Clone, Copy, Debug, PartialEq, Eq)]
pub enum Reason {
    Count = 1,
    Length = 2,
    Attribute = 3,
    Register = 4,
    Port = 5,
    InMode = 6,
    OpMode = 7,
    AluMode = 8,
    CarryInSel = 9,
    Terms = 10,
    Rows = 11,
    Line = 12,
    Slice = 13,
    LowSum = 14,
}

/// A reason and the place it was met: a slice, a line for `Line`, or a row for `LowSum`.
#[derive(Clone, Copy, Debug, PartialEq, Eq)]
pub struct Refusal {
    pub reason: Reason,
    pub place: u64,
}

impl Refusal {
    /// For the reasons that belong to no place.
    pub const fn whole(reason: Reason) -> Self {
        Refusal { reason, place: 0 }
    }

    pub const fn at(reason: Reason, place: u64) -> Self {
        Refusal { reason, place }
    }

    pub const fn number(self) -> u64 {
        self.reason as u64
    }
}

/// Every returned word below this is an answer, every other a refusal.
pub const REFUSED: u64 = 1 << 48;

/// The border's one rule for returned words.
pub fn returned(outcome: Result<u64, Refusal>) -> u64 {
    match outcome {
        Ok(word) => word,
        Err(refusal) => REFUSED + 256 * refusal.place + refusal.number(),
    }
}

/// Reads one thing per slice, and names the lowest slice where that fails.
pub fn each_slice<T>(
    things: impl Iterator<Item = Option<T>>,
    reason: Reason,
) -> Result<Vec<T>, Refusal> {
    things
        .enumerate()
        .map(|(place, thing)| thing.ok_or(Refusal::at(reason, place as u64)))
        .collect()
}
