//! A second column of DSP48E2 slices, written from the rules alone.
//!
//! Words become signed numbers, flags and enums at the border; inside there
//! are no bit patterns, and what an enum cannot say was refused on the way in.

pub mod alu;
pub mod attributes;
pub mod bits;
pub mod calls;
pub mod column;
pub mod control;
pub mod lines;
pub mod listing;
pub mod packed;
pub mod ports;
pub mod preadder;
pub mod refusal;
pub mod registers;
pub mod selection;
pub mod slice;
pub mod why;
