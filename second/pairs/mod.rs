//! Two events side by side (02, #104): the comparison, the print of compare_events, the calls of
//! the library, and the kinds of all these that a long run must have met.

pub mod call;
mod comparison;
pub mod counts;
mod kinds;
pub mod print;

pub use comparison::{tail, Pair};
