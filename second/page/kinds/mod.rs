//! The kinds of calls and of inputs that a long run must have met, each by what is so of it and not by
//! how it was made.

pub mod calls;
pub mod inputs;
pub mod own;

/// A kind's name, and whether something is of it.
pub type Kind<T> = (&'static str, fn(&T) -> bool);
