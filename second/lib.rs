//! An independent second reader and writer of the dialects, written from documents 01 and 02 and
//! the source documents, with a generator and a comparison against the project's programs.

pub mod base;
pub mod check;
pub mod compare;
mod cursor;
pub mod dialects;
mod generate;
pub mod host;
pub mod lines;
pub mod page;
pub mod pairs;
pub mod rng;
pub mod stored;
pub mod tally;
pub mod vectors;
