//! The table of the dialects. A dialect is a row of it and a folder beside it. The rest of the
//! program goes over the table, but for the host call, which document 01 gives to S alone.

mod dialect;
mod frs;
mod native;
mod rcnp;
pub(crate) mod s800;

pub use dialect::{marks, Dialect, Mark, Marks, Mend, Rows, Special, Wanted, Words};
pub use native::{
    refused, widened, Answered, Edges, Functions, Native, Probed, OPAQUE_EVENT, OPAQUE_WORDS,
};

/// In the order of documents 01 and 02, which is that of the dialects' numbers.
pub static DIALECTS: [&Dialect; 3] = [&s800::DIALECT, &frs::DIALECT, &rcnp::DIALECT];
