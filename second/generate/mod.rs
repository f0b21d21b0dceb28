//! What goes into the programs: random cases and their damage, systematic changes of words and
//! rows, inputs at the limits of the listing, pairs of events, sequences of calls of a page.

pub mod cases;
pub mod damage_line;
pub mod damage_rows;
pub mod limits;
pub mod line_edges;
pub mod page_calls;
pub mod page_edges;
mod page_events;
pub mod page_inputs;
mod page_pages;
pub mod page_shape;
pub mod pair_calls;
pub mod pair_inputs;
pub mod pairs;
pub mod probes;
