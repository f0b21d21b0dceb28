//! The page of recent events (02, #107): the page, the calls of the library, the print of show_page,
//! and the kinds of calls and inputs that a long run must have met.

pub mod call;
pub mod counts;
mod events;
mod kinds;
pub mod lent;
pub mod print;

pub use events::{Page, Plane, CHANNELS, MOST_EVENTS, NUMBERS, PADS, ROOM_WORDS, SLOT_WORDS};
