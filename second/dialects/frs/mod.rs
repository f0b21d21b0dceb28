//! Dialect F, the FRS VME event (source document 004).

mod damage;
mod datum_edges;
mod edges;
mod large;
mod layout;
mod listing;
mod make;
mod marks;
mod read;
mod rows;
mod spoken;
mod two_faults;
mod write;

use super::{Dialect, Functions, Native, Rows, Wanted};
use crate::generate::damage_rows::FIELD_LIMITS;

pub static DIALECT: Dialect = Dialect {
    letter: 'F',
    smallest_event: read::SMALLEST_EVENT,
    largest_event: read::LARGEST_EVENT,
    native: Native::Bits32(&FUNCTIONS),
    rows: Rows {
        kinds: 15..=23,
        tag_kinds: &[],
        limits: rows::limits,
        any_limits: &FIELD_LIMITS,
        lists: rows::lists,
        damage: None,
        too_many: None,
    },
    mend: None,
    wanted: Wanted {
        reading: &[1, 5, 6, 9, 10, 11],
        writing: &[20, 21, 22, 24],
        special: marks::SPECIAL,
        special_writing: marks::SPECIAL_WRITING,
        add_marks: marks::add,
        marks: marks::wanted,
    },
    large_readings: large::readings,
    large_writings: large::writings,
    check_cases: spoken::check,
};

static FUNCTIONS: Functions<u32> = Functions {
    rows_of: read::rows_of,
    words_of: write::words_of,
    event_of: make::event_of,
    mixed: make::mixed,
    smallest: make::smallest,
    large: make::largest,
    opaque: None,
    damaged: damage::damaged,
    resized: damage::resized,
    edges: edges::edges,
};
