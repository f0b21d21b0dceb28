//! Dialect S, the S800 event, version 5 (source documents 000 and 001).

mod damage;
mod edges;
mod group_edges;
mod groups;
mod large;
pub(crate) mod make;
mod marks;
mod read;
mod rows;
mod spoken;
mod tags;
mod two_faults;
mod write;

use super::{Dialect, Functions, Native, Rows, Wanted};
use crate::generate::damage_rows::FIELD_LIMITS;
pub(crate) use edges::every_form;
pub(crate) use groups::pad;

pub static DIALECT: Dialect = Dialect {
    letter: 'S',
    smallest_event: read::SMALLEST_EVENT,
    largest_event: read::LARGEST_EVENT,
    native: Native::Bits16(&FUNCTIONS),
    rows: Rows {
        kinds: 0..=13,
        tag_kinds: &[(tags::kind::PACKET, rows::any_tag)],
        limits: rows::limits,
        any_limits: &FIELD_LIMITS,
        lists: rows::lists,
        damage: Some(rows::damage_group),
        too_many: Some(rows::too_many),
    },
    mend: None,
    wanted: Wanted {
        reading: &[1, 2, 3, 4, 5, 6, 7, 8, 9, 10, 11],
        writing: &[20, 21, 22, 23, 24],
        special: marks::READING,
        special_writing: marks::WRITING,
        add_marks: marks::add,
        marks: marks::wanted,
    },
    large_readings: large::readings,
    large_writings: large::writings,
    check_cases: spoken::check,
};

pub static FUNCTIONS: Functions<u16> = Functions {
    rows_of: read::rows_of,
    words_of: write::words_of,
    event_of: make::event_of,
    mixed: make::mixed,
    smallest: make::smallest,
    large: make::large,
    opaque: Some(make::opaque),
    damaged: damage::damaged,
    resized: damage::resized,
    edges: edges::edges,
};
