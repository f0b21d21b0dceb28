//! Dialect R, the regions of RCNP Osaka (02, #101; source document 003).

mod damage;
mod edges;
mod large;
mod layout;
mod make;
mod marks;
mod mend;
mod read;
mod rows;
mod spoken;
mod two_faults;
mod write;

use super::{Dialect, Functions, Mend, Native, Rows, Wanted};

pub static DIALECT: Dialect = Dialect {
    letter: 'R',
    smallest_event: read::SMALLEST_EVENT,
    largest_event: read::LARGEST_EVENT,
    native: Native::Bits16(&FUNCTIONS),
    rows: Rows {
        kinds: 31..=37,
        tag_kinds: &[(layout::kind::REGION, rows::any_id)],
        limits: rows::limits,
        any_limits: &rows::ANY_LIMITS,
        lists: rows::lists,
        damage: None,
        too_many: Some(rows::too_many),
    },
    mend: Some(Mend { words: mend::words, rows: mend::rows }),
    wanted: Wanted {
        reading: &[1, 5, 6, 7, 10, 13],
        writing: &[20, 21, 22, 23, 24],
        special: marks::READING,
        special_writing: marks::WRITING,
        add_marks: marks::add,
        marks: marks::wanted,
    },
    large_readings: large::readings,
    large_writings: large::writings,
    check_cases: spoken::check,
};

static FUNCTIONS: Functions<u16> = Functions {
    rows_of: read::rows_of,
    words_of: write::words_of,
    event_of: make::event_of,
    mixed: make::mixed,
    smallest: make::smallest,
    large: make::large,
    opaque: Some(make::opaque),
    damaged: damage::damaged,
    resized: damage::resized,
    edges: edges::edges,
};
