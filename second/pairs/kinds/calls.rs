//! The kinds of calls of the library's comparison.

use super::{Compared, Kind};
use crate::pairs::call::{Answer, Call};

/// A call, its pair's comparison and its answer.
pub struct CallFacts {
    pub call: Call,
    pub compared: Compared,
    pub answer: Answer,
}

/// The lent elements of a list, those that it needs, and those of an entry.
struct Room {
    lent: usize,
    needed: usize,
    entry: usize,
}

impl Room {
    fn fits(&self) -> bool {
        self.lent >= self.needed
    }

    /// So many elements are lent more than are needed, or fewer.
    fn is_over(&self, more: isize) -> bool {
        self.needed > 0 && self.lent as isize - self.needed as isize == more
    }

    /// There is room for an entry more, or for many.
    fn is_plenty(&self) -> bool {
        self.lent >= self.needed + self.entry
    }

    fn has_incomplete_entry(&self) -> bool {
        self.lent % self.entry != 0
    }
}

impl CallFacts {
    fn words(&self) -> Room {
        Room { lent: self.call.words, needed: 3 * self.compared.differing_words, entry: 3 }
    }

    fn rows(&self) -> Room {
        Room { lent: self.call.rows, needed: 9 * self.compared.differing_rows, entry: 9 }
    }

    /// The row list's room, where the word list fits: elsewhere it is not looked at.
    fn rows_asked(&self, holds: impl Fn(Room) -> bool) -> bool {
        self.words().fits() && holds(self.rows())
    }

    fn lends_none_for_rows(&self) -> bool {
        self.call.rows == 0 && self.compared.differing_rows == 0 && self.answer.is_ok()
    }

    /// Would the numbers be two acceptable events in words of the dialect's width?
    fn has_good_numbers(&self) -> bool {
        let dialect = self.call.pair.dialect;
        let order = self.call.order();
        let is_good = |words: &Vec<u32>| dialect.rows_of(words, order).is_ok();
        self.call.pair.events.iter().all(is_good)
    }
}

/// Of each dialect, in words of its width.
pub const CALLS: [Kind<CallFacts>; 22] = [
    ("accepted", |c| c.answer.is_ok()),
    ("25 of the word list", |c| c.answer.is_err() && !c.words().fits()),
    ("25 of the row list", |c| c.answer.is_err() && c.words().fits()),
    ("neither list fits", |c| !c.words().fits() && !c.rows().fits()),
    ("words: exact room", |c| c.words().is_over(0)),
    ("words: an element less", |c| c.words().is_over(-1)),
    ("words: an entry less", |c| c.words().is_over(-3)),
    ("words: an element more", |c| c.words().is_over(1)),
    ("words: plenty", |c| c.words().is_plenty()),
    ("words: no room, none needed", |c| c.call.words == 0 && c.words().fits()),
    ("words: incomplete entry, 25", |c| c.words().has_incomplete_entry() && !c.words().fits()),
    ("words: incomplete entry, accepted", |c| c.words().has_incomplete_entry() && c.answer.is_ok()),
    ("rows: exact room", |c| c.rows_asked(|rows| rows.is_over(0))),
    ("rows: an element less", |c| c.rows_asked(|rows| rows.is_over(-1))),
    ("rows: an entry less", |c| c.rows_asked(|rows| rows.is_over(-9))),
    ("rows: an element more", |c| c.rows_asked(|rows| rows.is_over(1))),
    ("rows: plenty", |c| c.rows_asked(|rows| rows.is_plenty())),
    ("rows: no room, both acceptable", |c| {
        c.lends_none_for_rows() && c.compared.is_acceptable() == [true, true]
    }),
    ("rows: no room, one refused", |c| {
        c.lends_none_for_rows() && c.compared.is_acceptable() != [true, true]
    }),
    ("rows: incomplete entry, 25", |c| {
        c.rows_asked(|rows| rows.has_incomplete_entry() && !rows.fits())
    }),
    ("rows: incomplete entry, accepted", |c| c.rows().has_incomplete_entry() && c.answer.is_ok()),
    ("longer than the largest event", |c| {
        let largest = c.call.pair.dialect.largest_event;
        c.compared.lengths.iter().any(|&length| length > largest)
    }),
];

/// Of each dialect, in words of the other width.
pub const OTHER_WIDTH: [Kind<CallFacts>; 2] = [
    ("other width, accepted", |c| c.answer.is_ok()),
    ("other width, 25 of the word list", |c| c.answer.is_err()),
];

/// Of some dialect: numbers of 32 bits are no event in 16 bits.
pub const SOME_OTHER_WIDTH: [Kind<CallFacts>; 1] =
    [("other width, events by their numbers", |c| c.has_good_numbers())];

/// Of all calls.
pub const ANY: [Kind<CallFacts>; 8] = [
    ("no element for the answer", |c| c.call.answer == 0),
    ("one element for the answer", |c| c.call.answer == 1),
    ("two elements for the answer", |c| c.call.answer == 2),
    ("three elements for the answer", |c| c.call.answer == 3),
    ("more elements for the answer", |c| c.call.answer > 3),
    ("order 0", |c| c.call.order == 0),
    ("order 1", |c| c.call.order == 1),
    ("another order", |c| c.call.order > 1),
];
