//! The kinds of each call of the page by itself.

use super::calls::CallFacts;
use super::Kind;
use crate::base::Refusal;
use crate::page::call::Call;
use crate::page::{MOST_EVENTS, NUMBERS, PADS, SLOT_WORDS};

impl CallFacts {
    /// How many words are added.
    fn added(&self) -> usize {
        match &self.call {
            Call::Add { words, .. } => words.len(),
            _ => 0,
        }
    }

    fn is_26_at(&self, place: u32) -> bool {
        self.answer == Some(Err(Refusal { number: 26, place }))
    }

    /// Is the answer the reader's own refusal?
    fn is_readers(&self) -> bool {
        self.is_sound && !self.is_accepted() && !self.is_refused(26)
    }

    /// The slot that the added words go to, where they do.
    fn slot(&self) -> Option<usize> {
        self.is_accepted().then(|| self.page.slot(self.page.count))
    }

    /// Does an added event leave words of the one before it in the slot?
    fn is_shorter(&self) -> bool {
        self.slot().is_some_and(|slot| self.page.lengths[slot] > self.added() as u64)
    }

    fn k(&self) -> u64 {
        match self.call {
            Call::Find { k, .. } | Call::Event { k, .. } => k,
            _ => 0,
        }
    }

    /// Are so many words lent more than event k has, or fewer?
    fn is_lent_over(&self, more: isize) -> bool {
        let Call::Event { words, .. } = self.call else { return false };
        let needed = self.answer.and_then(|answer| answer.ok());
        needed.is_some_and(|n| n > 0 && words as isize - n as isize == more)
    }

    fn lends_counts(&self, counts: usize) -> bool {
        self.call == Call::Plane { counts }
    }
}

pub const CLEAR: [Kind<CallFacts>; 6] = [
    ("a page that is not sound", |c| !c.is_sound),
    ("no room", |c| c.room == 0),
    ("events held", |c| c.is_sound && c.page.count > 0),
    ("page of no numbers", |c| c.numbers == 0),
    ("page of 65 numbers", |c| c.numbers == NUMBERS - 1),
    ("page of 67 numbers", |c| c.numbers == NUMBERS + 1),
];

pub const ADD: [Kind<CallFacts>; 30] = [
    ("accepted, none held", |c| c.is_accepted() && c.page.count == 0),
    ("accepted, 63 held", |c| c.is_accepted() && c.page.count == 63),
    ("accepted, the oldest leaves", |c| c.is_accepted() && c.is_full()),
    ("the oldest leaves from slot 63", |c| c.is_full() && c.slot() == Some(63)),
    ("the oldest leaves, first over 63", |c| c.is_accepted() && c.is_full() && c.page.first > 63),
    ("accepted, first over 63 stays", |c| {
        c.is_accepted() && !c.is_full() && c.page.first >= MOST_EVENTS as u64
    }),
    ("to a slot before the oldest's", |c| {
        !c.is_full() && c.slot().is_some_and(|slot| slot < c.page.slot(0))
    }),
    ("shorter than the slot's length", |c| c.is_shorter()),
    ("accepted, page not put back", |c| c.is_accepted() && c.numbers < NUMBERS),
    ("accepted, 14 words", |c| c.is_accepted() && c.added() == 14),
    ("accepted, 1,024 words", |c| c.is_accepted() && c.added() == SLOT_WORDS),
    ("26 at 1,025", |c| c.is_26_at(1025)),
    ("26 at 4,096", |c| c.is_26_at(4096)),
    ("26 with 64 held", |c| c.is_full() && c.is_refused(26)),
    ("1 for no words", |c| c.is_refused(1) && c.added() == 0),
    ("1 for over 4,096 words", |c| c.is_refused(1) && c.added() > 4096),
    ("2", |c| c.is_refused(2)),
    ("3", |c| c.is_refused(3)),
    ("4", |c| c.is_refused(4)),
    ("5", |c| c.is_refused(5)),
    ("6", |c| c.is_refused(6)),
    ("7", |c| c.is_refused(7)),
    ("8", |c| c.is_refused(8)),
    ("9", |c| c.is_refused(9)),
    ("10", |c| c.is_refused(10)),
    ("11", |c| c.is_refused(11)),
    ("the reader's, over 1,024 words", |c| {
        c.added() > SLOT_WORDS && c.is_readers() && !c.is_refused(1)
    }),
    ("the reader's, 64 held", |c| c.is_full() && c.is_readers()),
    ("28 before the reader's", |c| c.is_refused(28) && !c.has_good_words),
    ("28, good words", |c| c.is_refused(28) && c.has_good_words),
];

pub const DROP: [Kind<CallFacts>; 5] = [
    ("27", |c| c.is_refused(27)),
    ("the last one", |c| c.is_accepted() && c.page.count == 1),
    ("of 64", |c| c.is_accepted() && c.is_full()),
    ("from slot 63", |c| c.is_accepted() && c.page.slot(0) == 63),
    ("first over 63", |c| c.is_accepted() && c.page.first >= MOST_EVENTS as u64),
];

/// Of `find` and `event`.
pub const EVENT_K: [Kind<CallFacts>; 12] = [
    ("the oldest", |c| c.is_accepted() && c.k() == 0),
    ("the last", |c| c.is_accepted() && c.page.count > 1 && c.k() == c.page.count - 1),
    ("event 63", |c| c.is_accepted() && c.k() == 63),
    ("in a slot before the oldest's", |c| c.is_accepted() && c.page.slot(c.k()) < c.page.slot(0)),
    ("an event of no words", |c| c.answer == Some(Ok(0))),
    ("an event of 1,024 words", |c| c.answer == Some(Ok(SLOT_WORDS as u32))),
    ("27, none held", |c| c.is_refused(27) && c.page.count == 0),
    ("27, just past the last", |c| c.is_refused(27) && c.k() == c.page.count),
    ("27, event 63", |c| c.is_refused(27) && c.k() == 63),
    ("27, event 64 of 64", |c| c.is_refused(27) && c.is_full() && c.k() == 64),
    ("27, event 2^64 - 1", |c| c.is_refused(27) && c.k() == u64::MAX),
    ("27, event 2^32 and few", |c| c.is_refused(27) && c.k() >> 32 == 1 && c.k() as u32 <= 63),
];

pub const EVENT_WORDS: [Kind<CallFacts>; 6] = [
    ("exact room", |c| c.is_lent_over(0)),
    ("a word less", |c| c.is_lent_over(-1)),
    ("a word more", |c| c.is_lent_over(1)),
    ("no room", |c| c.is_accepted() && matches!(c.call, Call::Event { words: 0, .. })),
    ("27, room lent", |c| c.is_refused(27) && !matches!(c.call, Call::Event { words: 0, .. })),
    ("28, room lent", |c| c.is_refused(28) && !matches!(c.call, Call::Event { words: 0, .. })),
];

pub const PLANE: [Kind<CallFacts>; 9] = [
    ("all held acceptable", |c| c.acceptable > 1 && c.not_acceptable == 0),
    ("none held acceptable", |c| c.acceptable == 0 && c.not_acceptable > 1),
    ("some of 64 not acceptable", |c| c.is_full() && c.acceptable > 0 && c.not_acceptable > 0),
    ("hits in each connector", |c| {
        let is_hit = |counts: &[u32]| counts.iter().any(|&count| count > 0);
        c.is_sound && c.lends_counts(PADS) && c.counts.chunks(PADS / 4).all(is_hit)
    }),
    ("a pad hit over ten times", |c| {
        c.is_sound && c.lends_counts(PADS) && c.counts.iter().any(|&count| count > 10)
    }),
    ("no counts lent", |c| c.lends_counts(0)),
    ("255 counts lent", |c| c.lends_counts(PADS - 1)),
    ("257 counts lent", |c| c.lends_counts(PADS + 1)),
    ("28, 256 counts lent", |c| c.is_refused(28) && c.lends_counts(PADS)),
];
