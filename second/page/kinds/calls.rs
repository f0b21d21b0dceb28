//! The kinds of pages, rooms and lent elements that the calls of the page must meet.

use super::Kind;
use crate::base::{Answer, Order};
use crate::dialects::s800;
use crate::page::call::Call;
use crate::page::lent::{Came, Lent};
use crate::page::{Page, MOST_EVENTS, NUMBERS, ROOM_WORDS, SLOT_WORDS};

/// A call, what is lent to it, and what comes of it.
pub struct CallFacts {
    pub call: Call,
    pub page: Page,
    /// How many numbers the page is lent in, and how many words of room.
    pub numbers: usize,
    pub room: usize,
    /// Is there no reason for 28?
    pub is_sound: bool,
    /// Of words to add: has the reader no refusal for them, and the page no 26?
    pub has_good_words: bool,
    /// Its answer, if it has one; of `event` and `plane` that of the call which finds what they give.
    pub answer: Option<Answer>,
    /// Of the events held, where the plane is counted: how many are acceptable, and how many are not.
    pub acceptable: usize,
    pub not_acceptable: usize,
    /// The plane's counts, where they are put.
    pub counts: Vec<u32>,
}

impl CallFacts {
    /// What is so before a call.
    pub fn before(call: &Call, lent: &Lent) -> CallFacts {
        let (page, room) = (lent.page(), &lent.room);
        let found = page.find_plane(room);
        let held = match call {
            Call::Plane { .. } => found.map_or(0, u64::from),
            _ => 0,
        };
        let is_good = |words: &[u16]| (s800::FUNCTIONS.rows_of)(words, Order::DEFAULT).is_ok();
        let acceptable = (0..held).filter(|&k| is_good(page.event(k, room))).count();
        let has_good_words = match call {
            Call::Add { words, .. } => words.len() <= SLOT_WORDS && is_good(words),
            _ => false,
        };
        let answer = match call {
            Call::Event { k, .. } => Some(page.find(*k, room)),
            Call::Plane { .. } => Some(found),
            _ => None,
        };
        CallFacts {
            call: call.clone(),
            numbers: lent.page.len(),
            room: room.len(),
            is_sound: found.is_ok(),
            has_good_words,
            answer,
            acceptable,
            not_acceptable: held as usize - acceptable,
            counts: vec![],
            page,
        }
    }

    /// The same with what came of the call.
    pub fn with(mut self, came: &Came) -> CallFacts {
        self.answer = came.answer.or(self.answer);
        self.counts = came.counts.clone();
        self
    }

    pub fn is_accepted(&self) -> bool {
        self.answer.is_some_and(|answer| answer.is_ok())
    }

    pub fn is_refused(&self, number: u32) -> bool {
        self.answer.is_some_and(|answer| answer.is_err_and(|refusal| refusal.number == number))
    }

    pub fn is_full(&self) -> bool {
        self.page.count == MOST_EVENTS as u64
    }

    fn has_room(&self) -> bool {
        self.room >= ROOM_WORDS
    }

    fn is_longer_than_its_slot(&self, k: u64) -> bool {
        self.page.lengths[self.page.slot(k)] > SLOT_WORDS as u64
    }

    /// Is event k, of so many words, the only reason for 28?
    fn is_too_long(&self, k: u64, words: u64) -> bool {
        let is_of_count = self.page.count <= MOST_EVENTS as u64;
        if !self.has_room() || !is_of_count || self.page.lengths[self.page.slot(k)] != words {
            return false;
        }
        (0..self.page.count).filter(|&k| self.is_longer_than_its_slot(k)).eq([k])
    }

    /// Has a slot without event a length that no event may have?
    fn has_free_length(&self) -> bool {
        let mut free = self.page.count..MOST_EVENTS as u64;
        self.is_sound && free.any(|k| self.is_longer_than_its_slot(k))
    }

    fn lends_answer(&self, holds: impl Fn(usize) -> bool) -> bool {
        match self.call {
            Call::Add { answer, .. } | Call::Drop { answer } => holds(answer),
            Call::Find { answer, .. } | Call::FindPlane { answer } => holds(answer),
            _ => false,
        }
    }
}

/// Of each call but clear.
pub const EVERY: [Kind<CallFacts>; 20] = [
    ("28: no room", |c| c.room == 0),
    ("28: room of 65,535 words", |c| c.room == ROOM_WORDS - 1),
    ("28: 65 events", |c| c.has_room() && c.page.count == 65),
    ("28: 2^64 - 1 events", |c| c.has_room() && c.page.count == u64::MAX),
    ("28: the oldest of 1,025 words", |c| c.is_too_long(0, 1025)),
    ("28: the last of 1,025 words", |c| c.is_too_long(c.page.count.wrapping_sub(1), 1025)),
    ("28: the oldest of 2^64 - 1 words", |c| c.is_too_long(0, u64::MAX)),
    ("a free slot's length over 1,024", |c| c.has_free_length()),
    ("room of 65,536 words", |c| c.is_sound && c.room == ROOM_WORDS),
    ("more room", |c| c.is_sound && c.room > ROOM_WORDS),
    ("none held", |c| c.is_sound && c.page.count == 0),
    ("64 held", |c| c.is_sound && c.is_full()),
    ("first 63", |c| c.is_sound && c.page.count > 1 && c.page.first == 63),
    ("first 64", |c| c.is_sound && c.page.count > 1 && c.page.first == 64),
    ("first 2^64 - 1", |c| c.is_sound && c.page.count > 1 && c.page.first == u64::MAX),
    ("first any above 64", |c| c.is_sound && c.page.count > 1 && c.page.first > 64),
    ("page of no numbers", |c| c.numbers == 0),
    ("page of 65 numbers", |c| c.numbers == NUMBERS - 1),
    ("page of 66 numbers", |c| c.numbers == NUMBERS),
    ("page of 67 numbers", |c| c.numbers == NUMBERS + 1),
];

/// Of each call that has an answer.
pub const ANSWERS: [Kind<CallFacts>; 4] = [
    ("no number for the answer", |c| c.lends_answer(|lent| lent == 0)),
    ("one number for the answer", |c| c.lends_answer(|lent| lent == 1)),
    ("two numbers for the answer", |c| c.lends_answer(|lent| lent == 2)),
    ("more numbers for the answer", |c| c.lends_answer(|lent| lent > 2)),
];
