//! Pages and rooms that are given to the calls: with events in them, with words that are none, too
//! small, and pages said to hold too much.

use super::page_events;
use crate::page::call::Step;
use crate::page::{Page, MOST_EVENTS, NUMBERS, ROOM_WORDS, SLOT_WORDS};
use crate::rng::Rng;

/// Lengths that no event held may have.
const TOO_LONG: [u64; 4] = [1025, 1025, 1 << 32 | 14, u64::MAX];

/// A page, the numbers it is lent in, the room and what is put into it.
#[derive(Clone)]
pub struct Given {
    pub page: Page,
    /// How many numbers are lent; those beyond the page's are not 0.
    pub numbers: usize,
    pub room: usize,
    pub factor: u16,
    /// The words that are put into slots.
    pub events: Vec<(usize, Vec<u16>)>,
}

impl Given {
    /// In room that is just enough.
    pub fn new(page: Page) -> Given {
        Given { page, numbers: NUMBERS, room: ROOM_WORDS, factor: 0x9e37, events: vec![] }
    }

    /// Holds these words as event k.
    pub fn hold(&mut self, k: u64, words: Vec<u16>) {
        let slot = self.page.slot(k);
        self.page.lengths[slot] = words.len() as u64;
        self.events.push((slot, words));
    }

    /// All that is lent.
    pub fn steps(&self) -> Vec<Step> {
        let mut numbers = self.page.numbers();
        numbers.resize(self.numbers, 0xfeed_5800_0005_beef);
        let room = Step::LendRoom { words: self.room, factor: self.factor };
        let mut steps = vec![Step::LendPage(numbers), room];
        for (slot, words) in &self.events {
            let at = SLOT_WORDS * slot;
            if at + words.len() <= self.room {
                steps.push(Step::Put { at, words: words.clone() });
            }
        }
        steps
    }
}

pub fn random(rng: &mut Rng) -> Given {
    let mut given = held(rng);
    given.numbers = match rng.below(24) {
        0 | 1 => 0,
        2 | 3 => NUMBERS - 1,
        4 | 5 => NUMBERS + 1,
        6 => rng.below(NUMBERS),
        7 => NUMBERS + rng.below(40),
        _ => NUMBERS,
    };
    given.room = match rng.below(24) {
        0 | 1 => 0,
        2 | 3 => ROOM_WORDS - 1,
        4 | 5 => ROOM_WORDS + 1,
        6 => ROOM_WORDS + rng.within(2, 5000),
        7 => rng.below(ROOM_WORDS),
        _ => ROOM_WORDS,
    };
    if rng.chance(25) {
        claim_too_much(rng, &mut given.page);
    }
    given
}

/// A page with events from some slot on, most of them acceptable; the other slots have any length.
fn held(rng: &mut Rng) -> Given {
    let mut given = Given::new(Page::CLEARED);
    given.factor = rng.pick(&[0, 1, 0x9e37]);
    given.page.first = first(rng);
    let any = rng.below(MOST_EVENTS + 1);
    let count = rng.pick(&[0, 1, 2, 3, 10, 62, 63, 64, 64, 64, any]);
    given.page.count = count as u64;
    if rng.chance(40) {
        let length = rng.pick(&[1, 14, 1024, 1025, u64::MAX]);
        given.page.lengths = [length; MOST_EVENTS];
    }
    let bad = rng.pick(&[0, 0, 10, 50, 100]);
    for k in 0..count {
        let words = if rng.chance(bad) { no_event(rng) } else { good_event(rng) };
        given.hold(k as u64, words);
    }
    given
}

fn first(rng: &mut Rng) -> u64 {
    let any = rng.below(MOST_EVENTS) as u64;
    rng.pick(&[0, 1, 62, 63, 63, 64, 64, 65, 1 << 32, u64::MAX - 64, u64::MAX, u64::MAX, any])
}

fn good_event(rng: &mut Rng) -> Vec<u16> {
    match rng.below(30) {
        0 => page_events::sized(rng, SLOT_WORDS),
        _ => page_events::small(rng),
    }
}

/// Words, or none, that are no acceptable event; at times an event that lacks its last word.
fn no_event(rng: &mut Rng) -> Vec<u16> {
    let event = good_event(rng);
    match rng.below(4) {
        0 => vec![],
        1 => event[..event.len() - 1].to_vec(),
        2 => (0..rng.below(100)).map(|_| rng.number(16) as u16).collect(),
        _ => page_events::damaged(rng, &event),
    }
}

/// Too many events, or one that is too long: often the oldest or the last, at times one of all that
/// the slots can hold, which may not be held.
pub fn claim_too_much(rng: &mut Rng, page: &mut Page) {
    let held = page.count.clamp(1, MOST_EVENTS as u64);
    match rng.below(6) {
        0 | 1 => {
            page.count = rng.pick(&[65, 65, 66, 128, 1 << 32, 1 << 32 | 1, u64::MAX, u64::MAX])
        }
        2 | 3 => page.lengths[page.slot(0)] = rng.pick(&TOO_LONG),
        4 => page.lengths[page.slot(held - 1)] = rng.pick(&TOO_LONG),
        _ => page.lengths[rng.below(MOST_EVENTS)] = rng.pick(&TOO_LONG),
    }
}
