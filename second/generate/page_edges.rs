//! Sequences of calls of the page at its edges, the same in every run.

use super::page_calls::Sequence;
use super::page_events;
use super::page_pages::Given;
use crate::dialects::s800::FUNCTIONS;
use crate::page::call::{Call, Step};
use crate::page::{Page, MOST_EVENTS, NUMBERS, PADS, ROOM_WORDS, SLOT_WORDS};
use crate::rng::Rng;

const FIRSTS: [u64; 6] = [0, 1, 63, 64, u64::MAX - 1, u64::MAX];
const COUNTS: [u64; 5] = [0, 1, 2, 63, 64];

pub fn all() -> Vec<Vec<Step>> {
    let mut rng = Rng::new(107);
    let mut sequences = Vec::new();
    for first in FIRSTS {
        for count in COUNTS {
            sequences.extend(every_call(&mut rng, &held(first, count)));
        }
    }
    for given in unsound().into_iter().chain(free_lengths()) {
        sequences.extend(every_call(&mut rng, &given));
    }
    for given in lent_sizes() {
        sequences.extend(every_call(&mut rng, &given));
    }
    sequences.push(every_edge_of_reading());
    sequences.push(round(&mut rng));
    sequences
}

/// So many events from a slot on: of each, the pad that is its number is hit once in connector 0.
fn held(first: u64, count: u64) -> Given {
    let mut given = Given::new(Page { first, count, ..Page::CLEARED });
    (0..count).for_each(|k| given.hold(k, hit(k as u16 % 64)));
    given
}

/// The event M of 01 with one sample: sample 0, this channel, connector 0, energy 1.
fn hit(channel: u16) -> Vec<u16> {
    let m = [0x1a, 0x5800, 5, 6, 0x5803, 0x1234, 0, 1, 0, 5, 0x5804, 7, 0, 0];
    let samples = [12, 0x5840, 0, 5, 0x5841, 0, 0x8000 | channel, 1, 4, 0x5845, 0, 0];
    [&m[..], &samples].concat()
}

/// The reading calls one after another; then, each on what was given, the others.
fn every_call(rng: &mut Rng, given: &Given) -> Vec<Vec<Step>> {
    let mut reads = Sequence::with(given);
    let count = given.page.count;
    let last = count.wrapping_sub(1);
    for k in [0, 1, last, count, count.wrapping_add(1), 62, 63, 64, 1 << 32, u64::MAX] {
        reads.call(Call::Find { answer: 2, k });
        reads.call(Call::Event { words: 26, k });
    }
    reads.call(Call::FindPlane { answer: 2 });
    reads.call(Call::Plane { counts: PADS });
    let added = added(rng).into_iter().map(|words| Call::Add { answer: 2, words });
    let others = added.chain([Call::Drop { answer: 2 }, Call::Clear]);
    let sequence = |call: Call| {
        let mut sequence = Sequence::with(given);
        sequence.call(call);
        sequence.call(Call::Plane { counts: PADS });
        sequence.call(Call::Drop { answer: 2 });
        sequence.steps
    };
    [vec![reads.steps], others.map(sequence).collect()].concat()
}

/// The smallest event, those about the most words, and one that each of the rules refuses.
fn added(rng: &mut Rng) -> Vec<Vec<u16>> {
    let sizes = [1023, 1024, 1025, 4096].map(|words| page_events::sized(rng, words));
    let refused = [1024, 1025, 4096].map(|words| page_events::refused(rng, words));
    let smallest = (FUNCTIONS.edges)().smallest;
    let mut longer = page_events::sized(rng, 4096);
    longer.push(0);
    let others = [vec![], smallest[1..].to_vec(), smallest, longer];
    [sizes.to_vec(), refused.to_vec(), others.to_vec()].concat()
}

/// Pages that say to hold too many events, or one too long, wherever it stands.
fn unsound() -> Vec<Given> {
    let mut all = Vec::new();
    for count in [65, 66, 1 << 32, u64::MAX] {
        all.push(Given::new(Page { count, ..Page::CLEARED }));
    }
    for (first, count, k) in [(0, 1, 0), (63, 3, 0), (63, 3, 1), (63, 3, 2), (64, 64, 63)] {
        for length in [1025, 1 << 32, u64::MAX] {
            let mut given = held(first, count);
            let slot = given.page.slot(k);
            given.page.lengths[slot] = length;
            all.push(given);
        }
    }
    all
}

/// Lengths too large of slots that hold no event, beside those that do.
fn free_lengths() -> Vec<Given> {
    let mut all = Vec::new();
    for (first, count) in [(0, 0), (0, 1), (63, 1), (63, 2), (u64::MAX, 63), (5, 63)] {
        let mut given = held(first, count);
        for k in count..MOST_EVENTS as u64 {
            let slot = given.page.slot(k);
            given.page.lengths[slot] = if k % 2 == 0 { 1025 } else { u64::MAX };
        }
        all.push(given);
    }
    all
}

/// Rooms about what is enough, and page buffers about what is one, with and without a full page.
fn lent_sizes() -> Vec<Given> {
    let mut all = Vec::new();
    for count in [1, 64] {
        for room in [0, 1, SLOT_WORDS, ROOM_WORDS - 1, ROOM_WORDS + 1, ROOM_WORDS + 1030] {
            all.push(Given { room, ..held(62, count) });
        }
        for numbers in [0, 1, 2, 3, NUMBERS - 1, NUMBERS + 1, NUMBERS + 70] {
            all.push(Given { numbers, ..held(62, count) });
        }
    }
    all
}

/// Every event of the reader's edges that has its answer, added one after another.
fn every_edge_of_reading() -> Vec<Step> {
    let mut sequence = Sequence::with(&held(3, 60));
    let edges = (FUNCTIONS.edges)();
    let answered = edges.answered.into_iter().map(|(_, words)| words);
    for words in answered.chain(edges.layouts.into_iter().step_by(7)) {
        sequence.call(Call::Add { answer: 2, words });
    }
    sequence.call(Call::Plane { counts: PADS });
    sequence.steps
}

/// From a cleared page twice around the room and a bit more, then down to none and beyond.
fn round(rng: &mut Rng) -> Vec<Step> {
    let mut sequence = Sequence::with(&held(u64::MAX, 2));
    sequence.call(Call::Clear);
    for _ in 0..2 * MOST_EVENTS + 9 {
        sequence.call(Call::Add { answer: 2, words: page_events::small(rng) });
        sequence.call(Call::Plane { counts: PADS });
    }
    for k in 0..=MOST_EVENTS as u64 {
        sequence.call(Call::Event { words: SLOT_WORDS, k });
    }
    for _ in 0..=MOST_EVENTS {
        sequence.call(Call::Drop { answer: 2 });
        sequence.call(Call::Event { words: SLOT_WORDS, k: 0 });
    }
    sequence.steps
}
