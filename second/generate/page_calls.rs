//! Sequences of calls of the page, each on the page and the room that the one before left.

use super::page_events;
use super::page_pages::{self, Given};
use crate::page::call::{Call, Step};
use crate::page::lent::Lent;
use crate::page::{Page, MOST_EVENTS, PADS, SLOT_WORDS};
use crate::rng::Rng;

/// For a run under valgrind: so many random sequences, and one edge of so many.
const TEXT_SEQUENCES: usize = 40;
const TEXT_STEP: usize = 23;

/// The calls that refuse an unsound page, by their place in `call`.
const CALLS: [u32; 6] = [0, 1, 2, 3, 4, 5];

/// A sequence, with what is lent as its steps so far leave it.
pub struct Sequence {
    lent: Lent,
    pub steps: Vec<Step>,
}

impl Sequence {
    /// What is given is lent.
    pub fn with(given: &Given) -> Sequence {
        let mut sequence = Sequence { lent: Lent::new(), steps: vec![] };
        given.steps().into_iter().for_each(|step| sequence.push(step));
        sequence
    }

    pub fn push(&mut self, step: Step) {
        // What comes of it is asked for where it is compared.
        let _ = self.lent.take(&step);
        self.steps.push(step);
    }

    pub fn call(&mut self, call: Call) {
        self.push(Step::Call(call));
    }

    fn page(&self) -> Page {
        self.lent.page()
    }
}

/// A page, at times cleared, each call once, then some calls of one kind after some of another.
pub fn random(rng: &mut Rng) -> Vec<Step> {
    let mut sequence = Sequence::with(&page_pages::random(rng));
    if rng.chance(10) {
        sequence.call(Call::Clear);
    }
    for choice in rng.distinct(&CALLS, CALLS.len()) {
        let call = call(rng, &sequence, choice);
        sequence.call(call);
    }
    for _ in 0..rng.below(5) {
        match rng.below(20) {
            0..=5 => adds(rng, &mut sequence),
            6..=8 => drops(rng, &mut sequence),
            9..=12 => reads(rng, &mut sequence),
            13..=15 => damage(rng, &mut sequence),
            16 => sequence.call(Call::Clear),
            17 => lend_again(rng, &mut sequence),
            _ => {
                let choice = rng.pick(&CALLS);
                let call = call(rng, &sequence, choice);
                sequence.call(call);
            }
        }
    }
    sequence.steps
}

fn call(rng: &mut Rng, sequence: &Sequence, choice: u32) -> Call {
    let answer = rng.pick(&[2, 2, 2, 2, 2, 2, 0, 1, 3, 5]);
    let page = sequence.page();
    match choice {
        0 => Call::Add { answer, words: page_events::random(rng) },
        1 => Call::Drop { answer },
        2 => Call::Find { answer, k: event_number(rng, &page) },
        3 => {
            let k = event_number(rng, &page);
            let needed = page.event(k, &sequence.lent.room).len();
            let more = needed + rng.within(2, 40);
            let less = needed.saturating_sub(1);
            let words = rng.pick(&[needed, needed, needed, less, needed + 1, more, 0, SLOT_WORDS]);
            Call::Event { words, k }
        }
        4 => Call::FindPlane { answer },
        _ => {
            Call::Plane { counts: rng.pick(&[PADS, PADS, PADS, PADS, PADS - 1, PADS + 1, 0, 300]) }
        }
    }
}

/// The number of an event held, or one about the last or far beyond it.
fn event_number(rng: &mut Rng, page: &Page) -> u64 {
    let held = page.count.min(MOST_EVENTS as u64);
    match rng.below(12) {
        0 | 1 => 0,
        2 | 3 => held.saturating_sub(1),
        4 => held,
        5 => 63,
        6 => 64,
        7 => u64::MAX,
        8 => 1 << 32 | rng.below(64) as u64,
        9 => rng.next(),
        _ => rng.below(held as usize + 1) as u64,
    }
}

/// A few events, or as many as a page holds and more.
fn adds(rng: &mut Rng, sequence: &mut Sequence) {
    if rng.chance(8) {
        for _ in 0..rng.within(60, 135) {
            sequence.call(Call::Add { answer: 2, words: page_events::small(rng) });
        }
    } else {
        for _ in 0..rng.within(2, 10) {
            let call = call(rng, sequence, 0);
            sequence.call(call);
        }
    }
    planes(rng, sequence);
}

/// A few, or down to none and beyond.
fn drops(rng: &mut Rng, sequence: &mut Sequence) {
    let held = sequence.page().count.min(MOST_EVENTS as u64) as usize;
    let count = if rng.chance(25) { held + 2 } else { rng.within(1, 4) };
    for _ in 0..count {
        let call = call(rng, sequence, 1);
        sequence.call(call);
    }
    planes(rng, sequence);
}

/// The events at both ends of what is held, or all of them, each found and then given.
fn reads(rng: &mut Rng, sequence: &mut Sequence) {
    let page = sequence.page();
    let held = page.count.min(MOST_EVENTS as u64);
    let numbers = match rng.below(6) {
        0 => (0..held + 2).collect(),
        _ => vec![0, held.wrapping_sub(1), held, event_number(rng, &page)],
    };
    for k in numbers {
        let words = page.event(k, &sequence.lent.room).len();
        sequence.call(Call::Find { answer: 2, k });
        sequence.call(Call::Event { words, k });
    }
}

fn planes(rng: &mut Rng, sequence: &mut Sequence) {
    for choice in [4, 5] {
        let call = call(rng, sequence, choice);
        sequence.call(call);
    }
}

/// Words of events held are changed, or words of the room of which none is an event's.
fn damage(rng: &mut Rng, sequence: &mut Sequence) {
    let page = sequence.page();
    for _ in 0..rng.within(1, 3) {
        let k = rng.below(page.count.clamp(1, MOST_EVENTS as u64) as usize) as u64;
        let event = page.event(k, &sequence.lent.room);
        let at = SLOT_WORDS * page.slot(k);
        if !event.is_empty() && rng.chance(80) {
            let words = page_events::damaged(rng, event);
            sequence.push(Step::Put { at, words });
        } else if at < sequence.lent.room.len() {
            let at = rng.within(at, sequence.lent.room.len() - 1);
            sequence.push(Step::Put { at, words: vec![rng.number(16) as u16] });
        }
    }
    planes(rng, sequence);
    reads(rng, sequence);
}

/// Another page in the same room: as it was but for its first number, or said to hold too much.
fn lend_again(rng: &mut Rng, sequence: &mut Sequence) {
    let mut page = sequence.page();
    match rng.below(3) {
        0 => page.first = page.slot(0) as u64 + 64 * (rng.next() >> 7),
        1 => page_pages::claim_too_much(rng, &mut page),
        _ => page.count = rng.below(MOST_EVENTS + 1) as u64,
    }
    sequence.push(Step::lend_page(&page));
    planes(rng, sequence);
    reads(rng, sequence);
}

/// Some edges and some random sequences, as lines of text.
pub fn text() -> Vec<u8> {
    let mut rng = Rng::new(1);
    let random = (0..TEXT_SEQUENCES).map(|_| random(&mut rng));
    let edges = super::page_edges::all().into_iter().step_by(TEXT_STEP);
    edges.chain(random).flatten().flat_map(|step| step.text()).collect()
}
