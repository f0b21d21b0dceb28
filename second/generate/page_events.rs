//! Words to add to a page: acceptable events with samples, of every size about the most that a page
//! takes, damaged ones, and what is no event.

use crate::base::Order;
use crate::dialects::s800::{self, make, FUNCTIONS};
use crate::page::SLOT_WORDS;
use crate::rng::Rng;

pub fn random(rng: &mut Rng) -> Vec<u16> {
    match rng.below(40) {
        0..=9 => with_samples(rng),
        10..=17 => make::event_of(&make::mixed(rng)),
        18..=29 => FUNCTIONS.random(rng, true).1,
        30..=32 => {
            let words = rng.pick(&[1024, 1024, 1024, 1025, 1025, 1023, 1026, 4096, 4095]);
            sized(rng, words)
        }
        33 => {
            let words = rng.pick(&[1024, 1025, 1025, 1026, 2000, 4096]);
            refused(rng, words)
        }
        34 => make::event_of(&make::large(rng)),
        35 => with_other_head(rng),
        36 => {
            let good = with_samples(rng);
            (FUNCTIONS.resized)(rng, &good)
        }
        37 => make::event_of(&make::smallest(rng)),
        _ => few_words(rng),
    }
}

/// A small acceptable event, with samples or without.
pub fn small(rng: &mut Rng) -> Vec<u16> {
    match rng.below(4) {
        0 => make::event_of(&make::smallest(rng)),
        _ => with_samples(rng),
    }
}

/// One to four packets with samples, few in each.
pub fn with_samples(rng: &mut Rng) -> Vec<u16> {
    let mut packets = make::smallest(rng);
    for _ in 0..rng.within(1, 4) {
        packets.push(make::packet_with_groups(rng));
    }
    make::event_of(&packets)
}

/// An acceptable event of so many words, of samples or opaque.
pub fn sized(rng: &mut Rng, words: usize) -> Vec<u16> {
    let mut packets = make::smallest(rng);
    let free = words - s800::DIALECT.smallest_event;
    packets.push(match rng.below(3) {
        0 => make::opaque_packet(rng, free),
        _ => make::filled_crdc_packet(rng, free),
    });
    make::event_of(&packets)
}

/// An event of so many words that the reader refuses, for one of its last words.
pub fn refused(rng: &mut Rng, words: usize) -> Vec<u16> {
    let mut event = make::event_of(&make::smallest(rng));
    let opaque = make::opaque_packet(rng, words - event.len() - 3);
    event.extend(opaque);
    event.extend(match rng.below(4) {
        0 => [2, 0x5830, 1],
        1 => [3, 0x5834, 0],
        2 => [3, 0x58c0, 4],
        _ => [3, 0x5801, 0x8000],
    });
    event[0] = words as u16;
    event
}

/// A small event with another length, tag or version.
fn with_other_head(rng: &mut Rng) -> Vec<u16> {
    let mut event = small(rng);
    event[rng.below(3)] ^= 1 << rng.below(16);
    event
}

/// Fewer words than an event has, and words of any kind.
fn few_words(rng: &mut Rng) -> Vec<u16> {
    let count = rng.pick(&[0, 0, 1, 2, 13, 14, 60, SLOT_WORDS]);
    (0..count).map(|_| rng.number(16) as u16).collect()
}

/// The event with words changed until it is no acceptable one any more.
pub fn damaged(rng: &mut Rng, event: &[u16]) -> Vec<u16> {
    let mut words = event.to_vec();
    while (FUNCTIONS.rows_of)(&words, Order::DEFAULT).is_ok() {
        let at = rng.below(words.len());
        words[at] = rng.number(16) as u16;
    }
    words
}
