//! Random cases: a line for the listing and one or two calls.

use super::{damage_line, damage_rows};
use crate::base::Order;
use crate::dialects::{Words, DIALECTS};
use crate::lines::{line_of, LONGEST_LINE};
use crate::rng::Rng;
use crate::vectors::{Vector, MOST_ELEMENTS};

pub struct Case {
    pub line: Vec<u8>,
    pub vectors: Vec<Vector>,
}

pub fn random(rng: &mut Rng) -> Case {
    let is_damaged = rng.chance(65);
    let dialect = DIALECTS[rng.below(100) * DIALECTS.len() / 100];
    let (good, given) = dialect.random(rng, is_damaged);
    let mut line = line_of(dialect, &given.words);
    if rng.chance(12) {
        line = damage_line::broken(rng, &line);
    }
    if line.len() > LONGEST_LINE {
        line = line_of(dialect, &good.words);
    }
    let mut vectors = Vec::new();
    let calls = rng.below(5);
    if calls != 0 && calls != 1 {
        vectors.push(reading(rng, given));
    }
    if calls != 2 && calls != 3 {
        vectors.push(writing(rng, good));
    }
    Case { line, vectors }
}

fn random_order(rng: &mut Rng) -> Order {
    rng.pick(&[Order::Crossed, Order::Rising])
}

/// Room too small by one, just enough, a bit larger, or none.
fn room_near(rng: &mut Rng, needed: usize) -> usize {
    let room = match rng.below(10) {
        0 => needed.saturating_sub(1),
        1 => needed.saturating_sub(4),
        2 => needed + 1,
        3 => needed + rng.within(2, 40),
        4 => rng.below(needed + 1),
        5 if rng.chance(30) => 0,
        6 if rng.chance(30) => MOST_ELEMENTS,
        _ => needed,
    };
    room.min(MOST_ELEMENTS)
}

/// A reading of these words, in a random order and room.
pub fn reading(rng: &mut Rng, words: Words) -> Vector {
    let order = random_order(rng);
    let needed = words.rows(order).map_or(24, |rows| 4 * rows.len());
    let room = room_near(rng, needed);
    Vector::reading(words.dialect, order, room, words.words)
}

/// A writing of the rows of an acceptable event, or of such rows damaged.
fn writing(rng: &mut Rng, good: Words) -> Vector {
    let order = random_order(rng);
    let rows = good.rows(order).expect("made events are acceptable");
    let dialect = good.dialect;
    let words_now = good.words.len();
    let (elements, needed) = match (rng.below(100), dialect.rows.too_many) {
        (0, Some(too_many)) => {
            let mut elements = too_many(rng, &rows, words_now);
            dialect.mend_rows(rng, &mut elements);
            (elements, dialect.largest_event)
        }
        (0..=59, _) => (damage_rows::damaged(rng, dialect, &rows), words_now),
        _ => (rows.concat(), words_now),
    };
    let room = room_near(rng, needed);
    Vector::writing(dialect, order, room, elements)
}
