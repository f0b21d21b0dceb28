//! Random pairs of events of one dialect.

use crate::base::Order;
use crate::dialects::Dialect;
use crate::pairs::Pair;
use crate::rng::Rng;

/// Two events that are alike, that differ in few words or rows, of which one goes on, or that
/// have nothing to do with each other; acceptable ones and refused ones.
pub fn random(rng: &mut Rng, dialect: &'static Dialect) -> Pair {
    let mut events = events(rng, dialect);
    if rng.chance(50) {
        events.reverse();
    }
    Pair::new(dialect, events)
}

fn events(rng: &mut Rng, dialect: &'static Dialect) -> [Vec<u32>; 2] {
    let is_damaged = rng.chance(25);
    let (good, given) = dialect.random(rng, is_damaged);
    let (good, event) = (good.words, given.words);
    let other = match rng.below(15) {
        0 => event.clone(),
        1 | 2 => changed(rng, dialect, &event, 1),
        3 => {
            let count = rng.within(2, 12);
            changed(rng, dialect, &event, count)
        }
        4 => event[..rng.below(event.len() + 1)].to_vec(),
        5 => {
            let count = rng.within(1, 20);
            [event.clone(), words(rng, dialect, count)].concat()
        }
        6 | 7 => return dialect.with_a_part_more(rng),
        8 => dialect.mixed(rng),
        9 | 10 => {
            let other = still_acceptable(rng, dialect, &good);
            return [good, other];
        }
        11 => return [good, dialect.random(rng, true).1.words],
        12 => return [dialect.random(rng, true).1.words, dialect.random(rng, true).1.words],
        13 => {
            let (good, damaged) = dialect.random(rng, true);
            return [good.words, damaged.words];
        }
        _ => {
            let count = rng.below(3);
            words(rng, dialect, count)
        }
    };
    [event, other]
}

/// So many words of any kind.
pub fn words(rng: &mut Rng, dialect: &Dialect, count: usize) -> Vec<u32> {
    (0..count).map(|_| rng.number(dialect.word_bits() as u32)).collect()
}

/// The event with up to so many words changed, the first and the last often among them.
fn changed(rng: &mut Rng, dialect: &Dialect, event: &[u32], count: usize) -> Vec<u32> {
    let mut changed = event.to_vec();
    for _ in 0..count {
        let at = match rng.below(8) {
            0 => 0,
            1 => event.len().saturating_sub(1),
            _ => rng.below(event.len().max(1)),
        };
        let Some(word) = changed.get_mut(at) else { break };
        *word = match rng.below(3) {
            0 => rng.number(dialect.word_bits() as u32),
            1 => (*word).wrapping_add(1) & dialect.largest_word(),
            _ => *word ^ 1 << rng.below(dialect.word_bits()),
        };
    }
    dialect.mend_words(rng, &mut changed);
    changed
}

/// The event with bits flipped where it stays acceptable: so rows differ.
pub fn still_acceptable(rng: &mut Rng, dialect: &Dialect, event: &[u32]) -> Vec<u32> {
    let mut kept = event.to_vec();
    for _ in 0..rng.pick(&[4, 8, 30]) {
        let (at, bit) = (rng.below(event.len()), rng.below(dialect.word_bits()));
        flip_if_acceptable(dialect, &mut kept, at, bit);
    }
    kept
}

/// Flips a bit, the rest mended, where the event is then acceptable.
fn flip_if_acceptable(dialect: &Dialect, event: &mut Vec<u32>, at: usize, bit: usize) {
    let mut flipped = event.clone();
    flipped[at] ^= 1 << bit;
    if let Some(mend) = &dialect.mend {
        (mend.words)(&mut flipped);
    }
    if dialect.rows_of(&flipped, Order::DEFAULT).is_ok() {
        *event = flipped;
    }
}

/// The edge with most rows, and the same with every word changed that may change.
pub fn most_rows(dialect: &'static Dialect) -> Pair {
    let row_count =
        |event: &Vec<u32>| dialect.rows_of(event, Order::DEFAULT).map_or(0, |r| r.len());
    let event = dialect.edges().layouts.into_iter().max_by_key(row_count);
    let event = event.expect("a dialect has layouts");
    let mut other = event.clone();
    for at in 0..event.len() {
        flip_if_acceptable(dialect, &mut other, at, 0);
    }
    Pair::new(dialect, [event, other])
}
