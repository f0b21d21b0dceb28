//! Calls of the library's comparison: every room about what the lists need, events of any length
//! and width.

use super::pairs;
use crate::dialects::{Dialect, DIALECTS};
use crate::pairs::call::Call;
use crate::pairs::Pair;
use crate::rng::Rng;

/// For a run under valgrind: so many random calls, and one edge of so many.
const TEXT_CALLS: usize = 200;
const TEXT_STEP: usize = 97;

/// A random pair with rooms mostly near what its lists need.
pub fn random(rng: &mut Rng) -> Call {
    let dialect = DIALECTS[rng.below(DIALECTS.len())];
    let pair = match rng.below(20) {
        0 => over_largest(rng, dialect),
        1 => short(rng, dialect),
        2 | 3 => of_other_width(pairs::random(rng, dialect)),
        _ => pairs::random(rng, dialect),
    };
    let order = match rng.below(8) {
        0 => rng.pick(&[2, 256, 1 << 16, 1 << 31, u32::MAX]),
        choice => choice as u32 % 2,
    };
    let answer = rng.pick(&[0, 1, 2, 3, 3, 3, 4, 7]);
    let mut call = Call { pair, order, words: 0, rows: 0, answer };
    let [words, rows] = rooms(&call);
    call.words = near(rng, words);
    call.rows = near(rng, rows);
    if rng.chance(40) {
        // Where the word list does not fit, the row list is not looked at.
        call.words = call.words.max(words[0]);
    }
    call
}

/// For each list what it needs, then the rooms about it: none, one element and one entry less,
/// one element, an entry that is not whole, an entry and more besides.
fn rooms(call: &Call) -> [[usize; 8]; 2] {
    let entries = [call.pair.word_list().len(), call.pair.row_list(call.order()).len()];
    let about = |needed: usize, size: usize| {
        let less = |by| needed.saturating_sub(by);
        let more = |by| needed + by;
        [needed, 0, less(1), less(size), more(1), more(size - 1), more(size), more(20 * size)]
    };
    [about(3 * entries[0], 3), about(9 * entries[1], 9)]
}

fn near(rng: &mut Rng, rooms: [usize; 8]) -> usize {
    match rng.below(12) {
        0 => rooms[0],
        1 => rng.below(rooms[0] + 1),
        _ => rng.pick(&rooms),
    }
}

/// One event, or both, of more words than the largest has.
fn over_largest(rng: &mut Rng, dialect: &'static Dialect) -> Pair {
    let count = dialect.largest_event + rng.within(1, 9);
    let mut longer = dialect.mixed(rng);
    longer.extend(pairs::words(rng, dialect, count - longer.len()));
    let mut other = match rng.below(3) {
        0 => dialect.mixed(rng),
        _ => longer.clone(),
    };
    for _ in 0..rng.below(5) {
        let at = rng.below(other.len());
        other[at] ^= 1;
    }
    let mut events = [longer, other];
    if rng.chance(50) {
        events.reverse();
    }
    Pair::new(dialect, events)
}

/// None, one or two words each.
fn short(rng: &mut Rng, dialect: &'static Dialect) -> Pair {
    let counts = [rng.below(3), rng.below(3)];
    Pair::new(dialect, counts.map(|count| pairs::words(rng, dialect, count)))
}

/// The same numbers in words of the other width, as far as they fit.
fn of_other_width(mut pair: Pair) -> Pair {
    pair.bits = 48 - pair.bits;
    let largest = u32::MAX >> (32 - pair.bits);
    pair.events.iter_mut().flatten().for_each(|word| *word &= largest);
    pair
}

/// For each dialect small pairs with every room for either list, in their own width and in the
/// other, and the longest lists with room for them and with too little.
pub fn edges() -> Vec<Call> {
    let mut rng = Rng::new(1);
    let mut calls = Vec::new();
    for dialect in DIALECTS {
        for pair in small(&mut rng, dialect) {
            calls.extend(every_room(&pair));
            calls.extend(every_room(&of_other_width(pair)));
        }
        for pair in large(dialect) {
            let mut call = Call { pair, order: 0, words: 0, rows: 0, answer: 3 };
            let [words, rows] = rooms(&call).map(|rooms| rooms[0]);
            for (less_words, less_rows) in [(0, 0), (1, 0), (0, 1)] {
                call.words = words.saturating_sub(less_words);
                call.rows = rows.saturating_sub(less_rows);
                calls.push(call.clone());
            }
        }
    }
    calls
}

/// The smallest event with itself, a word changed, a word more, none and one of its words; no words
/// at all; events with a part more, and with other rows.
fn small(rng: &mut Rng, dialect: &'static Dialect) -> Vec<Pair> {
    let smallest = dialect.edges().smallest;
    let mut changed = smallest.clone();
    changed[smallest.len() - 1] ^= 1;
    let longer = [&changed[..], &[1]].concat();
    let others = [smallest.clone(), changed, longer, vec![], smallest[..1].to_vec()];
    let mut events: Vec<[Vec<u32>; 2]> = others.map(|other| [smallest.clone(), other]).to_vec();
    events.extend([[vec![], smallest], [vec![], vec![]]]);
    events.extend((0..4).map(|_| dialect.with_a_part_more(rng)));
    for _ in 0..4 {
        let event = dialect.mixed(rng);
        let other = pairs::still_acceptable(rng, dialect, &event);
        events.push([event, other]);
    }
    events.into_iter().map(|events| Pair::new(dialect, events)).collect()
}

fn every_room(pair: &Pair) -> Vec<Call> {
    let mut calls = Vec::new();
    for order in [0, 1, u32::MAX] {
        let call = Call { pair: pair.clone(), order, words: 0, rows: 0, answer: 3 };
        let [words_rooms, rows_rooms] = rooms(&call);
        for words in words_rooms {
            let with_rows = |rows| Call { words, rows, ..call.clone() };
            calls.extend(rows_rooms.map(with_rows));
        }
    }
    calls
}

/// The most differing rows, and events that differ in every word: of as many words as the largest,
/// and of one more.
fn large(dialect: &'static Dialect) -> Vec<Pair> {
    let differing =
        |count: usize| Pair::new(dialect, [vec![0; count], vec![dialect.largest_word(); count]]);
    let largest = dialect.largest_event;
    vec![pairs::most_rows(dialect), differing(largest), differing(largest + 1)]
}

/// Some edges and some random calls, as lines of text.
pub fn text() -> Vec<u8> {
    let mut rng = Rng::new(1);
    let random = (0..TEXT_CALLS).map(|_| random(&mut rng));
    edges().into_iter().step_by(TEXT_STEP).chain(random).flat_map(|call| call.text()).collect()
}
