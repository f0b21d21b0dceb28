//! The kinds of pairs, of inputs and of calls that a long run must have met, each by what is so of
//! it and not by how it was made.

pub mod calls;
pub mod inputs;

use super::comparison::Pair;
use crate::base::Order;

/// A kind's name, and whether something is of it.
pub type Kind<T> = (&'static str, fn(&T) -> bool);

/// What the comparison of a pair comes to.
pub struct Compared {
    pub lengths: [usize; 2],
    pub differing_words: usize,
    /// The rows of each event that is acceptable.
    pub rows: [Option<usize>; 2],
    pub differing_rows: usize,
}

impl Compared {
    pub fn of(pair: &Pair, order: Order) -> Compared {
        Compared {
            lengths: pair.events.each_ref().map(Vec::len),
            differing_words: pair.word_list().len(),
            rows: pair.rows(order).map(|rows| rows.map(|rows| rows.len())),
            differing_rows: pair.row_list(order).len(),
        }
    }

    fn is_as_long(&self) -> bool {
        self.lengths[0] == self.lengths[1]
    }

    fn is_acceptable(&self) -> [bool; 2] {
        self.rows.map(|rows| rows.is_some())
    }
}

/// Of each dialect, for inputs and for calls.
pub const PAIRS: [Kind<Compared>; 13] = [
    ("equal", |c| c.differing_words == 0 && c.is_as_long()),
    ("one word differs", |c| c.differing_words == 1 && c.is_as_long()),
    ("several words differ", |c| c.differing_words > 1),
    ("one begins the other", |c| c.differing_words == 0 && !c.is_as_long()),
    ("first longer", |c| c.lengths[0] > c.lengths[1]),
    ("second longer", |c| c.lengths[0] < c.lengths[1]),
    ("no words", |c| c.lengths.contains(&0)),
    ("first alone refused", |c| c.is_acceptable() == [false, true]),
    ("second alone refused", |c| c.is_acceptable() == [true, false]),
    ("both refused", |c| c.is_acceptable() == [false, false]),
    ("several rows differ", |c| c.differing_rows > 1),
    ("first has more rows", |c| c.is_acceptable() == [true, true] && c.rows[0] > c.rows[1]),
    ("second has more rows", |c| c.is_acceptable() == [true, true] && c.rows[0] < c.rows[1]),
];

/// Of some dialect. In R hardly any pair is of these kinds: with a row the sum changes, and no
/// event goes on behind region 15.
pub const SOME_PAIRS: [Kind<Compared>; 2] = [
    ("one row differs", |c| c.differing_rows == 1),
    ("no row differs, one has more", |c| {
        c.is_acceptable() == [true, true] && c.differing_rows == 0 && c.rows[0] != c.rows[1]
    }),
];
