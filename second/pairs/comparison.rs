//! Where the words and the rows of two events of one dialect differ (02, #104).

use crate::base::{refuse, Order, Refusal, Row};
use crate::dialects::Dialect;

/// An entry of the word list: the index, the word of the first event, the word of the second.
pub type WordEntry = [u64; 3];
/// An entry of the row list: the index, the row of the first event, the row of the second.
pub type RowEntry = [u32; 9];

/// Two events, or what stands in for them.
#[derive(Clone)]
pub struct Pair {
    pub dialect: &'static Dialect,
    /// The width of the words. Words of another width than the dialect's are no event of it.
    pub bits: usize,
    /// The words of the first event and of the second, each in 32 bits.
    pub events: [Vec<u32>; 2],
}

impl Pair {
    /// With words of the dialect's width.
    pub fn new(dialect: &'static Dialect, events: [Vec<u32>; 2]) -> Pair {
        Pair { dialect, bits: dialect.word_bits(), events }
    }

    /// Each differing word below the shorter length.
    pub fn word_list(&self) -> Vec<WordEntry> {
        let [first, second] = &self.events;
        let entry = |i: usize| [i as u64, u64::from(first[i]), u64::from(second[i])];
        differing(first, second).into_iter().map(entry).collect()
    }

    /// The rows of each event that is acceptable.
    pub fn rows(&self, order: Order) -> [Option<Vec<Row>>; 2] {
        self.events.each_ref().map(|words| {
            let is_of_width = self.bits == self.dialect.word_bits();
            is_of_width.then(|| self.dialect.rows_of(words, order).ok()).flatten()
        })
    }

    /// Each differing row below the smaller number of rows; none unless both events are acceptable.
    pub fn row_list(&self, order: Order) -> Vec<RowEntry> {
        let [Some(first), Some(second)] = self.rows(order) else { return vec![] };
        let entry = |index: usize| {
            let mut entry = [index as u32; 9];
            entry[1..5].copy_from_slice(&first[index]);
            entry[5..].copy_from_slice(&second[index]);
            entry
        };
        differing(&first, &second).into_iter().map(entry).collect()
    }

    /// Puts both lists into the lent elements. The answer is the entries of each, or 25 with the
    /// entries that a list needs, the word list before the row list; then nothing is put.
    pub fn compare(
        &self,
        order: Order,
        words: &mut [u64],
        rows: &mut [u32],
    ) -> Result<[usize; 2], Refusal> {
        let (word_list, row_list) = (self.word_list(), self.row_list(order));
        if word_list.len() > words.len() / 3 {
            return refuse(25, word_list.len());
        }
        if row_list.len() > rows.len() / 9 {
            return refuse(25, row_list.len());
        }
        words[..3 * word_list.len()].copy_from_slice(&word_list.concat());
        rows[..9 * row_list.len()].copy_from_slice(&row_list.concat());
        Ok([word_list.len(), row_list.len()])
    }
}

/// The indices below the shorter length at which two lists differ.
fn differing<T: PartialEq>(first: &[T], second: &[T]) -> Vec<usize> {
    let shorter = first.len().min(second.len());
    (0..shorter).filter(|&index| first[index] != second[index]).collect()
}

/// What the longer of two events has beyond the other's length; the empty end of the first where
/// both are as long.
pub fn tail<'a>(first: &'a [u32], second: &'a [u32]) -> &'a [u32] {
    if second.len() > first.len() {
        &second[first.len()..]
    } else {
        &first[second.len()..]
    }
}
