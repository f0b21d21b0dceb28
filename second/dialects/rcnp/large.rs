//! Stored calls of dialect R that read or write about 2 and about 4,096 words.

use super::layout::{kind, CHECK_SUM, DRIFT_CHAMBER, LARGEST_SIZE, OPAQUE, SUM_HEADER};
use super::{edges, mend, read, DIALECT};
use crate::base::{Order, Row};
use crate::dialects::widened;
use crate::vectors::Vector;

/// An event of so many words, one opaque region before the sum.
fn filled(words: usize) -> Vec<u16> {
    edges::with(&[edges::filled(OPAQUE[6], words - 3, 0)])
}

pub fn readings() -> Vec<Vector> {
    let mut vectors = Vec::new();
    let modules = edges::with(&[edges::filled(DRIFT_CHAMBER, edges::FULLEST, 0)]);
    let [smaller, largest, larger] = [4095, 4096, 4097].map(filled);
    for (index, words) in
        [edges::smallest(), filled(3), smaller, largest, larger, modules].iter().enumerate()
    {
        let order = [Order::Crossed, Order::Rising][index % 2];
        let needed = 4 * read::rows_of(words, order).map_or(8, |rows| rows.len());
        for room in [needed - 4, needed - 1, needed, needed + 3, 0] {
            vectors.push(Vector::reading(&DIALECT, order, room, widened(words)));
        }
    }
    // A wrong sum comes before too little room, and too many words before both.
    for words in [filled(4096), filled(4097), vec![SUM_HEADER, 0]] {
        let mut wrong = widened(&words);
        wrong[words.len() - 1] ^= 1;
        vectors.push(Vector::reading(&DIALECT, Order::Rising, 0, wrong));
    }
    vectors
}

/// The elements of rows that need so many words, an opaque region and then empty ones before the
/// sum, which is right.
fn elements_of(words: usize) -> Vec<u32> {
    let mut rows: Vec<Row> = Vec::new();
    if words > 2 {
        let size = (words - 3).min(LARGEST_SIZE as usize);
        rows.push([kind::REGION, OPAQUE[0], size as u32, 0]);
        rows.extend(vec![[kind::WORD, 0, 0, 0xffff]; size]);
        rows.extend(vec![[kind::REGION, OPAQUE[1], 0, 0]; words - 3 - size]);
    }
    rows.extend([[kind::REGION, CHECK_SUM, 1, 0], [kind::WORD, 0, 0, 0]]);
    let mut elements = rows.concat();
    mend::rows(&mut elements);
    elements
}

pub fn writings() -> Vec<Vector> {
    let mut vectors = Vec::new();
    for words in [2, 3, 4, 4095, 4096, 4097, 4098, 4198] {
        let elements = elements_of(words);
        for room in [0, words - 1, words, words + 1, 4096, 16_800] {
            let order = if room % 2 == 0 { Order::Crossed } else { Order::Rising };
            vectors.push(Vector::writing(&DIALECT, order, room, elements.clone()));
        }
        // A wrong sum comes before 23 and 24, a row too many before the sum.
        let mut wrong = elements;
        *wrong.last_mut().expect("the sum's row is there") ^= 1;
        for room in [0, words] {
            vectors.push(Vector::writing(&DIALECT, Order::Rising, room, wrong.clone()));
        }
        wrong.extend([kind::REGION, OPAQUE[0], 0, 0]);
        vectors.push(Vector::writing(&DIALECT, Order::Crossed, words, wrong));
    }
    vectors
}
