//! Stored calls of dialect F that read or write 7 and about 1,062 longwords, and readings of data at
//! their limits with the room that their rows need.

use super::{datum_edges, edges, read, DIALECT};
use crate::base::{Order, Row};
use crate::vectors::Vector;

const ORDER: Order = Order::Crossed;

fn rows_of(words: &[u32]) -> Vec<Row> {
    read::rows_of(words, ORDER).expect("an edge event is acceptable")
}

pub fn readings() -> Vec<Vector> {
    let too_large = [edges::largest(), vec![0]].concat();
    let mut vectors = vec![Vector::reading(&DIALECT, ORDER, 16_800, too_large)];
    for words in [edges::smallest(), edges::largest(), edges::every_block()] {
        let needed = 4 * rows_of(&words).len();
        for room in [needed - 1, needed, needed + 5] {
            vectors.push(Vector::reading(&DIALECT, ORDER, room, words.clone()));
        }
    }
    for (answer, words) in datum_edges::answered() {
        let Ok(rows) = answer else { continue };
        vectors.push(Vector::reading(&DIALECT, ORDER, 4 * rows.len(), words));
    }
    vectors
}

pub fn writings() -> Vec<Vector> {
    let mut vectors = Vec::new();
    for words in [edges::smallest(), edges::largest()] {
        for room in [words.len() - 1, words.len()] {
            vectors.push(Vector::writing(&DIALECT, ORDER, room, rows_of(&words).concat()));
        }
    }
    vectors
}
