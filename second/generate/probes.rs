//! Systematic changes of small acceptable events: every bit of their words flipped; of their rows
//! every field just inside and just outside its range, every kind in every place, rows missing
//! and rows too many. Where the dialect can mend such a change, it is tried as it is and mended.

use crate::base::{Order, Row};
use crate::dialects::Dialect;

/// The words of events with a single bit flipped.
pub fn flips(dialect: &Dialect) -> Vec<Vec<u32>> {
    let bits = dialect.word_bits();
    let mut events = Vec::new();
    for probed in dialect.edges().probed {
        for bit in bits * probed.first_word..bits * probed.words.len() {
            let mut flipped = probed.words.clone();
            flipped[bit / bits] ^= 1 << (bit % bits);
            events.push(flipped);
        }
    }
    and_mended(events, dialect.mend.as_ref().map(|mend| mend.words))
}

/// The lists, each followed by itself mended where that is another one.
fn and_mended(lists: Vec<Vec<u32>>, mend: Option<fn(&mut [u32])>) -> Vec<Vec<u32>> {
    let Some(mend) = mend else { return lists };
    let mut all = Vec::new();
    for list in lists {
        let mut mended = list.clone();
        mend(&mut mended);
        let is_other = mended != list;
        all.push(list);
        if is_other {
            all.push(mended);
        }
    }
    all
}

/// The elements of changed rows for the writing.
pub fn changed_rows(dialect: &Dialect) -> Vec<Vec<u32>> {
    let rows_of = |words: &[u32]| {
        dialect.rows_of(words, Order::Crossed).expect("a probed event is acceptable")
    };
    let probed = dialect.edges().probed;
    let mut lists = Vec::new();
    for event in &probed {
        lists.extend(changed(dialect, &rows_of(&event.words), event.first_row));
    }
    lists = and_mended(lists, dialect.mend.as_ref().map(|mend| mend.rows));
    let elements = rows_of(&probed[0].words).concat();
    lists.extend((1..8).map(|cut| elements[..elements.len() - cut].to_vec()));
    lists
}

/// The rows with one of them changed, from an index on.
fn changed(dialect: &Dialect, rows: &[Row], from: usize) -> Vec<Vec<u32>> {
    let mut lists = Vec::new();
    for index in from..rows.len() {
        for field in 1..4 {
            for value in (dialect.rows.limits)(&rows[index], field).into_iter().chain([u32::MAX]) {
                lists.push(with_field(rows, index, field, value));
            }
        }
        for kind in dialect.rows.kinds.clone() {
            lists.push(with_field(&rows[..=index], index, 0, kind));
        }
        // The row once more, the row left out, and the rows up to it.
        lists.push([&rows[..=index], &rows[index..]].concat().concat());
        lists.push([&rows[..index], &rows[index + 1..]].concat().concat());
        lists.push(rows[..index].concat());
    }
    lists
}

fn with_field(rows: &[Row], index: usize, field: usize, value: u32) -> Vec<u32> {
    let mut changed = rows.to_vec();
    changed[index][field] = value;
    changed.concat()
}
