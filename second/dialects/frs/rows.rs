//! What is tried on the rows of dialect F, in its writing.

use super::layout::kind;
use super::{datum_edges, edges, read};
use crate::base::{Order, Row};

/// Values at the limits of a field (1 unit, 2 channel, 3 datum) of a row.
pub fn limits(row: &Row, field: usize) -> Vec<u32> {
    let whole: &[u32] = &[0xffff, 0x1_0000];
    let zero: &[u32] = &[1];
    let values: &[u32] = match (row[0], field) {
        (kind::STAMP, _) | (kind::PATTERN_UNIT, 2 | 3) | (kind::MODULE, 3) => whole,
        (kind::SCALER_BLOCK | kind::SCALER | kind::PATTERN_UNIT, 1) => &[0, 4, 5, 6, 7],
        (kind::SCALER_BLOCK | kind::MODULE, 2) => &[0, 1, 2, 3, 32, 33],
        (kind::SCALER, 2) => &[0, 1, 2],
        (kind::SCALER, 3) => &[0, 0x1_0000],
        (kind::EMPTY_MODULE | kind::MODULE, 1) => &[0, 4, 5, 6, 7, 8, 13, 31, 32],
        (kind::VALUE, 1) => &[0, 5, 8, 12, 13, 14, 31],
        (kind::VALUE, 2) => &[0, 1, 31, 32],
        (kind::VALUE, 3) => &[0, 0x3fff, 0x4000, 0x7fff, 0x8000, 0x1_0000],
        _ => zero,
    };
    values.to_vec()
}

/// All modules, and one more; the lists of datum_edges.rs.
pub fn lists() -> Vec<Vec<u32>> {
    let largest = read::rows_of(&edges::largest(), Order::Crossed);
    let rows = largest.expect("an edge event is acceptable");
    let mut lists = vec![[rows, vec![[kind::EMPTY_MODULE, 0, 0, 0]]].concat().concat()];
    lists.extend(datum_edges::row_lists());
    lists
}
