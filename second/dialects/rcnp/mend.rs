//! The sum set right again after a change: the last word, or the datum of the last row, where a
//! region 15 ends the words or the rows.

use super::layout::{header, kind, CHECK_SUM, MODULE, SUM_HEADER};

/// The words, each in 32 bits.
pub fn words(words: &mut [u32]) {
    let [before @ .., last] = words else { return };
    if before.last() == Some(&u32::from(SUM_HEADER)) {
        *last = missing(before.iter().map(|&word| word as u16));
    }
}

/// The elements of rows.
pub fn rows(elements: &mut [u32]) {
    let whole = elements.len() / 4 * 4;
    let [before @ .., kind::WORD, _, _, datum] = &mut elements[..whole] else { return };
    if before.ends_with(&[kind::REGION, CHECK_SUM, 1, 0]) {
        *datum = missing(before.chunks_exact(4).map(sum_of_row));
    }
}

/// What the sum of these lacks to 0 modulo 65,536.
fn missing(words: impl Iterator<Item = u16>) -> u32 {
    let sum = words.fold(0u16, |sum, word| sum.wrapping_add(word));
    u32::from(sum.wrapping_neg())
}

/// The word of a row, or the sum of its two words; any number where the row is no good one.
fn sum_of_row(row: &[u32]) -> u16 {
    let [unit, channel, datum] = [row[1], row[2], row[3]];
    match row[0] {
        kind::REGION => header(unit & 15, channel),
        kind::SCALER => (datum as u16).wrapping_add((datum >> 16) as u16),
        kind::MODULE => MODULE | ((channel & 7) << 11 | (datum & 7) << 8 | unit & 0xff) as u16,
        kind::TIME => ((channel & 31) << 10 | datum & 0x3ff) as u16,
        _ => datum as u16,
    }
}
