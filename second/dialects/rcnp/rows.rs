//! What is tried on the rows of dialect R, in its writing.

use super::layout::{kind, LARGEST_SIZE, OPAQUE, SCALER};
use super::two_faults;
use crate::base::Row;
use crate::rng::Rng;
use crate::vectors::MOST_ELEMENTS;

/// Numbers just inside and just outside the range of some field.
pub const ANY_LIMITS: [u32; 26] = [
    0, 1, 2, 3, 4, 5, 6, 7, 8, 9, 14, 15, 16, 31, 32, 0xff, 0x100, 0x3ff, 0x400, 0xfff, 0x1000,
    0xffff, 0x1_0000, 0xff_ffff, 0x100_0000, 0xffffffff,
];

/// Values at the limits of a field (1 unit, 2 channel, 3 datum) of a row.
pub fn limits(row: &Row, field: usize) -> Vec<u32> {
    let values: &[u32] = match (row[0], field) {
        (kind::REGION, 1) => &[0, 1, 2, 3, 5, 6, 7, 8, 9, 14, 15, 16],
        (kind::REGION, 2) => &[0, 1, 2, 3, 4, 5, 0xfff, 0x1000],
        (kind::WORD, 3) => &[0, 0xffff, 0x1_0000],
        (kind::SCALER, 2) => &[0, 1, 2],
        (kind::SCALER, 3) => &[0, 0xff_ffff, 0x100_0000],
        (kind::MODULE, 1) => &[0, 0xff, 0x100],
        (kind::MODULE, 2 | 3) => &[0, 7, 8],
        (kind::TIME, 2) => &[0, 31, 32],
        (kind::TIME, 3) => &[0, 0x3ff, 0x400],
        _ => &[1],
    };
    values.to_vec()
}

/// An id of a row of kind 32, known or not.
pub fn any_id(rng: &mut Rng) -> u32 {
    match rng.below(8) {
        0 => rng.pick(&[16, 18, 1 << 16, 1 << 31]),
        _ => rng.below(16) as u32,
    }
}

/// The lists whose refusal is known.
pub fn lists() -> Vec<Vec<u32>> {
    two_faults::writings().into_iter().map(|(_, rows)| rows.concat()).collect()
}

/// Rows that need about or more than 4,096 words: an opaque region or scalers, then empty regions,
/// are put in before those of the sum, which is then wrong.
pub fn too_many(rng: &mut Rng, rows: &[Row], words_now: usize) -> Vec<u32> {
    let wanted = rng.pick(&[4095, 4096, 4097, 4098, 4099, 4100, 4500, 6000]).max(words_now);
    let missing = wanted - words_now;
    let (before, sum) = rows.split_at(rows.len() - 2);
    let mut all = before.to_vec();
    if missing >= 1 {
        let most = (missing - 1).min(LARGEST_SIZE as usize);
        let (id, size) = match rng.below(3) {
            0 => (SCALER, most / 2 * 2),
            1 => (rng.pick(&OPAQUE), most),
            _ => (rng.pick(&OPAQUE), most.min(1500)),
        };
        all.push([kind::REGION, id, size as u32, 0]);
        match id {
            SCALER => all.extend((0..size as u32 / 2).map(|n| [kind::SCALER, 0, n, 0xff_ffff])),
            _ => all.extend(vec![[kind::WORD, 0, 0, 0x5a5a]; size]),
        }
        all.extend(vec![[kind::REGION, OPAQUE[0], 0, 0]; missing - 1 - size]);
    }
    // Where the elements are too many, empty regions are left out, and not the sum.
    all.truncate(MOST_ELEMENTS / 4 - sum.len());
    all.extend_from_slice(sum);
    all.concat()
}
