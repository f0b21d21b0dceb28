//! Damage to row elements that go into a writing.

use crate::base::Row;
use crate::dialects::{Dialect, DIALECTS};
use crate::rng::Rng;
use crate::vectors::MOST_ELEMENTS;

/// Numbers just inside and just outside the range of some field.
pub const FIELD_LIMITS: [u32; 34] = [
    0, 1, 3, 4, 5, 6, 7, 8, 11, 12, 15, 16, 31, 32, 33, 0x3f, 0x40, 0xff, 0x100, 0x1ff, 0x200,
    0x3ff, 0x400, 0xfff, 0x1000, 0x1fff, 0x2000, 0x3fff, 0x4000, 0x7fff, 0x8000, 0xffff, 0x1_0000,
    0xffffffff,
];

/// The elements of rows, damaged in one or two ways, then often mended.
pub fn damaged(rng: &mut Rng, dialect: &Dialect, rows: &[Row]) -> Vec<u32> {
    let mut rows = rows.to_vec();
    for _ in 0..rng.pick(&[1, 1, 1, 2]) {
        if rows.is_empty() {
            break;
        }
        match (rng.below(12), dialect.rows.damage) {
            (0..=2, Some(damage)) => damage(rng, &mut rows),
            (0..=4, _) => damage_list(rng, &mut rows),
            (5..=8, _) => damage_kind(rng, &mut rows),
            _ => damage_field(rng, dialect, &mut rows),
        }
    }
    let mut elements = rows.concat();
    if rng.chance(4) {
        let loss = rng.within(1, 7).min(elements.len());
        elements.truncate(elements.len() - loss);
    }
    elements.truncate(MOST_ELEMENTS);
    dialect.mend_rows(rng, &mut elements);
    elements
}

/// Rows lost, doubled, swapped or cut off; the end is a place as likely as a random one.
fn damage_list(rng: &mut Rng, rows: &mut Vec<Row>) {
    let one = if rng.chance(40) { rows.len() - 1 } else { rng.below(rows.len()) };
    let other = rng.below(rows.len());
    match rng.below(6) {
        0 => drop(rows.remove(one)),
        1 => rows.insert(one, rows[one]),
        2 => rows.insert(other, rows[one]),
        3 => rows.swap(one, other),
        4 => rows.truncate(one),
        _ => rows.push(rows[other]),
    }
}

/// The kind of a row, or the tag of a row that has one, replaced. Damage before may have given
/// the row a kind of any dialect.
fn damage_kind(rng: &mut Rng, rows: &mut [Row]) {
    let at = rng.below(rows.len());
    let row = &mut rows[at];
    let mut tag_kinds = DIALECTS.iter().flat_map(|dialect| dialect.rows.tag_kinds);
    match tag_kinds.find(|(kind, _)| *kind == row[0]) {
        Some((_, any_tag)) if rng.chance(70) => row[1] = any_tag(rng),
        _ => {
            row[0] = match rng.below(4) {
                0 => row[0].wrapping_add(1),
                1 => row[0].wrapping_sub(1),
                2 => row[0] | 1 << rng.below(32),
                _ => rng.below(last_kind() as usize + 1) as u32,
            }
        }
    }
}

/// The last of the kinds tried of any dialect.
fn last_kind() -> u32 {
    DIALECTS.iter().fold(0, |last, dialect| last.max(*dialect.rows.kinds.end()))
}

/// A field off by one, at another limit, taken from another row, or a zero field set.
fn damage_field(rng: &mut Rng, dialect: &Dialect, rows: &mut [Row]) {
    let at = rng.below(rows.len());
    let field = rng.within(1, 3);
    let taken = rows[rng.below(rows.len())][field];
    let value = &mut rows[at][field];
    *value = match rng.below(6) {
        0 => value.wrapping_add(1),
        1 => value.wrapping_sub(1),
        2 => taken,
        3 => *value ^ 1 << rng.below(32),
        _ => rng.pick(dialect.rows.any_limits),
    };
}
