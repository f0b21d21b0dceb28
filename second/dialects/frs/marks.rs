//! What the generator of dialect F must have made, and what lines of it must have met.

use super::layout::{flag, kind, HEADER_FLAG, LARGEST_DATUM};
use super::make::module_geos;
use super::{read, write};
use crate::base::{Order, Refusal, Row};
use crate::dialects::{marks, Mark, Marks, Special};

const WITHOUT_BIT_14: &str = "a datum without bit 14 in channel";
const WITH_BIT_14: &str = "a datum with bit 14 in channel";

/// The marks of an acceptable event.
pub fn add(_: &[u32], rows: &[Row], marks: &mut Marks) {
    let mut add = |name: &str, number| marks.insert((name.to_string(), number));
    let has_unit = rows.iter().any(|row| row[0] == kind::PATTERN_UNIT);
    add("pattern unit", u32::from(has_unit));
    for row in rows {
        match row[0] {
            kind::SCALER_BLOCK => drop(add("scaler count", row[2])),
            kind::EMPTY_MODULE => drop(add("empty GEO", row[1])),
            kind::MODULE => {
                add("GEO", row[1]);
                add("module count", row[2]);
                add("counter", row[3]);
            }
            kind::VALUE => {
                add([WITHOUT_BIT_14, WITH_BIT_14][(row[3] >> 14 & 1) as usize], row[2]);
                add("value datum", row[3]);
            }
            _ => {}
        }
    }
}

pub fn wanted() -> Vec<Mark> {
    let mut wanted = marks("pattern unit", [0, 1]);
    wanted.extend(marks("scaler count", [1, 32]));
    wanted.extend(marks("module count", [1, 32]));
    wanted.extend(marks("empty GEO", module_geos()));
    wanted.extend(marks("GEO", module_geos()));
    wanted.extend(marks("counter", [0, 0xffff]));
    wanted.extend(marks(WITHOUT_BIT_14, 0..32));
    wanted.extend(marks(WITH_BIT_14, 0..32));
    wanted.extend(marks("value datum", [0, 0x3fff, 0x4000, 0x7fff]));
    wanted
}

const UNFINISHED: &str = "11 where the block does not fit";
const BIT_15: &str = "10 at bit 15 of a datum";
const TOO_LARGE: &str = "22 at a datum too large";
const ACCEPTED_CLEAR: &str = "accepted, bit 14 clear in the first datum";
const ACCEPTED_SET: &str = "accepted, bit 14 set in the first datum";

pub const SPECIAL: Special = Special {
    names: &[UNFINISHED, BIT_15, ACCEPTED_CLEAR, ACCEPTED_SET],
    name_of: |words, answer| match answer {
        Ok(_) => read::rows_of(words, Order::Crossed).ok().and_then(|rows| accepted(&rows)),
        Err(refusal) if is_unfinished(words, refusal) => Some(UNFINISHED),
        Err(refusal) if is_at_bit_15(words, refusal) => Some(BIT_15),
        _ => None,
    },
};

pub const SPECIAL_WRITING: Special = Special {
    names: &[TOO_LARGE, ACCEPTED_CLEAR, ACCEPTED_SET],
    name_of: |elements, answer| match answer {
        Ok(_) => accepted(elements.as_chunks().0),
        Err(refusal) => is_at_datum(elements, refusal).then_some(TOO_LARGE),
    },
};

/// By bit 14 of the first datum, where the rows have one.
fn accepted(rows: &[Row]) -> Option<&'static str> {
    let value = rows.iter().find(|row| row[0] == kind::VALUE)?;
    Some([ACCEPTED_CLEAR, ACCEPTED_SET][(value[3] >> 14 & 1) as usize])
}

/// Is it 11 at a module's header whose block does not fit?
fn is_unfinished(words: &[u32], refusal: Refusal) -> bool {
    let rest = words.get(refusal.place as usize..).unwrap_or(&[]);
    let is_header = rest.first().is_some_and(|&word| flag(word) == HEADER_FLAG);
    refusal.number == 11 && is_header && (rest[0] & 0x3f) as usize + 2 > rest.len()
}

/// Is it 10 at a longword that is not refused so without its bit 15? The first of the stamp, whose bit 15
/// is no datum's, is left out.
fn is_at_bit_15(words: &[u32], refusal: Refusal) -> bool {
    if refusal.number != 10 || refusal.place == 0 {
        return false;
    }
    let mut cleared = words.to_vec();
    cleared[refusal.place as usize] &= !0x8000;
    read::rows_of(&cleared, Order::Crossed) != Err(refusal)
}

/// Is it 22 at a value that is not refused so with the largest datum?
fn is_at_datum(elements: &[u32], refusal: Refusal) -> bool {
    if refusal.number != 22 {
        return false;
    }
    let mut lowered = elements.to_vec();
    let row = &mut lowered[4 * refusal.place as usize..][..4];
    if row[0] != kind::VALUE || row[3] <= LARGEST_DATUM {
        return false;
    }
    row[3] = LARGEST_DATUM;
    write::words_of(&lowered, Order::Crossed) != Err(refusal)
}
