//! What the generator of dialect R must have made, and what its lines and calls must have met.

use super::layout::{
    id_of, kind, size_of, CHECK_SUM, DRIFT_CHAMBER, INPUT_REGISTER, MODULE, OPAQUE, REFUSED, SCALER,
};
use crate::base::{Answer, Row};
use crate::dialects::{marks, Mark, Marks, Special};

/// The marks of an acceptable event.
pub fn add(_: &[u32], rows: &[Row], marks: &mut Marks) {
    let mut add = |name: String, number| marks.insert((name, number));
    let mut earlier_ids = Vec::new();
    let (mut id, mut data_words) = (0, 0);
    for row in rows {
        match row[0] {
            kind::REGION => {
                id = row[1];
                add(format!("{id:x} size"), row[2]);
                if earlier_ids.contains(&id) {
                    add("id again".to_string(), id);
                }
                earlier_ids.push(id);
            }
            kind::WORD => drop(add(format!("{id:x} word"), row[3])),
            _ => {
                for (name, &number) in ["unit", "channel", "datum"].iter().zip(&row[1..]) {
                    add(format!("kind {} {name}", row[0]), number);
                }
            }
        }
        data_words = if row[0] == kind::TIME { data_words + 1 } else { 0 };
        add("data words of a module".to_string(), data_words);
    }
}

pub fn wanted() -> Vec<Mark> {
    let before_sum = [&OPAQUE[..], &[INPUT_REGISTER, SCALER, DRIFT_CHAMBER]].concat();
    let mut wanted = marks("id again", before_sum);
    for id in OPAQUE {
        wanted.extend(marks(&format!("{id:x} size"), [0, 1, 40]));
        wanted.extend(marks(&format!("{id:x} word"), [0, 0xffff]));
    }
    wanted.extend(marks("2 size", [1]));
    wanted.extend(marks("2 word", [0, 0xffff]));
    wanted.extend(marks("3 size", [4093]));
    wanted.extend(marks("6 size", [0, 2, 4, 32, 4092]));
    wanted.extend(marks("7 size", [0, 1, 2, 40, 4093]));
    wanted.extend(marks("f size", [1]));
    wanted.extend(marks("kind 34 channel", [0, 1, 15, 2045]));
    wanted.extend(marks("kind 34 datum", [0, 0xff_ffff]));
    wanted.extend(marks("kind 35 unit", 0..256));
    wanted.extend(marks("kind 35 channel", 0..8));
    wanted.extend(marks("kind 35 datum", 0..8));
    wanted.extend(marks("kind 36 channel", 0..32));
    wanted.extend(marks("kind 36 datum", [0, 0x3ff]));
    wanted.extend(marks("data words of a module", 0..8));
    wanted
}

const AT_REFUSED_ID: &str = "6 at a refused id";
const BEHIND_SUM: &str = "6 behind region 15";
const WITHOUT_SUM: &str = "6 without region 15";
const REGISTER_SIZE: &str = "7 of id 2";
const SCALER_SIZE: &str = "7 of id 6";
const SUM_SIZE: &str = "7 of id 15";
const UPPER_HALF: &str = "10 at an upper half";
const FIRST_WORD: &str = "10 at a first word without bit 15";
const BIT_14: &str = "10 at bit 14";

/// The kinds of 6, 7 and 10.
pub const READING: Special = Special {
    names: &[
        AT_REFUSED_ID,
        BEHIND_SUM,
        WITHOUT_SUM,
        REGISTER_SIZE,
        SCALER_SIZE,
        SUM_SIZE,
        UPPER_HALF,
        FIRST_WORD,
        BIT_14,
    ],
    name_of: name_of_reading,
};

/// Which kind of 6, 7 or 10 it is, by the region of its place and the ids before it.
fn name_of_reading(words: &[u32], answer: Answer) -> Option<&'static str> {
    let refusal = answer.err()?;
    let place = refusal.place as usize;
    let Some(&word) = words.get(place) else {
        return (refusal.number == 6).then_some(WITHOUT_SUM);
    };
    let (id, had_sum) = region_at(words, place)?;
    match refusal.number {
        6 if had_sum => Some(BEHIND_SUM),
        6 => REFUSED.contains(&id).then_some(AT_REFUSED_ID),
        7 if id == INPUT_REGISTER => Some(REGISTER_SIZE),
        7 if id == SCALER => Some(SCALER_SIZE),
        7 if id == CHECK_SUM => Some(SUM_SIZE),
        10 if id == SCALER => Some(UPPER_HALF),
        10 if id == DRIFT_CHAMBER && word & u32::from(MODULE) == 0 => Some(FIRST_WORD),
        10 if id == DRIFT_CHAMBER => Some(BIT_14),
        _ => None,
    }
}

/// The id of the region that a word lies in, and whether a region 15 stands before it.
fn region_at(words: &[u32], place: usize) -> Option<(u32, bool)> {
    let (mut at, mut had_sum) = (0, false);
    while let Some(&word) = words.get(at) {
        let (id, end) = (id_of(word as u16), at + 1 + size_of(word as u16) as usize);
        if place < end {
            return Some((id, had_sum));
        }
        had_sum |= id == CHECK_SUM;
        at = end;
    }
    None
}

const FIELD: &str = "22 at a field";
const WRONG_SUM: &str = "22 at a wrong sum";

/// The kinds of 22.
pub const WRITING: Special = Special { names: &[FIELD, WRONG_SUM], name_of: name_of_writing };

/// A row of kind 33 whose fields are in their ranges can only have a wrong sum.
fn name_of_writing(elements: &[u32], answer: Answer) -> Option<&'static str> {
    let refusal = answer.err().filter(|refusal| refusal.number == 22)?;
    let row = elements.chunks_exact(4).nth(refusal.place as usize)?;
    let is_good = matches!(row, [kind::WORD, 0, 0, 0..=0xffff]);
    Some(if is_good { WRONG_SUM } else { FIELD })
}
