//! A row of the table: what the rest of the program knows of a dialect, on words of 32 bits each.

use super::native::{narrowed, widened, Edges, Native};
use super::DIALECTS;
use crate::base::{Answer, Order, Refusal, Row};
use crate::rng::Rng;
use crate::vectors::Vector;
use std::collections::BTreeSet;
use std::ops::RangeInclusive;

pub struct Dialect {
    /// The letter that begins its lines.
    pub letter: char,
    /// The fewest and the most words of an event.
    pub smallest_event: usize,
    pub largest_event: usize,
    pub native: Native,
    pub rows: Rows,
    /// None where no number is fixed by the whole event, or where the parts' own repair sets it.
    pub mend: Option<Mend>,
    pub wanted: Wanted,
    /// Stored calls at the smallest and the largest sizes, with the rooms around what they need, and
    /// calls whose answer is to be no refusal for want of room.
    pub large_readings: fn() -> Vec<Vector>,
    pub large_writings: fn() -> Vec<Vector>,
    /// Checks the cases that the documents spell out.
    pub check_cases: fn() -> Result<(), String>,
}

/// What is tried on the rows of a dialect.
pub struct Rows {
    /// Its kinds and those beside them.
    pub kinds: RangeInclusive<u32>,
    /// The kinds whose unit is a tag, each with what makes a random tag, known or not.
    pub tag_kinds: &'static [(u32, fn(&mut Rng) -> u32)],
    /// Values just inside and just outside the range of a field (1 unit, 2 channel, 3 datum) of
    /// a row.
    pub limits: fn(&Row, usize) -> Vec<u32>,
    /// The same for some field of some row.
    pub any_limits: &'static [u32],
    /// Lists of row elements at edges that concern several rows.
    pub lists: fn() -> Vec<Vec<u32>>,
    /// Damage to what several rows must say alike, where a random change would seldom reach it.
    pub damage: Option<fn(&mut Rng, &mut Vec<Row>)>,
    /// Elements that need about or more words than the largest event, made from the rows of an
    /// event of so many words. None where no rows need more (no refusal 23).
    pub too_many: Option<fn(&mut Rng, &[Row], usize) -> Vec<u32>>,
}

/// What sets right again, after a change of words or of row elements, the numbers that the whole
/// event fixes: a sum, a count of words. Without it a damaged event would hardly ever be accepted.
pub struct Mend {
    pub words: fn(&mut [u32]),
    pub rows: fn(&mut [u32]),
}

/// What a long comparison, the stored texts and the generator must have met.
pub struct Wanted {
    /// The refusals of readings, 12 aside, and of writings.
    pub reading: &'static [u32],
    pub writing: &'static [u32],
    /// Of lines and readings, from the words, and of writings, from the row elements.
    pub special: Special,
    pub special_writing: Special,
    /// Adds the marks of an acceptable event, from its words and rows.
    pub add_marks: fn(&[u32], &[Row], &mut Marks),
    pub marks: fn() -> Vec<Mark>,
}

/// Answers that their refusal number alone does not tell: their names, and which of them, if any,
/// an answer to what was given is.
pub struct Special {
    pub names: &'static [&'static str],
    pub name_of: fn(&[u32], Answer) -> Option<&'static str>,
}

impl Special {
    pub const NONE: Special = Special { names: &[], name_of: |_, _| None };
}

/// What an event shows: a name and a number, such as a tag and a length.
pub type Mark = (String, u32);
pub type Marks = BTreeSet<Mark>;

/// Marks of one name with several numbers.
pub fn marks(name: &str, numbers: impl IntoIterator<Item = u32>) -> Vec<Mark> {
    numbers.into_iter().map(|number| (name.to_string(), number)).collect()
}

/// Words of one event, or of what stands in for one, each in 32 bits, with their dialect.
pub struct Words {
    pub dialect: &'static Dialect,
    pub words: Vec<u32>,
}

impl Words {
    /// The rows, or the refusal: any but 12.
    pub fn rows(&self, order: Order) -> Result<Vec<Row>, Refusal> {
        self.dialect.rows_of(&self.words, order)
    }
}

impl Dialect {
    /// The dialect's place in the table, its number in vectors and in the calls of bench/.
    pub fn number(&self) -> usize {
        let place = DIALECTS.iter().position(|dialect| dialect.letter == self.letter);
        place.expect("a dialect is a row of the table")
    }

    pub fn word_bits(&self) -> usize {
        match self.native {
            Native::Bits16(_) => 16,
            Native::Bits32(_) => 32,
        }
    }

    /// The hexadecimal digits of a word on a line.
    pub fn digits(&self) -> usize {
        self.word_bits() / 4
    }

    pub fn largest_word(&self) -> u32 {
        u32::MAX >> (32 - self.word_bits())
    }

    pub fn rows_of(&self, words: &[u32], order: Order) -> Result<Vec<Row>, Refusal> {
        match self.native {
            Native::Bits16(functions) => (functions.rows_of)(&narrowed(words), order),
            Native::Bits32(functions) => (functions.rows_of)(words, order),
        }
    }

    pub fn read(&self, words: &[u32], order: Order, room: &mut [u32]) -> Answer {
        match self.native {
            Native::Bits16(functions) => functions.read(&narrowed(words), order, room),
            Native::Bits32(functions) => functions.read(words, order, room),
        }
    }

    pub fn write(&self, elements: &[u32], order: Order, room: &mut [u32]) -> Answer {
        match self.native {
            Native::Bits16(functions) => {
                let mut short_room = narrowed(room);
                let answer = functions.write(elements, order, &mut short_room);
                room.copy_from_slice(&widened(&short_room));
                answer
            }
            Native::Bits32(functions) => functions.write(elements, order, room),
        }
    }

    /// A random acceptable event.
    pub fn mixed(&self, rng: &mut Rng) -> Vec<u32> {
        match self.native {
            Native::Bits16(functions) => widened(&(functions.event_of)(&(functions.mixed)(rng))),
            Native::Bits32(functions) => (functions.event_of)(&(functions.mixed)(rng)),
        }
    }

    /// A random acceptable event, almost all of its words opaque.
    pub fn opaque(&self, rng: &mut Rng) -> Option<Vec<u32>> {
        match self.native {
            Native::Bits16(functions) => {
                functions.opaque.map(|opaque| widened(&(functions.event_of)(&opaque(rng))))
            }
            Native::Bits32(functions) => {
                functions.opaque.map(|opaque| (functions.event_of)(&opaque(rng)))
            }
        }
    }

    /// A random acceptable event, and the same as it is given: as it is or damaged, then often
    /// mended.
    pub fn random(&'static self, rng: &mut Rng, is_damaged: bool) -> (Words, Words) {
        let (good, mut given) = match self.native {
            Native::Bits16(functions) => {
                let (good, given) = functions.random(rng, is_damaged);
                (widened(&good), widened(&given))
            }
            Native::Bits32(functions) => functions.random(rng, is_damaged),
        };
        if given != good {
            self.mend_words(rng, &mut given);
        }
        (Words { dialect: self, words: good }, Words { dialect: self, words: given })
    }

    /// A random acceptable event, and the same with a part of another event, then often mended.
    pub fn with_a_part_more(&self, rng: &mut Rng) -> [Vec<u32>; 2] {
        let (fewer, mut more) = match self.native {
            Native::Bits16(functions) => {
                let (fewer, more) = functions.with_a_part_more(rng);
                (widened(&fewer), widened(&more))
            }
            Native::Bits32(functions) => functions.with_a_part_more(rng),
        };
        self.mend_words(rng, &mut more);
        [fewer, more]
    }

    /// Mends words that were damaged, half of the times.
    pub fn mend_words(&self, rng: &mut Rng, words: &mut [u32]) {
        match &self.mend {
            Some(mend) if rng.chance(50) => (mend.words)(words),
            _ => {}
        }
    }

    /// The same for row elements.
    pub fn mend_rows(&self, rng: &mut Rng, elements: &mut [u32]) {
        match &self.mend {
            Some(mend) if rng.chance(50) => (mend.rows)(elements),
            _ => {}
        }
    }

    pub fn edges(&self) -> Edges<u32> {
        match self.native {
            Native::Bits16(functions) => (functions.edges)().widened(),
            Native::Bits32(functions) => (functions.edges)(),
        }
    }
}
