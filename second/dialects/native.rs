//! What a dialect does on words of its own width, and the way to words of 32 bits and back.

use crate::base::{fill_rows, fill_words, Answer, Order, Refusal, Row};
use crate::rng::Rng;

/// The functions of a dialect, by the width of its words.
#[derive(Clone, Copy)]
pub enum Native {
    Bits16(&'static Functions<u16>),
    Bits32(&'static Functions<u32>),
}

/// A dialect's reading, writing and events. An event that is made is kept as its parts (packets
/// or blocks), so that damage can repair lengths and counts.
pub struct Functions<W: 'static> {
    /// The rows of an event, or its refusal: any but 12.
    pub rows_of: fn(&[W], Order) -> Result<Vec<Row>, Refusal>,
    /// The words of row elements, or their refusal: any but 24.
    pub words_of: fn(&[u32], Order) -> Result<Vec<W>, Refusal>,
    /// The words of an event of these parts.
    pub event_of: fn(&[Vec<W>]) -> Vec<W>,
    /// The parts of random acceptable events: of any size but mostly small, of the smallest, and
    /// of a large one.
    pub mixed: fn(&mut Rng) -> Vec<Vec<W>>,
    pub smallest: fn(&mut Rng) -> Vec<Vec<W>>,
    pub large: fn(&mut Rng) -> Vec<Vec<W>>,
    /// Of OPAQUE_EVENT words, all but few of them opaque; none where the dialect has no such words.
    pub opaque: Option<fn(&mut Rng) -> Vec<Vec<W>>>,
    /// An event damaged, its lengths and counts often repaired afterwards.
    pub damaged: fn(&mut Rng, Vec<Vec<W>>) -> Vec<W>,
    /// An event cut or filled to a size about the smallest or the largest.
    pub resized: fn(&mut Rng, &[W]) -> Vec<W>,
    pub edges: fn() -> Edges<W>,
}

/// The words of an event that is almost all opaque, and how many of them are so: the same share in
/// each dialect, so that their times can be compared.
pub const OPAQUE_EVENT: usize = 1024;
pub const OPAQUE_WORDS: usize = OPAQUE_EVENT - 16;

impl<W: Copy> Functions<W> {
    // Both are timed: inlined into the loop that times them, they would change its other works.

    #[inline(never)]
    pub fn read(&self, words: &[W], order: Order, room: &mut [u32]) -> Answer {
        fill_rows(&(self.rows_of)(words, order)?, room)
    }

    #[inline(never)]
    pub fn write(&self, elements: &[u32], order: Order, room: &mut [W]) -> Answer {
        fill_words(&(self.words_of)(elements, order)?, room)
    }

    /// An acceptable event, and the same as it is given: as it is or damaged.
    pub fn random(&self, rng: &mut Rng, is_damaged: bool) -> (Vec<W>, Vec<W>) {
        let parts = (self.mixed)(rng);
        let good = (self.event_of)(&parts);
        let given = match rng.below(700) {
            0 => (self.resized)(rng, &good),
            _ if is_damaged => (self.damaged)(rng, parts),
            _ => good.clone(),
        };
        (good, given)
    }

    /// An acceptable event, and the same with a part of another event, mostly near its end.
    pub fn with_a_part_more(&self, rng: &mut Rng) -> (Vec<W>, Vec<W>) {
        let (parts, mut others) = ((self.mixed)(rng), (self.mixed)(rng));
        let part = others.swap_remove(rng.below(others.len()));
        let place = match rng.below(6) {
            0 => rng.below(parts.len()),
            1 | 2 => parts.len() - 1,
            _ => parts.len(),
        };
        let mut more = parts.clone();
        more.insert(place, part);
        ((self.event_of)(&parts), (self.event_of)(&more))
    }
}

/// Systematic events, acceptable ones at every edge and refused ones beyond it.
pub struct Edges<W> {
    /// An event of the smallest size; where the documents spell one out, that one.
    pub smallest: Vec<W>,
    /// Every layout at and just beyond its edges.
    pub layouts: Vec<Vec<W>>,
    /// Every tag, known or not, and every length of the known ones. They are many: lines only.
    pub headers: Vec<Vec<W>>,
    pub probed: Vec<Probed<W>>,
    /// Events with their answers, among them all that break two rules at once.
    pub answered: Vec<Answered<W>>,
}

/// An event with its rows or its refusal, as worked out from the documents and not by the reading.
pub type Answered<W> = (Result<Vec<Row>, Refusal>, Vec<W>);

/// Events that are all refused.
pub fn refused<W>(events: Vec<(Refusal, Vec<W>)>) -> Vec<Answered<W>> {
    events.into_iter().map(|(refusal, words)| (Err(refusal), words)).collect()
}

/// A small acceptable event, of which each bit is flipped, from a word on, and each row is
/// changed, from a row on.
pub struct Probed<W> {
    pub words: Vec<W>,
    pub first_word: usize,
    pub first_row: usize,
}

impl Edges<u16> {
    pub fn widened(self) -> Edges<u32> {
        let all = |events: Vec<Vec<u16>>| events.iter().map(|words| widened(words)).collect();
        let probed = |Probed { words, first_word, first_row }: Probed<u16>| Probed {
            words: widened(&words),
            first_word,
            first_row,
        };
        let answered = self.answered.into_iter().map(|(answer, words)| (answer, widened(&words)));
        Edges {
            smallest: widened(&self.smallest),
            layouts: all(self.layouts),
            headers: all(self.headers),
            probed: self.probed.into_iter().map(probed).collect(),
            answered: answered.collect(),
        }
    }
}

pub fn widened(words: &[u16]) -> Vec<u32> {
    words.iter().map(|&word| u32::from(word)).collect()
}

/// Words of 16 bits that stand in 32 bits each.
pub fn narrowed(words: &[u32]) -> Vec<u16> {
    words.iter().map(|&word| word as u16).collect()
}
