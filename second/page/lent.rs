//! What is lent to the calls of the page, and what they leave in it.

use super::call::{Call, Step};
use super::{Page, NUMBERS};
use crate::base::{Answer, Refusal};
use crate::lines::push_hex;

/// What the elements of a call's own buffers hold before it.
const UNTOUCHED: u64 = 0xa5a5_a5a5_a5a5_a5a5;
/// How many counts, or words, the text has in a line.
const IN_LINE: usize = 64;

/// The page's numbers and the room, as the steps so far leave them.
pub struct Lent {
    pub page: Vec<u64>,
    pub room: Vec<u16>,
    /// The room's hash, where it was asked for since the room's last change.
    hash: Option<u64>,
}

/// What came of a call: its answer, if it has one, and the elements lent to it alone.
pub struct Came {
    pub answer: Option<Answer>,
    numbers: Vec<u64>,
    words: Vec<u16>,
    pub counts: Vec<u32>,
}

impl Lent {
    pub fn new() -> Lent {
        Lent { page: vec![], room: vec![], hash: None }
    }

    pub fn page(&self) -> Page {
        Page::of(&self.page)
    }

    /// Takes a step; a call has an outcome.
    pub fn take(&mut self, step: &Step) -> Option<Came> {
        match step {
            Step::LendPage(numbers) => self.page = numbers.clone(),
            Step::LendRoom { words, factor } => {
                let word = |index: usize| (index + 1).wrapping_mul(usize::from(*factor)) as u16;
                (self.room, self.hash) = ((0..*words).map(word).collect(), None);
            }
            Step::Put { at, words } => {
                self.room[*at..*at + words.len()].copy_from_slice(words);
                self.hash = None;
            }
            Step::Call(call) => return Some(self.make(call)),
        }
        None
    }

    fn make(&mut self, call: &Call) -> Came {
        let mut page = self.page();
        match call {
            Call::Clear => {
                self.put_back(&Page::CLEARED);
                Came::none()
            }
            Call::Add { answer, words } => {
                let came = page.add(words, &mut self.room);
                self.hash = if came.is_ok() { None } else { self.hash };
                self.put_back(&page);
                Came::answer(*answer, came)
            }
            Call::Drop { answer } => {
                let came = page.drop_oldest(&self.room);
                self.put_back(&page);
                Came::answer(*answer, came)
            }
            Call::Find { answer, k } => Came::answer(*answer, page.find(*k, &self.room)),
            Call::Event { words, k } => {
                let words = filled(*words, UNTOUCHED as u16, page.event(*k, &self.room));
                Came { words, ..Came::none() }
            }
            Call::FindPlane { answer } => Came::answer(*answer, page.find_plane(&self.room)),
            Call::Plane { counts } => {
                let counts = filled(*counts, UNTOUCHED as u32, &page.plane(&self.room));
                Came { counts, ..Came::none() }
            }
        }
    }

    /// The page goes to the front of its numbers, where they are enough for it.
    fn put_back(&mut self, page: &Page) {
        if let Some(front) = self.page.get_mut(..NUMBERS) {
            front.copy_from_slice(&page.numbers());
        }
    }

    /// All that a call leaves, as text: its answer's elements in one line, the page's numbers in one,
    /// the room's hash, then the elements lent for an event's words or for the counts.
    pub fn push_text(&mut self, came: &Came, text: &mut Vec<u8>) {
        text.extend_from_slice(b"answer");
        came.numbers.iter().for_each(|number| text.extend(format!(" {number:016x}").bytes()));
        text.extend_from_slice(b"\npage");
        self.page.iter().for_each(|number| text.extend(format!(" {number:x}").bytes()));
        let room = &self.room;
        let hash = *self.hash.get_or_insert_with(|| hash_of(room));
        text.extend(format!("\nroom {hash:016x}\n").bytes());
        let words: Vec<u32> = came.words.iter().map(|&word| u32::from(word)).collect();
        push_elements(text, "words", &words, 4);
        push_elements(text, "counts", &came.counts, 8);
    }
}

impl Came {
    fn none() -> Came {
        Came { answer: None, numbers: vec![], words: vec![], counts: vec![] }
    }

    fn answer(lent: usize, answer: Answer) -> Came {
        let numbers = match answer {
            Ok(count) => [0, u64::from(count)],
            Err(Refusal { number, place }) => [u64::from(number), u64::from(place)],
        };
        let numbers = filled(lent, UNTOUCHED, &numbers);
        Came { answer: Some(answer), numbers, ..Came::none() }
    }
}

/// So many elements that hold the same, with these at the front, where there is room for all of them.
fn filled<T: Copy>(lent: usize, untouched: T, front: &[T]) -> Vec<T> {
    let mut elements = vec![untouched; lent];
    if front.len() <= lent {
        elements[..front.len()].copy_from_slice(front);
    }
    elements
}

/// Lines of a name and elements of so many digits.
fn push_elements(text: &mut Vec<u8>, name: &str, elements: &[u32], digits: usize) {
    for line in elements.chunks(IN_LINE) {
        text.extend_from_slice(name.as_bytes());
        for &element in line {
            text.push(b' ');
            push_hex(text, element, digits);
        }
        text.push(b'\n');
    }
}

/// FNV-1a of 64 bits over the words' bytes, low byte first.
fn hash_of(words: &[u16]) -> u64 {
    let add = |hash: u64, byte: u8| (hash ^ u64::from(byte)).wrapping_mul(0x0100_0000_01b3);
    words.iter().flat_map(|word| word.to_le_bytes()).fold(0xcbf2_9ce4_8422_2325, add)
}
