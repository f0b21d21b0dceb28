//! What the driver second/page_calls.c takes, a line each: what it lends, and the calls of the page.

use super::Page;
use crate::lines::push_hex;

#[derive(Clone, PartialEq, Eq, Debug)]
pub enum Step {
    /// A page of these numbers is lent to the calls behind.
    LendPage(Vec<u64>),
    /// A room of so many words is lent to the calls behind; word i is (i + 1) × factor modulo 65,536.
    LendRoom {
        words: usize,
        factor: u16,
    },
    /// Words are put into the room, from a place on.
    Put {
        at: usize,
        words: Vec<u16>,
    },
    Call(Call),
}

/// A call, with the elements lent to it alone: for the answer, for an event's words, for the counts.
#[derive(Clone, PartialEq, Eq, Debug)]
pub enum Call {
    Clear,
    Add { answer: usize, words: Vec<u16> },
    Drop { answer: usize },
    Find { answer: usize, k: u64 },
    Event { words: usize, k: u64 },
    FindPlane { answer: usize },
    Plane { counts: usize },
}

/// The names of the calls, as the driver has them.
pub const NAMES: [&str; 7] = ["clear", "add", "drop", "find", "event", "find-plane", "plane"];

impl Step {
    pub fn lend_page(page: &Page) -> Step {
        Step::LendPage(page.numbers())
    }

    /// The step as a line of text, numbers in hexadecimal.
    pub fn text(&self) -> Vec<u8> {
        let mut text = match self {
            Step::LendPage(numbers) => line("page", &page_numbers(numbers)),
            Step::LendRoom { words, factor } => line("room", &[*words as u64, u64::from(*factor)]),
            Step::Put { at, words } => with_words(line("put", &[*at as u64]), words),
            Step::Call(call) => call.line(),
        };
        text.push(b'\n');
        text
    }
}

impl Call {
    pub fn name(&self) -> &'static str {
        NAMES[match self {
            Call::Clear => 0,
            Call::Add { .. } => 1,
            Call::Drop { .. } => 2,
            Call::Find { .. } => 3,
            Call::Event { .. } => 4,
            Call::FindPlane { .. } => 5,
            Call::Plane { .. } => 6,
        }]
    }

    fn line(&self) -> Vec<u8> {
        let name = self.name();
        match self {
            Call::Clear => line(name, &[]),
            Call::Add { answer, words } => with_words(line(name, &[*answer as u64]), words),
            Call::Find { answer: lent, k } | Call::Event { words: lent, k } => {
                line(name, &[*lent as u64, *k])
            }
            Call::Drop { answer: lent }
            | Call::FindPlane { answer: lent }
            | Call::Plane { counts: lent } => line(name, &[*lent as u64]),
        }
    }
}

/// How many numbers are lent, then these up to the last that is not 0.
fn page_numbers(numbers: &[u64]) -> Vec<u64> {
    let end = numbers.iter().rposition(|&number| number != 0).map_or(0, |last| last + 1);
    [&[numbers.len() as u64], &numbers[..end]].concat()
}

fn line(name: &str, numbers: &[u64]) -> Vec<u8> {
    let mut text = name.to_string();
    numbers.iter().for_each(|number| text += &format!(" {number:x}"));
    text.into_bytes()
}

/// The text, a space, and the words without spaces, `-` for none.
fn with_words(mut text: Vec<u8>, words: &[u16]) -> Vec<u8> {
    text.push(b' ');
    if words.is_empty() {
        text.push(b'-');
    }
    words.iter().for_each(|&word| push_hex(&mut text, u32::from(word), 4));
    text
}
