//! Calls of the library's comparison, as text for pair_calls.c, and the answers to them.

use super::comparison::Pair;
use crate::base::{Order, Refusal};
use crate::lines::push_hex;

#[derive(Clone)]
pub struct Call {
    pub pair: Pair,
    /// 0 is crossed, any other number rising.
    pub order: u32,
    /// How many elements are lent for the word list, for the row list and for the answer.
    pub words: usize,
    pub rows: usize,
    pub answer: usize,
}

/// The entries of both lists, or the refusal.
pub type Answer = Result<[usize; 2], Refusal>;

impl Call {
    pub fn order(&self) -> Order {
        match self.order {
            0 => Order::Crossed,
            _ => Order::Rising,
        }
    }

    /// The call as a line of text: width, dialect, order, the lent elements of the three lists,
    /// then the words of each event without spaces, `-` for none.
    pub fn text(&self) -> Vec<u8> {
        let (bits, dialect) = (self.pair.bits, self.pair.dialect.number());
        let mut text = Vec::new();
        for number in [bits, dialect, self.order as usize, self.words, self.rows, self.answer] {
            push_hex(&mut text, number as u32, 8);
            text.push(b' ');
        }
        for (words, end) in self.pair.events.iter().zip(b" \n") {
            for &word in words {
                push_hex(&mut text, word, self.pair.bits / 4);
            }
            if words.is_empty() {
                text.push(b'-');
            }
            text.push(*end);
        }
        text
    }

    /// Makes the call and puts out every element that was lent: the answer's in one line, then
    /// those of the word list, three in a line, and those of the row list, nine in a line.
    pub fn push_answer(&self, text: &mut Vec<u8>) -> Answer {
        let mut words = vec![0xa5a5_a5a5_a5a5_a5a5; self.words];
        let mut rows = vec![0xa5a5_a5a5; self.rows];
        let mut numbers = vec![0xa5a5_a5a5_a5a5_a5a5; self.answer];
        let answer = self.pair.compare(self.order(), &mut words, &mut rows);
        if let [number, count_or_place, row_entries, ..] = &mut numbers[..] {
            [*number, *count_or_place, *row_entries] = match answer {
                Ok([words, rows]) => [0, words as u64, rows as u64],
                Err(Refusal { number, place }) => [u64::from(number), u64::from(place), 0],
            };
        }
        push_elements(text, "answer", &numbers);
        words.chunks(3).for_each(|entry| push_elements(text, "word", entry));
        for entry in rows.chunks(9) {
            text.extend_from_slice(b"row");
            for &number in entry {
                text.push(b' ');
                push_hex(text, number, 8);
            }
            text.push(b'\n');
        }
        answer
    }
}

/// A line of a name and numbers of 64 bits.
fn push_elements(text: &mut Vec<u8>, name: &str, numbers: &[u64]) {
    text.extend_from_slice(name.as_bytes());
    for &number in numbers {
        text.push(b' ');
        push_hex(text, (number >> 32) as u32, 8);
        push_hex(text, number as u32, 8);
    }
    text.push(b'\n');
}
