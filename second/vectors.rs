//! The text form of calls of the reading and writing functions, and the answers to it.

use crate::base::{Answer, Order};
use crate::dialects::{Dialect, DIALECTS};
use crate::lines::push_hex;

/// The most elements that a vector may give or lend.
pub const MOST_ELEMENTS: usize = 16_800;

#[derive(Clone, Copy, PartialEq, Eq)]
pub enum Call {
    Write,
    Read,
}

pub struct Vector {
    pub call: Call,
    pub dialect: &'static Dialect,
    pub order: Order,
    /// How many elements are lent.
    pub room: usize,
    /// Row elements for a writing, words for a reading.
    pub elements: Vec<u32>,
}

impl Vector {
    pub fn writing(
        dialect: &'static Dialect,
        order: Order,
        room: usize,
        elements: Vec<u32>,
    ) -> Vector {
        Vector { call: Call::Write, dialect, order, room, elements }
    }

    pub fn reading(
        dialect: &'static Dialect,
        order: Order,
        room: usize,
        elements: Vec<u32>,
    ) -> Vector {
        Vector { call: Call::Read, dialect, order, room, elements }
    }

    /// The vector's text: a head line, then runs of equal lines of four elements.
    pub fn text(&self) -> Vec<u8> {
        let mut runs: Vec<(u32, [u32; 4])> = Vec::new();
        for chunk in self.elements.chunks(4) {
            let mut four = [0; 4];
            four[..chunk.len()].copy_from_slice(chunk);
            match runs.last_mut() {
                Some((repeat, last)) if *last == four => *repeat += 1,
                _ => runs.push((1, four)),
            }
        }
        let cut = (4 - self.elements.len() % 4) % 4;
        let order = if self.order == Order::Crossed { 0 } else { 1 };
        // The writings of all dialects have the first numbers, the readings the next.
        let call = self.call as usize * DIALECTS.len() + self.dialect.number();
        let head = [call as u32, order, self.room as u32, cut as u32, runs.len() as u32];
        let mut text = Vec::with_capacity(45 * (runs.len() + 1));
        push_numbers(&mut text, &head);
        for (repeat, [a, b, c, d]) in runs {
            push_numbers(&mut text, &[repeat, a, b, c, d]);
        }
        text
    }

    /// Makes the call and puts out its answer and the lent buffer.
    pub fn push_answer(&self, output: &mut Vec<u8>) -> Answer {
        let untouched = match self.call {
            Call::Write => 0xa5a5_a5a5 & self.dialect.largest_word(),
            Call::Read => 0xa5a5_a5a5,
        };
        let mut room = vec![untouched; self.room];
        let answer = match self.call {
            Call::Write => self.dialect.write(&self.elements, self.order, &mut room),
            Call::Read => self.dialect.read(&self.elements, self.order, &mut room),
        };
        push_outcome(output, answer);
        push_buffer(output, &room);
        answer
    }
}

fn push_numbers(text: &mut Vec<u8>, numbers: &[u32; 5]) {
    for (index, &number) in numbers.iter().enumerate() {
        if index > 0 {
            text.push(b' ');
        }
        push_hex(text, number, 8);
    }
    text.push(b'\n');
}

fn push_outcome(output: &mut Vec<u8>, answer: Answer) {
    match answer {
        Ok(count) => {
            output.extend_from_slice(b"accepted ");
            push_hex(output, count, 8);
        }
        Err(refusal) => {
            output.extend_from_slice(b"refused ");
            push_hex(output, refusal.number, 8);
            output.extend_from_slice(b" place ");
            push_hex(output, refusal.place, 8);
        }
    }
    output.push(b'\n');
}

/// One line for each maximal run of equal elements.
fn push_buffer(output: &mut Vec<u8>, buffer: &[u32]) {
    for run in buffer.chunk_by(|a, b| a == b) {
        push_hex(output, run.len() as u32, 8);
        output.push(b' ');
        push_hex(output, run[0], 8);
        output.push(b'\n');
    }
}

/// The vectors of a text, or what is wrong with it.
pub fn parse(text: &[u8]) -> Result<Vec<Vector>, String> {
    let text = std::str::from_utf8(text).map_err(|error| error.to_string())?;
    let mut lines = text.lines().enumerate();
    let mut vectors = Vec::new();
    while let Some((index, line)) = lines.next() {
        let [call, order, room, cut, runs] = parse_line(index, line)?;
        let bad_head = || format!("line {}: not a head line", index + 1);
        let (call, dialect) = call_of(call as usize).ok_or_else(bad_head)?;
        let order = *[Order::Crossed, Order::Rising].get(order as usize).ok_or_else(bad_head)?;
        let mut elements = Vec::new();
        for _ in 0..runs {
            let (index, line) = lines.next().ok_or("the text ends within a vector")?;
            let [repeat, four @ ..] = parse_line(index, line)?;
            if elements.len() + 4 * repeat as usize > MOST_ELEMENTS {
                return Err(format!("line {}: too many elements", index + 1));
            }
            for _ in 0..repeat {
                elements.extend_from_slice(&four);
            }
        }
        let kept = elements.len().checked_sub(cut as usize).ok_or_else(bad_head)?;
        elements.truncate(kept);
        let is_wide = |&word: &u32| call == Call::Read && word > dialect.largest_word();
        if room as usize > MOST_ELEMENTS || elements.iter().any(is_wide) {
            return Err(bad_head());
        }
        vectors.push(Vector { call, dialect, order, room: room as usize, elements });
    }
    Ok(vectors)
}

fn call_of(number: usize) -> Option<(Call, &'static Dialect)> {
    let call = *[Call::Write, Call::Read].get(number / DIALECTS.len())?;
    Some((call, DIALECTS[number % DIALECTS.len()]))
}

fn parse_line(index: usize, line: &str) -> Result<[u32; 5], String> {
    let mut numbers = [0; 5];
    let fields: Vec<&str> = line.split(' ').collect();
    if fields.len() != 5 {
        return Err(format!("line {}: not five numbers", index + 1));
    }
    for (number, field) in numbers.iter_mut().zip(fields) {
        *number = u32::from_str_radix(field, 16).map_err(|e| format!("line {}: {e}", index + 1))?;
    }
    Ok(numbers)
}
