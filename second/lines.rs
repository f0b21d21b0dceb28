//! The hexadecimal lines and the listing (01, "The hexadecimal lines").

use crate::base::{refuse, Answer, Order, Refusal};
use crate::dialects::{Dialect, Words, DIALECTS};

/// The most characters (bytes) before the line feed.
pub const LONGEST_LINE: usize = 20_481;
pub const MOST_LINES: usize = 1_000_000;

/// One line without its line feed; refusal 30 for anything but the form of 01.
pub fn words_of_line(line: &[u8]) -> Result<Words, Refusal> {
    if line.len() > LONGEST_LINE {
        return refuse(30, 0);
    }
    let Some((&letter, rest)) = line.split_first() else { return refuse(30, 0) };
    match DIALECTS.into_iter().find(|dialect| dialect.letter as u8 == letter) {
        Some(dialect) => Ok(Words { dialect, words: numbers(rest, dialect.digits())? }),
        None => refuse(30, 0),
    }
}

/// For each word a space and so many lower-case hexadecimal digits.
fn numbers(text: &[u8], digits: usize) -> Result<Vec<u32>, Refusal> {
    let mut numbers = Vec::with_capacity(text.len() / (digits + 1));
    for group in text.chunks(digits + 1) {
        if group.len() != digits + 1 || group[0] != b' ' {
            return refuse(30, 0);
        }
        let mut number = 0;
        for &character in &group[1..] {
            number = number << 4 | digit_value(character)?;
        }
        numbers.push(number);
    }
    Ok(numbers)
}

fn digit_value(character: u8) -> Result<u32, Refusal> {
    match character {
        b'0'..=b'9' => Ok(u32::from(character - b'0')),
        b'a'..=b'f' => Ok(u32::from(character - b'a') + 10),
        _ => refuse(30, 0),
    }
}

/// The line of some words, without line feed.
pub fn line_of(dialect: &Dialect, words: &[u32]) -> Vec<u8> {
    let mut line = Vec::with_capacity(words.len() * (dialect.digits() + 1) + 1);
    line.push(dialect.letter as u8);
    for &word in words {
        line.push(b' ');
        push_hex(&mut line, word, dialect.digits());
    }
    line
}

/// The most words of a line.
pub fn most_words(dialect: &Dialect) -> usize {
    LONGEST_LINE / (dialect.digits() + 1)
}

pub fn push_hex(text: &mut Vec<u8>, number: u32, digits: usize) {
    for place in (0..digits).rev() {
        text.push(b"0123456789abcdef"[(number >> (4 * place) & 15) as usize]);
    }
}

/// The line at the front of a text, none where the text is empty, and what follows its line feed.
pub fn next_line(text: &[u8]) -> (Option<&[u8]>, &[u8]) {
    match text.iter().position(|&byte| byte == b'\n') {
        Some(end) => (Some(&text[..end]), &text[end + 1..]),
        None => ((!text.is_empty()).then_some(text), b""),
    }
}

/// Lists a whole input. Each line's words, if it has the form of a line, and its answer are given
/// to `note` as well.
pub fn list(
    input: &[u8],
    order: Order,
    output: &mut Vec<u8>,
    note: &mut dyn FnMut(Option<&Words>, Answer),
) {
    let (mut accepted, mut refused) = (0, 0);
    let mut left = input;
    let mut is_cut = false;
    while let (Some(line), rest) = next_line(left) {
        if accepted + refused == MOST_LINES {
            is_cut = true;
            break;
        }
        left = rest;
        let answer = list_line(line, accepted + refused + 1, order, output, note);
        match answer {
            Ok(_) => accepted += 1,
            Err(_) => refused += 1,
        }
        if line.len() > LONGEST_LINE {
            is_cut = true;
            break;
        }
    }
    output.extend_from_slice(if is_cut { b"cut events " } else { b"end events " });
    push_hex(output, accepted as u32, 8);
    output.extend_from_slice(b" refused ");
    push_hex(output, refused as u32, 8);
    output.push(b'\n');
}

fn list_line(
    line: &[u8],
    number: usize,
    order: Order,
    output: &mut Vec<u8>,
    note: &mut dyn FnMut(Option<&Words>, Answer),
) -> Answer {
    let words = words_of_line(line);
    let rows = words.as_ref().map_err(|&refusal| refusal).and_then(|words| words.rows(order));
    output.extend_from_slice(b"event ");
    push_hex(output, number as u32, 8);
    match &rows {
        Ok(rows) => {
            output.extend_from_slice(b" rows ");
            push_hex(output, rows.len() as u32, 8);
            output.push(b'\n');
            for row in rows {
                push_numbers(output, row);
            }
        }
        Err(refusal) => {
            output.extend_from_slice(b" refused ");
            push_hex(output, refusal.number, 8);
            output.extend_from_slice(b" place ");
            push_hex(output, refusal.place, 8);
            output.push(b'\n');
        }
    }
    let answer = rows.map(|rows| rows.len() as u32);
    note(words.as_ref().ok(), answer);
    answer
}

/// A line of numbers, a space between each two.
pub fn push_numbers(output: &mut Vec<u8>, numbers: &[u32]) {
    for (index, &number) in numbers.iter().enumerate() {
        if index > 0 {
            output.push(b' ');
        }
        push_hex(output, number, 8);
    }
    output.push(b'\n');
}

/// A line of numbers, each behind its name, if it has one.
pub fn push_line(output: &mut Vec<u8>, names: &[&str], numbers: &[u32]) {
    for (index, (name, &number)) in names.iter().zip(numbers).enumerate() {
        if index > 0 {
            output.push(b' ');
        }
        output.extend_from_slice(name.as_bytes());
        if !name.is_empty() {
            output.push(b' ');
        }
        push_hex(output, number, 8);
    }
    output.push(b'\n');
}
