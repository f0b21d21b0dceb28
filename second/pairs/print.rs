//! What compare_events prints of its input (02, #104, and docs/DECISIONS.md, which fixes the text).

use super::comparison::{tail, Pair};
use crate::base::{refuse, Order, Refusal};
use crate::dialects::{Dialect, DIALECTS};
use crate::lines::{next_line, push_line, words_of_line, LONGEST_LINE};

/// The first two lines of an input, and what they say.
pub struct Given<'a> {
    pub lines: [Option<&'a [u8]>; 2],
    /// The first line's by its letter, or the first of the table.
    pub dialect: &'static Dialect,
    /// Of each line as a line of that dialect: its words, or 30.
    pub words: [Result<Vec<u32>, Refusal>; 2],
}

impl Given<'_> {
    pub fn of(text: &[u8]) -> Given<'_> {
        let (first, rest) = next_line(text);
        // Behind a line that is too long none is looked for.
        let rest = if first.is_some_and(|line| line.len() > LONGEST_LINE) { b"" } else { rest };
        let lines = [first, next_line(rest).0];
        let letter = first.and_then(|line| line.first());
        let of_letter = |dialect: &&Dialect| letter == Some(&(dialect.letter as u8));
        let dialect = DIALECTS.into_iter().find(of_letter).unwrap_or(DIALECTS[0]);
        Given { lines, dialect, words: lines.map(|line| words_in(dialect, line)) }
    }

    /// Both events, where both lines are good.
    pub fn pair(&self) -> Option<Pair> {
        let [Ok(first), Ok(second)] = &self.words else { return None };
        Some(Pair::new(self.dialect, [first.clone(), second.clone()]))
    }

    pub fn print(&self, order: Order) -> Vec<u8> {
        let mut output = Vec::new();
        for (name, words) in ["first  ", "second "].iter().zip(&self.words) {
            let rows = words.as_ref().map_err(|&refusal| refusal);
            let rows = rows.and_then(|words| self.dialect.rows_of(words, order));
            output.extend_from_slice(name.as_bytes());
            match rows {
                Ok(rows) => push_line(&mut output, &["rows"], &[rows.len() as u32]),
                Err(Refusal { number, place }) => {
                    push_line(&mut output, &["refused", "place"], &[number, place]);
                }
            }
        }
        match self.pair() {
            Some(pair) => push_differences(&mut output, &pair, order),
            None => push_line(&mut output, &["cut words", "tail", "rows"], &[0, 0, 0]),
        }
        output
    }
}

/// The words of a line of this dialect; a line that is missing is none.
fn words_in(dialect: &Dialect, line: Option<&[u8]>) -> Result<Vec<u32>, Refusal> {
    match line.map(words_of_line) {
        Some(Ok(given)) if given.dialect.letter == dialect.letter => Ok(given.words),
        _ => refuse(30, 0),
    }
}

/// The differing words, the tail, the differing rows, and how many there are of each.
fn push_differences(output: &mut Vec<u8>, pair: &Pair, order: Order) {
    let [first, second] = &pair.events;
    let (words, tail, rows) = (pair.word_list(), tail(first, second), pair.row_list(order));
    for &entry in &words {
        push_line(output, &["word", "first", "second"], &entry.map(|number| number as u32));
    }
    let longer = if second.len() > first.len() { "second" } else { "first" };
    let shared = first.len().min(second.len());
    for (index, &word) in tail.iter().enumerate() {
        push_line(output, &["tail", longer], &[(shared + index) as u32, word]);
    }
    for [index, row_numbers @ ..] in &rows {
        for (name, row) in ["first ", "second"].iter().zip(row_numbers.chunks(4)) {
            push_line(output, &["row", name, "", "", ""], &[&[*index], row].concat());
        }
    }
    let counts = [words.len(), tail.len(), rows.len()].map(|count| count as u32);
    push_line(output, &["end words", "tail", "rows"], &counts);
}
