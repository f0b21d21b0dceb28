//! The kinds of inputs of compare_events.

use super::Kind;
use crate::generate::pair_inputs::{Input, MOST_CHARACTERS};
use crate::lines::{words_of_line, LONGEST_LINE};
use crate::pairs::print::Given;

/// An input, what it says, and how the program got it.
pub struct InputFacts {
    text: Vec<u8>,
    lines: [Option<Vec<u8>>; 2],
    /// Of the dialect of both lines.
    letter: char,
    is_30: [bool; 2],
    pieces: usize,
    stays_open: bool,
}

impl InputFacts {
    pub fn of(given: &Given, input: &Input) -> InputFacts {
        InputFacts {
            text: input.text(),
            lines: given.lines.map(|line| line.map(<[u8]>::to_vec)),
            letter: given.dialect.letter,
            is_30: given.words.each_ref().map(|words| words.is_err()),
            pieces: input.pieces.len(),
            stays_open: input.stays_open,
        }
    }

    fn line_is(&self, index: usize, holds: impl Fn(&[u8]) -> bool) -> bool {
        self.lines[index].as_ref().is_some_and(|line| holds(line))
    }

    fn has_letter(&self, line: &[u8]) -> bool {
        line.first() == Some(&(self.letter as u8))
    }

    /// Has the line the dialect's letter and a right length, and is it 30 all the same?
    fn is_malformed(&self, index: usize) -> bool {
        let is_likely = |line: &[u8]| self.has_letter(line) && !is_too_long(line);
        self.is_30[index] && self.line_is(index, is_likely)
    }

    fn has_feed(&self) -> bool {
        self.text.contains(&b'\n')
    }

    /// Has the text so many more characters than the most that count?
    fn is_over(&self, more: isize) -> bool {
        self.text.len() == MOST_CHARACTERS.wrapping_add_signed(more)
    }

    /// How many characters two lines have, both line feeds among them.
    fn of_both_lines(&self) -> Option<usize> {
        let [Some(first), Some(second)] = &self.lines else { return None };
        Some(first.len() + second.len() + 2)
    }
}

fn is_too_long(line: &[u8]) -> bool {
    line.len() > LONGEST_LINE
}

fn is_longest(line: &[u8]) -> bool {
    line.len() == LONGEST_LINE
}

fn is_good(line: &[u8]) -> bool {
    words_of_line(line).is_ok()
}

fn ends_in_return(line: &[u8]) -> bool {
    line.ends_with(b"\r")
}

/// Of each dialect, which is the first line's.
pub const LINES: [Kind<InputFacts>; 4] = [
    ("no 30", |i| i.is_30 == [false, false]),
    ("first alone 30", |i| i.is_30 == [true, false]),
    ("second alone 30", |i| i.is_30 == [false, true]),
    ("second good, of another letter", |i| i.is_30[1] && i.line_is(1, is_good)),
];

pub const INPUTS: [Kind<InputFacts>; 27] = [
    ("both 30", |i| i.is_30 == [true, true]),
    ("first missing", |i| i.lines[0].is_none()),
    ("first empty", |i| i.line_is(0, <[u8]>::is_empty)),
    ("first too long", |i| i.line_is(0, is_too_long)),
    ("first too long, a good line behind", |i| {
        let behind = i.text.split(|&byte| byte == b'\n').nth(1);
        i.line_is(0, is_too_long) && behind.is_some_and(is_good)
    }),
    ("first of no dialect's letter", |i| {
        i.line_is(0, |line| !line.is_empty() && !i.has_letter(line))
    }),
    ("first malformed", |i| i.is_malformed(0)),
    ("second missing, no line feed", |i| i.lines[0].is_some() && !i.has_feed()),
    ("second missing behind a line feed", |i| {
        i.lines[1].is_none() && i.has_feed() && !i.line_is(0, is_too_long)
    }),
    ("second empty", |i| i.line_is(1, <[u8]>::is_empty)),
    ("second too long", |i| i.line_is(1, is_too_long)),
    ("second malformed", |i| i.is_malformed(1)),
    ("both empty", |i| i.line_is(0, <[u8]>::is_empty) && i.line_is(1, <[u8]>::is_empty)),
    ("first with a carriage return", |i| i.line_is(0, ends_in_return)),
    ("second with a carriage return", |i| i.line_is(1, ends_in_return)),
    ("first of the longest length", |i| i.line_is(0, is_longest)),
    ("second of the longest length", |i| i.line_is(1, is_longest)),
    ("last line feed missing", |i| i.of_both_lines().is_some_and(|n| i.text.len() < n)),
    ("more behind the second", |i| i.of_both_lines().is_some_and(|n| i.text.len() > n)),
    ("40,963 characters, no line feed", |i| i.is_over(-1) && !i.has_feed()),
    ("40,964 characters, no line feed", |i| i.is_over(0) && !i.has_feed()),
    ("40,965 characters, no line feed", |i| i.is_over(1) && !i.has_feed()),
    ("40,963 characters, a line feed", |i| i.is_over(-1) && i.has_feed()),
    ("40,964 characters, a line feed", |i| i.is_over(0) && i.has_feed()),
    ("40,965 characters, a line feed", |i| i.is_over(1) && i.has_feed()),
    ("in pieces", |i| i.pieces > 1),
    ("stays open", |i| i.stays_open),
];
