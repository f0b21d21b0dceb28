//! The kinds of inputs of show_page.

use super::Kind;
use crate::generate::pair_inputs::Input;
use crate::lines::LONGEST_LINE;
use crate::page::print::{Line, Shown};
use crate::page::{MOST_EVENTS, PADS, SLOT_WORDS};

/// An input, what is shown of it, and how the program got it.
pub struct InputFacts {
    text: Vec<u8>,
    /// The lines that were taken.
    lines: Vec<Vec<u8>>,
    shown: Shown,
    hits: u32,
    added: usize,
    pieces: usize,
    stays_open: bool,
}

impl InputFacts {
    pub fn of(input: &Input, shown: Shown) -> InputFacts {
        let text = input.text();
        let lines = text.split(|&byte| byte == b'\n').take(shown.lines.len());
        InputFacts {
            lines: lines.map(<[u8]>::to_vec).collect(),
            hits: shown.plane().iter().sum(),
            added: shown.count(|line| matches!(line, Line::Added(_))),
            pieces: input.pieces.len(),
            stays_open: input.stays_open,
            shown,
            text,
        }
    }

    fn is_refused(&self, number: u32) -> bool {
        self.shown.count(|l| matches!(l, Line::Refused(r) if r.number == number)) > 0
    }

    /// Was a line of which this holds taken so?
    fn has(&self, line_is: impl Fn(&[u8]) -> bool, taken_is: impl Fn(&Line) -> bool) -> bool {
        let mut lines = self.lines.iter().zip(&self.shown.lines);
        lines.any(|(line, taken)| line_is(line) && taken_is(taken))
    }

    /// Was a line that begins so refused?
    fn refuses(&self, begin: &[u8]) -> bool {
        self.has(|line| line.starts_with(begin), is_refused)
    }

    fn has_other(&self, letter: u8) -> bool {
        self.has(|line| line[..] == [letter], |taken| *taken == Line::Other)
    }

    /// Is the last line that was taken too long, with this letter?
    fn is_cut_at(&self, letter: u8) -> bool {
        let is_so = |line: &Vec<u8>| line.len() > LONGEST_LINE && line[0] == letter;
        self.shown.is_cut && self.lines.last().is_some_and(is_so)
    }

    fn has_more_behind_the_cut(&self) -> bool {
        let taken: usize = self.lines.iter().map(|line| line.len() + 1).sum();
        self.shown.is_cut && self.text.len() > taken
    }

    /// The largest count of a pad.
    fn most(&self) -> u32 {
        self.shown.plane().into_iter().max().unwrap_or(0)
    }
}

fn is_refused(taken: &Line) -> bool {
    matches!(taken, Line::Refused(_))
}

fn is_longest(line: &[u8]) -> bool {
    line.len() == LONGEST_LINE
}

pub const INPUTS: [Kind<InputFacts>; 45] = [
    ("empty", |i| i.text.is_empty()),
    ("line feeds alone", |i| !i.text.is_empty() && i.text.iter().all(|&byte| byte == b'\n')),
    ("one line without line feed", |i| i.lines.len() == 1 && !i.text.contains(&b'\n')),
    ("last line feed missing, added", |i| {
        !i.text.ends_with(b"\n") && matches!(i.shown.lines.last(), Some(Line::Added(_)))
    }),
    ("none added", |i| !i.lines.is_empty() && i.added == 0),
    ("one added", |i| i.added == 1),
    ("64 added", |i| i.added == MOST_EVENTS),
    ("65 added", |i| i.added == MOST_EVENTS + 1),
    ("over 128 added", |i| i.added > 2 * MOST_EVENTS),
    ("1,024 words added", |i| i.shown.lines.contains(&Line::Added(SLOT_WORDS))),
    ("1", |i| i.is_refused(1)),
    ("2", |i| i.is_refused(2)),
    ("3", |i| i.is_refused(3)),
    ("4", |i| i.is_refused(4)),
    ("5", |i| i.is_refused(5)),
    ("6", |i| i.is_refused(6)),
    ("7", |i| i.is_refused(7)),
    ("8", |i| i.is_refused(8)),
    ("9", |i| i.is_refused(9)),
    ("10", |i| i.is_refused(10)),
    ("11", |i| i.is_refused(11)),
    ("26", |i| i.is_refused(26)),
    ("30", |i| i.is_refused(30)),
    ("an empty line", |i| i.has(<[u8]>::is_empty, is_refused)),
    ("S alone", |i| i.has(|line| line == b"S", is_refused)),
    ("F alone", |i| i.has_other(b'F')),
    ("R alone", |i| i.has_other(b'R')),
    ("F and no line of F", |i| {
        i.has(|line| crate::lines::words_of_line(line).is_err(), |taken| *taken == Line::Other)
    }),
    ("f, r or W", |i| i.refuses(b"f") || i.refuses(b"r") || i.refuses(b"W")),
    ("a space before F or R", |i| i.refuses(b" F") || i.refuses(b" R")),
    ("a carriage return at its end", |i| i.has(|line| line.ends_with(b"\r"), is_refused)),
    ("a byte over 127", |i| i.has(|line| line.iter().any(|&byte| byte > 127), is_refused)),
    ("the longest line refused", |i| i.has(is_longest, is_refused)),
    ("the longest line passed over", |i| i.has(is_longest, |taken| *taken == Line::Other)),
    ("S, most words, 26", |i| {
        i.has(is_longest, |t| matches!(t, Line::Refused(r) if r.number == 26))
    }),
    ("cut at S", |i| i.is_cut_at(b'S')),
    ("cut at F", |i| i.is_cut_at(b'F')),
    ("cut at R", |i| i.is_cut_at(b'R')),
    ("cut, more behind", |i| i.has_more_behind_the_cut()),
    ("cut, over 64 added", |i| i.shown.is_cut && i.added > MOST_EVENTS),
    ("not cut, no hit", |i| !i.shown.is_cut && i.added > 0 && i.hits == 0),
    ("most over 8", |i| i.most() > 8),
    ("over 64 events, half the pads hit", |i| {
        i.added > MOST_EVENTS && i.shown.plane().iter().filter(|&&n| n > 0).count() > PADS / 2
    }),
    ("in pieces", |i| i.pieces > 1),
    ("stays open", |i| i.stays_open),
];
