//! What show_page prints of its input (02, #107): the events of lines of S go to a page, and at the
//! end of the input, or where it is cut, the page's plane is shown.

use super::{Page, Plane, CHANNELS, ROOM_WORDS};
use crate::base::{Answer, Refusal};
use crate::dialects::widened;
use crate::lines::{next_line, push_hex, push_line, words_of_line, LONGEST_LINE, MOST_LINES};

/// The rows of each connector's picture, and the counts in each line behind the pictures.
const PICTURE_ROWS: usize = 8;
const COUNTS_IN_LINE: usize = 8;
/// Each number stands in the column of its channel.
const AXIS: &str = "channel   0       8       10      18      20      28      30      38\n";

/// The page at the end of an input, and how the lines were taken.
pub struct Shown {
    pub page: Page,
    room: Vec<u16>,
    /// Of each line in turn.
    pub lines: Vec<Line>,
    pub is_cut: bool,
}

/// How a line was taken.
#[derive(Clone, Copy, PartialEq, Eq, Debug)]
pub enum Line {
    /// Of another dialect: passed over.
    Other,
    /// Of so many words.
    Added(usize),
    Refused(Refusal),
}

impl Shown {
    pub fn of(input: &[u8]) -> Shown {
        let room = vec![0; ROOM_WORDS];
        let mut shown = Shown { page: Page::CLEARED, room, lines: vec![], is_cut: false };
        let mut left = input;
        while let (Some(line), rest) = next_line(left) {
            shown.is_cut = shown.lines.len() == MOST_LINES;
            if shown.is_cut {
                break;
            }
            left = rest;
            let taken = shown.take(line);
            shown.lines.push(taken);
            shown.is_cut = line.len() > LONGEST_LINE;
            if shown.is_cut {
                break;
            }
        }
        shown
    }

    fn take(&mut self, line: &[u8]) -> Line {
        if matches!(line.first(), Some(b'F' | b'R')) && line.len() <= LONGEST_LINE {
            return Line::Other;
        }
        match self.add(line) {
            Ok(words) => Line::Added(words as usize),
            Err(refusal) => Line::Refused(refusal),
        }
    }

    /// The number of the event's words.
    fn add(&mut self, line: &[u8]) -> Answer {
        // Of a line that is too long nothing but 30 is said, whatever its letter.
        let words: Vec<u16> = words_of_line(line)?.words.iter().map(|&word| word as u16).collect();
        self.page.add(&words, &mut self.room)?;
        Ok(words.len() as u32)
    }

    pub fn plane(&self) -> Plane {
        self.page.plane(&self.room)
    }

    /// The words of the events held, the oldest first.
    pub fn events(&self) -> Vec<Vec<u32>> {
        (0..self.page.count).map(|k| widened(self.page.event(k, &self.room))).collect()
    }

    /// How many lines were taken so.
    pub fn count(&self, is_so: impl Fn(&Line) -> bool) -> usize {
        self.lines.iter().filter(|line| is_so(line)).count()
    }

    pub fn print(&self) -> Vec<u8> {
        let plane = self.plane();
        let most = plane.into_iter().max().unwrap_or(0);
        let mut output = Vec::new();
        push_line(
            &mut output,
            &["page events", "hits", "most"],
            &[self.page.count as u32, plane.iter().sum(), most],
        );
        for (connector, counts) in plane.chunks(CHANNELS).enumerate() {
            push_line(&mut output, &["connector"], &[connector as u32]);
            push_picture(&mut output, counts, most);
        }
        for (index, counts) in plane.chunks(COUNTS_IN_LINE).enumerate() {
            let pad = COUNTS_IN_LINE * index;
            let place = [(pad / CHANNELS) as u32, (pad % CHANNELS) as u32];
            let names = [&["count"], &[""; 1 + COUNTS_IN_LINE][..]].concat();
            push_line(&mut output, &names, &[&place, counts].concat());
        }
        let is_added = |line: &Line| matches!(line, Line::Added(_));
        let is_refused = |line: &Line| matches!(line, Line::Refused(_));
        let added = self.count(is_added) as u32;
        let refused = self.count(is_refused) as u32;
        let other = self.count(|line| *line == Line::Other) as u32;
        let end = if self.is_cut { "cut added" } else { "end added" };
        push_line(&mut output, &[end, "refused", "other"], &[added, refused, other]);
        output
    }
}

/// The rows of one connector, the highest first, each with the least count that it shows, and the
/// axis.
fn push_picture(output: &mut Vec<u8>, counts: &[u32], most: u32) {
    for row in (0..PICTURE_ROWS as u32).rev() {
        let least = most * row / PICTURE_ROWS as u32 + 1;
        push_hex(output, least, 8);
        output.extend_from_slice(b" |");
        output.extend(counts.iter().map(|&count| if count >= least { b'#' } else { b' ' }));
        output.extend_from_slice(b"|\n");
    }
    output.extend_from_slice(AXIS.as_bytes());
}
