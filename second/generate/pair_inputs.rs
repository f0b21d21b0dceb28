//! Inputs of compare_events: two lines of events, and lines that are broken, missing, too long or
//! of another dialect, with more behind them or less.

use super::{damage_line, line_edges, pairs};
use crate::dialects::{Dialect, DIALECTS};
use crate::lines::{line_of, most_words, LONGEST_LINE};
use crate::pairs::print::Given;
use crate::rng::Rng;

/// Twice the longest line with its line feed: the most characters that count.
pub const MOST_CHARACTERS: usize = 2 * (LONGEST_LINE + 1);

/// An input, in the pieces in which the program gets it.
pub struct Input {
    pub pieces: Vec<Vec<u8>>,
    /// Does the input stay open behind its last piece until the program has ended?
    pub stays_open: bool,
}

impl Input {
    pub fn whole(text: Vec<u8>) -> Input {
        Input { pieces: vec![text], stays_open: false }
    }

    pub fn text(&self) -> Vec<u8> {
        self.pieces.concat()
    }
}

pub fn random(rng: &mut Rng) -> Input {
    let dialect = DIALECTS[rng.below(DIALECTS.len())];
    let text = match rng.below(24) {
        0 | 1 => about_the_most(rng, dialect),
        2 => few_lines(rng, dialect),
        3..=9 => with_other_line(rng, dialect),
        _ => {
            let lines = lines(rng, dialect);
            ended(rng, lines)
        }
    };
    match rng.below(8) {
        0 => in_pieces(rng, text),
        _ => Input::whole(text),
    }
}

/// The lines of a random pair.
fn lines(rng: &mut Rng, dialect: &'static Dialect) -> [Vec<u8>; 2] {
    pairs::random(rng, dialect).events.map(|words| line_of(dialect, &words))
}

/// Two lines with their line feeds; the last may lack, and more may follow.
fn ended(rng: &mut Rng, [first, second]: [Vec<u8>; 2]) -> Vec<u8> {
    let both = [&first[..], b"\n", &second].concat();
    let behind = match rng.below(8) {
        0 | 1 => vec![],
        2 => [b"\n", &first[..]].concat(),
        3 => [b"\n", &damage_line::broken(rng, b"S 0001")[..], b"\n"].concat(),
        4 if rng.chance(30) => [b"\n", &damage_line::too_long(rng)[..]].concat(),
        4 => b"\n\n".to_vec(),
        _ => b"\n".to_vec(),
    };
    [both, behind].concat()
}

/// One line of a pair, or both, replaced by one that most likely is 30.
fn with_other_line(rng: &mut Rng, dialect: &'static Dialect) -> Vec<u8> {
    let mut lines = lines(rng, dialect);
    let choice = rng.below(5);
    for (index, line) in lines.iter_mut().enumerate() {
        if choice == 4 || choice % 2 == index {
            *line = other_line(rng, line);
        }
    }
    ended(rng, lines)
}

fn other_line(rng: &mut Rng, line: &[u8]) -> Vec<u8> {
    match rng.below(10) {
        0 => vec![],
        1 => [line, b"\r"].concat(),
        2 => damage_line::longest(rng),
        3 | 4 => damage_line::too_long(rng),
        5 | 6 => {
            let other = DIALECTS[rng.below(DIALECTS.len())];
            line_of(other, &other.mixed(rng))
        }
        _ => damage_line::broken(rng, line),
    }
}

/// No line, one line with or without line feed, line feeds alone.
fn few_lines(rng: &mut Rng, dialect: &'static Dialect) -> Vec<u8> {
    let line = match rng.below(3) {
        0 => damage_line::too_long(rng),
        _ => line_of(dialect, &dialect.mixed(rng)),
    };
    match rng.below(6) {
        0 => vec![],
        1 => b"\n".to_vec(),
        2 => b"\n\n".to_vec(),
        3 => line,
        4 => [&line[..], b"\n"].concat(),
        _ => [b"\n", &line[..], b"\n"].concat(),
    }
}

/// About as many characters as count: none of them a line feed, or one where the longest line
/// ends or beside it; or two lines of most words, one at times with a character more.
fn about_the_most(rng: &mut Rng, dialect: &'static Dialect) -> Vec<u8> {
    let words = pairs::words(rng, dialect, 2 * most_words(dialect));
    if rng.chance(40) {
        let (first, second) = words.split_at(most_words(dialect));
        let lines = [first, if rng.chance(50) { first } else { second }];
        let mut lines = lines.map(|words| line_of(dialect, words));
        if rng.chance(40) {
            lines[rng.below(2)].push(b'0');
        }
        return ended(rng, lines);
    }
    let mut text = line_of(dialect, &words);
    let total = MOST_CHARACTERS + rng.pick(&[0, 1, 1, 2, 2, 3, 3, 4]) - 2;
    text.resize(total, rng.pick(b"S0 \xff"));
    let feed = LONGEST_LINE + rng.pick(&[0, 1, 2]) - 1;
    if rng.chance(40) {
        text[feed] = b'\n';
        text[feed + 1] = dialect.letter as u8;
    }
    text
}

/// Up to three cuts, often at a line feed or beside it. Where the second line has its line feed,
/// the input may stay open: what follows is not waited for.
fn in_pieces(rng: &mut Rng, text: Vec<u8>) -> Input {
    let feeds = (0..text.len()).filter(|&index| text[index] == b'\n').take(2);
    let feeds: Vec<usize> = feeds.collect();
    let mut cuts = vec![0, text.len()];
    for _ in 0..rng.within(1, 3) {
        cuts.push(match feeds.get(rng.below(3)) {
            Some(feed) => feed + rng.below(2),
            None => rng.below(text.len() + 1),
        });
    }
    cuts.sort_unstable();
    let pieces = cuts.windows(2).map(|cut| text[cut[0]..cut[1]].to_vec()).collect();
    let is_of_length = |line: Option<&[u8]>| line.is_some_and(|line| line.len() <= LONGEST_LINE);
    let both_end = feeds.len() == 2 && Given::of(&text).lines.into_iter().all(is_of_length);
    Input { pieces, stays_open: both_end && rng.chance(60) }
}

/// Every form of a first line with every form of a second, with and without its line feed; every
/// line at an edge as the first and as the second; the most words and the most rows.
pub fn edges() -> Vec<Input> {
    let mut texts: Vec<Vec<u8>> = Vec::new();
    let forms = forms();
    for first in &forms {
        texts.extend([first.clone(), [first, &b"\n"[..]].concat()]);
        for second in &forms {
            let both = [&first[..], b"\n", second].concat();
            texts.extend([[&both[..], b"\nS 0001\n"].concat(), [&both[..], b"\n"].concat(), both]);
        }
    }
    let good = line_of(DIALECTS[0], &DIALECTS[0].edges().smallest);
    for line in line_edges::all() {
        texts.push([&line[..], b"\n", &good].concat());
        texts.push([&good[..], b"\n", &line].concat());
    }
    for dialect in DIALECTS {
        let most = vec![0; most_words(dialect)];
        let other = vec![dialect.largest_word(); most_words(dialect)];
        for events in [pairs::most_rows(dialect).events, [most, other]] {
            let [first, second] = events.map(|words| line_of(dialect, &words));
            texts.push([&first[..], b"\n", &second, b"\n"].concat());
        }
    }
    texts.into_iter().map(Input::whole).collect()
}

/// Empty, a carriage return, no dialect's letter; the longest line, once of words and once not, and
/// each with a character more; for each dialect its letter alone, its smallest event, and the same
/// with a digit less and in upper case.
fn forms() -> Vec<Vec<u8>> {
    let mut forms = vec![vec![], b"\r".to_vec(), b"Q".to_vec()];
    let longest = line_of(DIALECTS[0], &vec![0; most_words(DIALECTS[0])]);
    forms.extend([[&longest[..], b"0"].concat(), longest]);
    forms.extend([vec![b'S'; LONGEST_LINE], vec![b'S'; LONGEST_LINE + 1]]);
    for dialect in DIALECTS {
        let good = line_of(dialect, &dialect.edges().smallest);
        forms.push(vec![dialect.letter as u8]);
        forms.push(good[..good.len() - 1].to_vec());
        forms.push([&good[..1], &good[1..].to_ascii_uppercase()].concat());
        forms.push(good);
    }
    forms
}
