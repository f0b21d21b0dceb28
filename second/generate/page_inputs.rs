//! Inputs of show_page: lines of S that are added or refused, lines of other dialects, ends of every
//! kind, more events than a page holds.

use super::pair_inputs::Input;
use super::{damage_line, line_edges, page_events};
use crate::dialects::s800::DIALECT;
use crate::dialects::{widened, DIALECTS};
use crate::lines::{line_of, most_words, LONGEST_LINE, MOST_LINES};
use crate::page::print::Shown;
use crate::page::MOST_EVENTS;
use crate::rng::Rng;

pub fn random(rng: &mut Rng) -> Input {
    let text = match rng.below(24) {
        0 | 1 => few_lines(rng),
        _ => {
            let mut text = lines(rng);
            end(rng, &mut text);
            text
        }
    };
    match rng.below(8) {
        0 | 1 => in_pieces(rng, text),
        _ => Input::whole(text),
    }
}

/// An event's line.
fn line(words: &[u16]) -> Vec<u8> {
    line_of(&DIALECT, &widened(words))
}

fn good_line(rng: &mut Rng) -> Vec<u8> {
    line(&page_events::small(rng))
}

/// Some lines of any kind, or as many events as a page holds and about that, others between them.
fn lines(rng: &mut Rng) -> Vec<u8> {
    let (count, good) = match rng.below(20) {
        0..=9 => (rng.within(1, 6), 30),
        10..=13 => (rng.within(7, 40), 50),
        14 => (MOST_EVENTS, 100),
        15 => (MOST_EVENTS + 1, 100),
        16 => (rng.within(2 * MOST_EVENTS, 2 * MOST_EVENTS + 20), 100),
        _ => (rng.within(70, 110), 90),
    };
    let mut text = Vec::new();
    for _ in 0..count {
        let line = if rng.chance(good) { good_line(rng) } else { any_line(rng) };
        text.extend([&line[..], b"\n"].concat());
    }
    text
}

/// A line that is never too long.
fn any_line(rng: &mut Rng) -> Vec<u8> {
    match rng.below(16) {
        0..=5 => {
            let words = page_events::random(rng);
            line(&words[..words.len().min(most_words(&DIALECT))])
        }
        6 | 7 => {
            let line = good_line(rng);
            damage_line::broken(rng, &line)
        }
        8..=10 => other_line(rng),
        11 => [&good_line(rng)[..], b"\r"].concat(),
        12 if rng.chance(40) => damage_line::longest(rng),
        13 if rng.chance(40) => line(&page_events::sized(rng, DIALECT.largest_event)),
        _ => {
            rng.pick(&[&b""[..], b"S", b"f", b"r 0001", b"W", b" F", b" R", b"S \xff001"]).to_vec()
        }
    }
}

/// A line that begins with the letter of another dialect, whatever follows.
fn other_line(rng: &mut Rng) -> Vec<u8> {
    let dialect = DIALECTS[rng.within(1, DIALECTS.len() - 1)];
    match rng.below(4) {
        0 => vec![dialect.letter as u8],
        1 => [&[dialect.letter as u8], &good_line(rng)[..]].concat(),
        _ => line_of(dialect, &dialect.mixed(rng)),
    }
}

/// As it is, without its last line feed, with a line of the largest length, or with one too long,
/// after which more may follow.
fn end(rng: &mut Rng, text: &mut Vec<u8>) {
    match rng.below(8) {
        0 => drop(text.pop()),
        1 if rng.chance(50) => text.extend(damage_line::longest(rng)),
        2 => {
            let more = rng.pick(&[&b""[..], b"\n", b"\nS 0001\n", b"\n\nF\nR\n"]);
            text.extend(damage_line::too_long(rng));
            text.extend_from_slice(more);
        }
        3 => text.push(b'\n'),
        _ => {}
    }
}

/// No line, line feeds alone, or one line without a line feed.
fn few_lines(rng: &mut Rng) -> Vec<u8> {
    match rng.below(4) {
        0 => vec![],
        1 => vec![b'\n'; rng.within(1, 5)],
        2 => any_line(rng),
        _ => good_line(rng),
    }
}

/// Up to three cuts. Where the lines are cut, the input may stay open: nothing more is waited for.
fn in_pieces(rng: &mut Rng, text: Vec<u8>) -> Input {
    let mut cuts = vec![0, text.len()];
    for _ in 0..rng.within(1, 3) {
        cuts.push(rng.below(text.len() + 1));
    }
    cuts.sort_unstable();
    let pieces = cuts.windows(2).map(|cut| text[cut[0]..cut[1]].to_vec()).collect();
    Input { pieces, stays_open: Shown::of(&text).is_cut && rng.chance(70) }
}

/// Few lines and none; each line at an edge behind an event and before one; the longest lines and
/// those too long of each letter; as many events as a page holds and about that; the most lines.
pub fn edges() -> Vec<Input> {
    let mut rng = Rng::new(107);
    let good = [&line(&page_events::with_samples(&mut rng))[..], b"\n"].concat();
    let mut texts = vec![vec![], b"\n".to_vec(), b"\n\n".to_vec(), good.clone()];
    texts.push(good[..good.len() - 1].to_vec());
    for line in line_edges::all().into_iter().chain(long_lines()) {
        texts.push([&good[..], &line].concat());
        texts.push([&good[..], &line, b"\n", &good].concat());
    }
    for count in [63, 64, 65, 127, 128, 129, 300] {
        let lines = (0..count).map(|_| [&good_line(&mut rng)[..], b"\n"].concat());
        texts.push(lines.collect::<Vec<_>>().concat());
    }
    for words in [1023, 1024, 1025, 4096] {
        let lines = [page_events::sized(&mut rng, words), page_events::refused(&mut rng, words)];
        let lines = lines.map(|words| [&line(&words)[..], b"\n"].concat());
        texts.push([&good[..], &lines.concat(), &good, &good].concat());
    }
    texts.push(most_lines());
    texts.into_iter().map(Input::whole).collect()
}

/// For each letter, and for one of no dialect, lines of the most characters and of one more.
fn long_lines() -> Vec<Vec<u8>> {
    let letters = DIALECTS.map(|dialect| dialect.letter as u8);
    let lines = letters.into_iter().chain([b'x']);
    lines.flat_map(|letter| [LONGEST_LINE, LONGEST_LINE + 1].map(|n| vec![letter; n])).collect()
}

/// The most lines, of one character each, and a character behind them.
fn most_lines() -> Vec<u8> {
    let mut text = b"S\nF\nx\nR\n".repeat(MOST_LINES / 4);
    text.push(b'S');
    text
}
