//! Broken lines: text that is not a line of 01, or that only just is one.

use crate::dialects::DIALECTS;
use crate::lines::{line_of, most_words, words_of_line, LONGEST_LINE};
use crate::rng::Rng;

/// A line broken in one way; at times it is still a line, such as a letter alone.
pub fn broken(rng: &mut Rng, line: &[u8]) -> Vec<u8> {
    let mut line = line.to_vec();
    let at = rng.below(line.len());
    match rng.below(16) {
        0 => line.make_ascii_uppercase(),
        1 => replace(&mut line, b' ', b'\t', at),
        2 => insert_after(&mut line, b' ', b' ', at),
        3 => remove_near(&mut line, b' ', at),
        4 => line.push(b' '),
        5 => drop(line.remove(at)),
        6 => line.insert(at, rng.pick(b"0123456789abcdef")),
        7 => line[at] = rng.pick(b"ghxABCDEFSsf/:`@.,"),
        8 => line.clear(),
        9 => line[at] = 0,
        10 => line[at] = rng.within(128, 255) as u8,
        11 => line.push(b'\r'),
        12 => line[0] = rng.pick(&first_characters()),
        13 => line.insert(0, b' '),
        14 => line = without_words(rng),
        _ => line.truncate(at),
    }
    mended(rng, line)
}

/// The line, its words often mended where it still is one, of whichever dialect.
fn mended(rng: &mut Rng, line: Vec<u8>) -> Vec<u8> {
    let Ok(mut given) = words_of_line(&line) else { return line };
    given.dialect.mend_words(rng, &mut given.words);
    line_of(given.dialect, &given.words)
}

fn letters() -> Vec<u8> {
    DIALECTS.map(|dialect| dialect.letter as u8).to_vec()
}

/// The dialects' letters twice, the same in lower case, and others.
fn first_characters() -> Vec<u8> {
    let letters = letters();
    [&letters[..], &letters, &letters.to_ascii_lowercase(), b"QW0 "].concat()
}

/// A letter alone or before a space, all letters, or another character.
fn without_words(rng: &mut Rng) -> Vec<u8> {
    let letters = letters();
    let mut lines: Vec<Vec<u8>> = letters.iter().map(|&letter| vec![letter]).collect();
    lines.extend(letters.iter().map(|&letter| vec![letter, b' ']));
    lines.extend([b" ".to_vec(), b"\r".to_vec(), b"0".to_vec(), letters]);
    lines.swap_remove(rng.below(lines.len()))
}

/// The first such byte from an index on, or the last before it.
fn near(line: &[u8], wanted: u8, at: usize) -> Option<usize> {
    let after = line[at..].iter().position(|&byte| byte == wanted).map(|index| at + index);
    after.or_else(|| line[..at].iter().rposition(|&byte| byte == wanted))
}

fn replace(line: &mut [u8], wanted: u8, byte: u8, at: usize) {
    if let Some(index) = near(line, wanted, at) {
        line[index] = byte;
    }
}

fn insert_after(line: &mut Vec<u8>, wanted: u8, byte: u8, at: usize) {
    if let Some(index) = near(line, wanted, at) {
        line.insert(index, byte);
    }
}

fn remove_near(line: &mut Vec<u8>, wanted: u8, at: usize) {
    if let Some(index) = near(line, wanted, at) {
        line.remove(index);
    }
}

/// A line too long, often by one character only, of words or of any bytes.
pub fn too_long(rng: &mut Rng) -> Vec<u8> {
    let choice = rng.below(DIALECTS.len() + 2);
    match DIALECTS.get(choice) {
        Some(dialect) => line_of(dialect, &vec![0; most_words(dialect) + 1]),
        None if choice == DIALECTS.len() => vec![letters()[0]; LONGEST_LINE + 1],
        None => {
            let more = rng.within(1, 5000);
            any_bytes(rng, LONGEST_LINE + more)
        }
    }
}

/// A line of the most characters, or a few less: never too long.
pub fn longest(rng: &mut Rng) -> Vec<u8> {
    let choice = rng.below(DIALECTS.len() + 2);
    match DIALECTS.get(choice) {
        Some(dialect) => line_of(dialect, &vec![0; most_words(dialect)]),
        None if choice == DIALECTS.len() => vec![letters()[DIALECTS.len() - 1]; LONGEST_LINE],
        None => any_bytes(rng, LONGEST_LINE),
    }
}

fn any_bytes(rng: &mut Rng, count: usize) -> Vec<u8> {
    (0..count).map(|_| not_line_feed(rng)).collect()
}

fn not_line_feed(rng: &mut Rng) -> u8 {
    match rng.next() as u8 {
        b'\n' => b' ',
        byte => byte,
    }
}
