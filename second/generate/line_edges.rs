//! Lines at the edges of their form: broken ones, most of them refused by 30, and the longest. The
//! texts are about the first dialect; the other dialects have theirs by the table.

use crate::dialects::{Dialect, DIALECTS};
use crate::lines::{line_of, most_words, LONGEST_LINE};

/// Wrong letters, spaces and digits.
const BROKEN: [&str; 19] = [
    "Q",
    "W",
    "SS",
    "S\t0001",
    "S  0001",
    "S 0001 ",
    " S 0001",
    "S0001",
    "S 001",
    "S 00001",
    "S 000g",
    "S 000A",
    "S 0001\r",
    "S 0001  0002",
    "S 00010002",
    "S 0001\t0002",
    "S -001",
    "S +001",
    "S 0x01",
];

/// Characters beside the digits, beyond them and of two bytes.
const CHARACTERS: [&str; 9] = [
    "S 0001\0",
    "\0",
    "S 000\u{e9}",
    "S 000:",
    "S 000/",
    "S 000`",
    "S 000@",
    "S 000G",
    "S\u{a0}0001",
];

/// Bytes that are no characters; all but the first of the right length, so that the byte itself is
/// what is refused.
const BYTES: [&[u8]; 5] = [b"\x80\xfe", b"S 000\xe9", b"S\xa00001", b"S \xff001", b"S 00\xb10"];

pub fn all() -> Vec<Vec<u8>> {
    let letters = DIALECTS.map(|dialect| dialect.letter as u8);
    let others = &DIALECTS[1..];
    let mut lines = vec![vec![], b" ".to_vec()];
    lines.extend(letters.map(|letter| vec![letter]));
    lines.extend(letters.map(|letter| vec![letter, b' ']));
    lines.extend(letters.map(|letter| vec![letter.to_ascii_lowercase()]));
    lines.extend(BROKEN.map(|line| line.as_bytes().to_vec()));
    lines.extend(others.iter().flat_map(|dialect| wrong_digits(dialect)));
    lines.extend(CHARACTERS.map(|line| line.as_bytes().to_vec()));
    lines.extend(others.iter().flat_map(|dialect| whole_line_changed(dialect)));
    lines.extend(BYTES.map(|line| line.to_vec()));
    for dialect in others {
        let one_word = line_of(dialect, &[0]);
        lines.push([&one_word[..one_word.len() - 1], b"\xff"].concat());
        lines.push(line_of(dialect, &vec![0; most_words(dialect)]));
    }
    lines.push(vec![b'0'; LONGEST_LINE]);
    lines
}

/// One word, of the first dialect's digits, one digit more, under the first dialect's letter, one
/// digit less, and the last no digit.
fn wrong_digits(dialect: &Dialect) -> [Vec<u8>; 6] {
    let letter = dialect.letter;
    let (first, digits) = (DIALECTS[0], dialect.digits());
    let shorter = "0".repeat(digits - 1);
    [
        format!("{letter} {:01$}", 1, first.digits()),
        format!("{letter} {:01$}0", 1, digits),
        format!("{} {:02$}", first.letter, 1, digits),
        format!("{letter} {shorter}"),
        format!("{letter} {shorter}g"),
        format!("{letter} {shorter}F"),
    ]
    .map(String::into_bytes)
}

/// A good line in upper case, with tabs, under the first dialect's letter, and with a byte more.
fn whole_line_changed(dialect: &Dialect) -> [Vec<u8>; 4] {
    let good = line_of(dialect, &dialect.edges().smallest);
    let tabs = good.iter().map(|&byte| if byte == b' ' { b'\t' } else { byte });
    [
        good.to_ascii_uppercase(),
        tabs.collect(),
        [&[DIALECTS[0].letter as u8], &good[1..]].concat(),
        [&good[..], b"\xff"].concat(),
    ]
}
