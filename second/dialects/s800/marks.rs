//! What the generator of dialect S must have made: every tag again, every id and channel, every
//! length and number at its limits, groups of all connectors. What its lines and calls must have
//! met: each refusal that 02, #103, gives, by its cause.

use super::groups::is_head;
use super::tags::{self, kind};
use crate::base::{Answer, Row};
use crate::dialects::{marks, Mark, Marks, Special};

/// The marks of an acceptable event.
pub fn add(words: &[u32], rows: &[Row], marks: &mut Marks) {
    add_packets(&words[3..], marks);
    add_groups(rows, marks);
    let mut tag = 0;
    for row in rows {
        if row[0] == kind::PACKET {
            tag = row[1];
            continue;
        }
        for (name, &number) in ["unit", "channel", "datum"].iter().zip(&row[1..]) {
            marks.insert((format!("{tag:04x} kind {} {name}", row[0]), number));
        }
    }
}

fn add_packets(mut words: &[u32], marks: &mut Marks) {
    let mut earlier_tags = Vec::new();
    while let [length, tag, content @ ..] = words {
        marks.insert((format!("{tag:04x} length"), *length));
        if tags::largest_id(*tag as u16).is_some() {
            marks.insert((format!("{tag:04x} id"), content[0]));
        }
        if earlier_tags.contains(tag) {
            marks.insert(("tag again".to_string(), *tag));
        }
        earlier_tags.push(*tag);
        words = &words[*length as usize..];
    }
}

/// The number of a group's data words, and their connectors, a bit for each.
fn add_groups(rows: &[Row], marks: &mut Marks) {
    for group in rows.chunk_by(|_, next| next[0] == kind::DATA_WORD) {
        if let [[kind::GROUP_HEAD, ..], data_words @ ..] = group {
            let connectors = data_words.iter().fold(0, |bits, row| bits | 1 << (row[2] / 64));
            marks.insert(("data words of a group".to_string(), data_words.len() as u32));
            marks.insert(("connectors of a group".to_string(), connectors));
        }
    }
}

pub fn wanted() -> Vec<Mark> {
    let mut wanted = marks("tag again", tags::LATER.map(u32::from));
    let lengths: [(&str, &[u32]); 9] = [
        ("5801", &[3, 7]),
        ("5802", &[2, 10]),
        ("5810", &[2, 14]),
        ("5820", &[4, 20]),
        ("5840", &[10, 12, 13, 14, 15]),
        ("58b0", &[3, 6, 19]),
        ("58a0", &[3]),
        ("58c0", &[3, 11]),
        ("5830", &[2, 3]),
    ];
    for (tag, numbers) in lengths {
        wanted.extend(marks(&format!("{tag} length"), numbers.iter().copied()));
    }
    wanted.extend(marks("5840 id", 0..2));
    wanted.extend(marks("58b0 id", 0..3));
    wanted.extend(marks("58c0 id", 0..4));
    wanted.extend(marks("5801 kind 4 datum", 0..32));
    wanted.extend(marks("5801 kind 5 channel", 8..12));
    wanted.extend(marks("5802 kind 5 channel", (4..8).chain(12..16)));
    wanted.extend(marks("5810 kind 6 channel", 0..6));
    wanted.extend(marks("5820 kind 6 channel", 0..16));
    wanted.extend(marks("58b0 kind 6 channel", 0..32));
    wanted.extend(marks("58a0 kind 6 channel", 0..16));
    wanted.extend(marks("58c0 kind 6 channel", 0..32));
    wanted.extend(marks("58c0 kind 6 datum", [0, 0x1fff]));
    wanted.extend(marks("5820 kind 6 datum", [0, 0xfff]));
    wanted.extend(marks("5840 kind 8 unit", [0, 511]));
    wanted.extend(marks("5840 kind 8 channel", 0..64));
    wanted.extend(marks("5840 kind 12 unit", [0, 511]));
    wanted.extend(marks("5840 kind 12 channel", 0..256));
    wanted.extend(marks("5840 kind 12 datum", [0, 1023]));
    wanted.extend(marks("connectors of a group", 1..16));
    wanted.extend(marks("data words of a group", 1..5));
    wanted.extend(marks("5840 kind 9 datum", [0, 0xffff]));
    wanted
}

const LENGTH: &str = "7 of 0x5840";
const HEAD_LAST: &str = "10 at a head last in its inner packet";
const HEAD_BEFORE_HEAD: &str = "10 at a head before a head";
const DATA_FIRST: &str = "10 at a data word without a head";
const UPPER_BITS: &str = "10 at bits 14-12 of a data word";
const SAME_CONNECTOR: &str = "10 at the connector before";
const LOWER_CONNECTOR: &str = "10 at a lower connector";
const FIFTH: &str = "10 at a fifth data word";

/// Refusals of packet 0x5840, each with a single cause.
pub const READING: Special = Special {
    names: &[
        LENGTH,
        HEAD_LAST,
        HEAD_BEFORE_HEAD,
        DATA_FIRST,
        UPPER_BITS,
        SAME_CONNECTOR,
        LOWER_CONNECTOR,
        FIFTH,
    ],
    name_of: name_of_reading,
};

fn name_of_reading(words: &[u32], answer: Answer) -> Option<&'static str> {
    let refusal = answer.err().filter(|refusal| [7, 10].contains(&refusal.number))?;
    // The lengths before the place of 7 or 10 are good.
    let (place, mut at) = (refusal.place as usize, 3);
    while place >= at + words[at] as usize {
        at += words[at] as usize;
    }
    match refusal.number {
        _ if words[at + 1] != u32::from(tags::CRDC) => None,
        7 => Some(LENGTH),
        _ => name_of_word(&words[at + 6..at + words[at] as usize - 4], place - at - 6),
    }
}

/// Why a word among those of groups is refused.
fn name_of_word(words: &[u32], index: usize) -> Option<&'static str> {
    let is_data = |&&word: &&u32| !is_head(word as u16);
    let word = words[index];
    if is_head(word as u16) {
        let is_last = index + 1 == words.len();
        return Some(if is_last { HEAD_LAST } else { HEAD_BEFORE_HEAD });
    }
    let connector = |word: u32| word >> 10 & 3;
    let before = words[..index].iter().rev().take_while(is_data);
    let is_fifth = before.clone().count() == 4;
    let last = before.map(|&word| connector(word)).next();
    single_cause(&[
        (index == 0, DATA_FIRST),
        (word & 0x7000 != 0, UPPER_BITS),
        (is_fifth, FIFTH),
        (!is_fifth && last == Some(connector(word)), SAME_CONNECTOR),
        (!is_fifth && last > Some(connector(word)), LOWER_CONNECTOR),
    ])
}

/// The name of the only cause that holds.
fn single_cause(causes: &[(bool, &'static str)]) -> Option<&'static str> {
    let mut names = causes.iter().filter(|(holds, _)| *holds).map(|(_, name)| *name);
    names.next().filter(|_| names.next().is_none())
}

const END_AT_HEAD: &str = "21 at the rows' end behind a head";
const HEAD_AT_HEAD: &str = "21 at a head behind a head";
const ANODE_AT_HEAD: &str = "21 at an anode behind a head";
const NO_HEAD: &str = "21 at a data word without a head";
const HEAD_SAMPLE: &str = "22 at a head's sample";
const HEAD_CHANNEL: &str = "22 at a head's channel";
const HEAD_DATUM: &str = "22 at a head's datum";
const OTHER_SAMPLE: &str = "22 at a data word of another sample";
const OTHER_CHANNEL: &str = "22 at a data word of another channel";
const HIGH_ENERGY: &str = "22 at a data word's energy";
const HIGH_PAD: &str = "22 at a pad above 255";
const SAME_PAD: &str = "22 at the connector before";
const LOWER_PAD: &str = "22 at a lower connector";
const FIFTH_ROW: &str = "22 at a fifth data word";

/// Refusals of the rows of groups, each with a single cause.
pub const WRITING: Special = Special {
    names: &[
        END_AT_HEAD,
        HEAD_AT_HEAD,
        ANODE_AT_HEAD,
        NO_HEAD,
        HEAD_SAMPLE,
        HEAD_CHANNEL,
        HEAD_DATUM,
        OTHER_SAMPLE,
        OTHER_CHANNEL,
        HIGH_ENERGY,
        HIGH_PAD,
        SAME_PAD,
        LOWER_PAD,
        FIFTH_ROW,
    ],
    name_of: name_of_writing,
};

fn name_of_writing(elements: &[u32], answer: Answer) -> Option<&'static str> {
    let refusal = answer.err().filter(|refusal| [21, 22].contains(&refusal.number))?;
    let (rows, _) = elements.as_chunks::<4>();
    let (before, rest) = rows.split_at(refusal.place as usize);
    match (refusal.number, before.last()?[0], rest.first()) {
        (21, kind::GROUP_HEAD, None) => Some(END_AT_HEAD),
        (21, kind::GROUP_HEAD, Some([kind::GROUP_HEAD, ..])) => Some(HEAD_AT_HEAD),
        (21, kind::GROUP_HEAD, Some([kind::ANODE, ..])) => Some(ANODE_AT_HEAD),
        (21, kind::THRESHOLD, Some([kind::DATA_WORD, ..])) => Some(NO_HEAD),
        (22, _, Some([kind::GROUP_HEAD, sample, channel, datum])) => single_cause(&[
            (*sample > 511, HEAD_SAMPLE),
            (*channel > 63, HEAD_CHANNEL),
            (*datum != 0, HEAD_DATUM),
        ]),
        (22, _, Some(row @ [kind::DATA_WORD, ..])) => name_of_data_word(before, row),
        _ => None,
    }
}

/// Why a row of kind 12 is refused that stands behind a head and maybe other such rows.
fn name_of_data_word(before: &[Row], row: &Row) -> Option<&'static str> {
    let head = before.iter().rposition(|row| row[0] == kind::GROUP_HEAD)?;
    let earlier = &before[head + 1..];
    let last = earlier.last().map(|row| row[2] / 64);
    let (connector, is_fifth) = (row[2] / 64, earlier.len() == 4);
    single_cause(&[
        (row[1] != before[head][1], OTHER_SAMPLE),
        (row[2] % 64 != before[head][2], OTHER_CHANNEL),
        (row[3] > 1023, HIGH_ENERGY),
        (connector > 3, HIGH_PAD),
        (is_fifth && connector < 4, FIFTH_ROW),
        (!is_fifth && last == Some(connector), SAME_PAD),
        (!is_fifth && last > Some(connector), LOWER_PAD),
    ])
}
