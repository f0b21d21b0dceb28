//! The stored inputs stay in their limits and meet every refusal that they can; the listings in both
//! orders differ in their stamps alone; the pads count up; the stored pair shows each kind of
//! difference.

use super::ensure;
use super::lines::{listing_of, LISTED};
use crate::base::Order;
use crate::generate::page_shape;
use crate::page::print::{Line, Shown};
use crate::page::MOST_EVENTS;
use crate::pairs::print::Given;
use crate::pairs::tail;
use crate::stored;
use crate::tally::{Source, Tally};

pub fn run() -> Result<(), String> {
    let (lines, vectors) = (stored::lines(), stored::vectors());
    ensure(lines.starts_with(format!("{LISTED}\n").as_bytes()), "01's lines come first")?;
    let largest = lines.len().max(vectors.len());
    ensure(largest < 1_000_000, "stored inputs are below 1,000,000 bytes")?;
    ensure_met("lines", &Tally::of_lines(&lines), &[Source::Line])?;
    ensure_met("vectors", &Tally::of_vectors(&vectors)?, &[Source::Reading, Source::Writing])?;
    check_orders(&lines)?;
    check_pads()?;
    check_pair()?;
    check_page()?;
    check_thinned()
}

fn ensure_met(what: &str, met: &Tally, sources: &[Source]) -> Result<(), String> {
    let faults = [met.missing(sources), met.unwanted()].concat();
    ensure(faults.is_empty(), &format!("the stored {what}: {}", faults.join("; ")))
}

/// The listing of the archive's program is that of list_events with the chunks in the middle of each
/// stamp (bits 47-32 and 31-16 of a row of kind 2) exchanged, and not a character else.
fn check_orders(lines: &[u8]) -> Result<(), String> {
    let [listing, archived] = [Order::DEFAULT, Order::Crossed].map(|o| listing_of(lines, o));
    let exchanged = |line: &str| match line.starts_with("00000002 ") {
        true => [&line[..22], &line[27..31], " ", &line[22..26], &line[31..]].concat(),
        false => line.to_string(),
    };
    let is_same = listing.lines().map(exchanged).eq(archived.lines());
    ensure(is_same, "the listings in both orders differ in their stamps alone")?;
    ensure(listing != archived, "the stored lines show the stamp order")
}

/// The pads of connector 0 come first, then those of connector 1, ..: so they count up.
fn check_pads() -> Result<(), String> {
    let line = |pad: usize| format!("{:08x} {:08x} {pad:08x}\n", pad % 64, pad / 64);
    let lines: String = (0..256).map(line).collect();
    ensure(stored::pads() == lines.as_bytes(), "the pads count up by channel and connector")
}

/// Two events of at most 200 words with several differing words and rows, a tail, and equal ones
/// between them.
fn check_pair() -> Result<(), String> {
    let text = stored::pair();
    let pair = Given::of(&text).pair().ok_or("the stored pair is two lines")?;
    let [first, second] = &pair.events;
    let [words, rows] = [pair.word_list().len(), pair.row_list(Order::DEFAULT).len()];
    ensure(first.len().max(second.len()) <= 200, "the stored pair is of modest size")?;
    let is_several = |count: usize| (5..first.len() / 2).contains(&count);
    ensure(is_several(words) && is_several(rows), "words and rows of the stored pair differ")?;
    ensure(!tail(first, second).is_empty(), "the stored pair has a tail")
}

/// Over 64 events are added, refused lines and lines of each other dialect stand between them, all
/// lines are read, and the hits are those that the peaks should have.
fn check_page() -> Result<(), String> {
    let text = stored::page();
    let shown = Shown::of(&text);
    ensure(text.len() <= 60_000 && !shown.is_cut, "the stored page is of modest size, not cut")?;
    let hits = |pad: usize| page_shape::hits(pad / 64, pad as u32 % 64);
    ensure(shown.plane() == std::array::from_fn(hits), "the hits of the stored page")?;
    let added = shown.count(|line| matches!(line, Line::Added(_)));
    ensure(added > MOST_EVENTS, "events leave the stored page")?;
    for number in [1, 2, 10, 26, 30] {
        let is_there = |line: &Line| matches!(line, Line::Refused(r) if r.number == number);
        ensure(shown.count(is_there) > 0, &format!("{number} in the stored page"))?;
    }
    let others = text.split(|&byte| byte == b'\n').filter_map(|line| line.first());
    let has = |letter: u8| others.clone().any(|&first| first == letter);
    ensure(has(b'F') && has(b'R'), "lines of other dialects in the stored page")
}

/// All that fits is kept, else every second, every third, ..
fn check_thinned() -> Result<(), String> {
    let texts: Vec<Vec<u8>> = (0..12).map(|n| vec![n; 10]).collect();
    let kept = |bytes| stored::thinned(texts.clone(), bytes).iter().map(|text| text[0]).collect();
    let all: Vec<u8> = kept(120);
    ensure(all == (0..12).collect::<Vec<_>>(), "texts that fit are all kept")?;
    let (half, third): (Vec<u8>, Vec<u8>) = (kept(69), kept(40));
    ensure(half == [1, 3, 5, 7, 9, 11] && third == [2, 5, 8, 11], "texts are left out evenly")
}
