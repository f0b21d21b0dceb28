//! Reading and writing, the proved, the second reader's, and a plain copy of the same words and rows.

use crate::calls::Word;
use crate::events::{Events, ORDER};
use crate::timing::{rounds, Times, ROUNDS};
use second::base::Answer;
use second::dialects::{Dialect, Functions};
use std::hint::black_box;

/// The works of a table, by their places in `Times`.
const CHECK: usize = 0;
const READ: usize = 1;
const WRITE: usize = 2;
const SECOND_CHECK: usize = 3;
const SECOND_READ: usize = 4;
const SECOND_WRITE: usize = 5;
const COPY: usize = 6;
const WORKS: usize = 7;

/// Room for the rows, and the words, of any event of the dialect: no event has more rows than words.
struct Room<W> {
    rows: Vec<u32>,
    words: Vec<W>,
}

/// One dialect, with the second reader's functions of it, which are behind pointers and so not inlined, like the proved ones.
pub struct Comparison<W: 'static> {
    dialect: &'static Dialect,
    number: u32,
    second: &'static Functions<W>,
}

fn number_of(answer: Answer) -> usize {
    answer.unwrap_or_else(|refusal| refusal.place) as usize
}

impl<W: Word> Comparison<W> {
    pub fn new(dialect: &'static Dialect, second: &'static Functions<W>) -> Comparison<W> {
        Comparison { dialect, number: dialect.number() as u32, second }
    }

    fn room(&self) -> Room<W> {
        let most = self.dialect.largest_event;
        Room { rows: vec![0; 4 * most], words: vec![W::default(); most] }
    }

    /// Both give each event's rows, and its words back, before anything is timed. A check needs as many rows as are read.
    pub fn agree(&self, events: &Events<W>) {
        let mut room = self.room();
        let sides = [[READ, CHECK, WRITE], [SECOND_READ, SECOND_CHECK, SECOND_WRITE]];
        events.for_each(0, events.count(), |words, rows| {
            for [read, check, write] in sides {
                let count = self.work(read, &mut room, words, rows);
                assert_eq!(count, rows.len() / 4, "rows counted");
                assert!(room.rows[..rows.len()] == *rows, "rows");
                let count = self.work(check, &mut room, words, rows);
                assert_eq!(count, rows.len() / 4, "rows needed");
                let count = self.work(write, &mut room, words, rows);
                assert_eq!(count, words.len(), "words counted");
                assert!(room.words[..words.len()] == *words, "words");
            }
        });
    }

    fn work(&self, which: usize, room: &mut Room<W>, words: &[W], rows: &[u32]) -> usize {
        match which {
            CHECK => W::read(self.number, words, &mut []),
            READ => W::read(self.number, words, &mut room.rows),
            WRITE => W::write(self.number, rows, &mut room.words),
            SECOND_CHECK => number_of(self.second.read(words, ORDER, &mut [])),
            SECOND_READ => number_of(self.second.read(words, ORDER, &mut room.rows)),
            SECOND_WRITE => number_of(self.second.write(rows, ORDER, &mut room.words)),
            _ => {
                room.words[..words.len()].copy_from_slice(words);
                room.rows[..rows.len()].copy_from_slice(rows);
                black_box((&room.words, &room.rows));
                words.len()
            }
        }
    }

    /// A table row: the set's make-up, and the times by word and as ratios. The events are gone through `times` times a round.
    pub fn table_row(&self, name: &str, events: &Events<W>, times: usize) {
        let mut room = self.room();
        let measured = rounds(ROUNDS, WORKS, |which| {
            for _ in 0..times {
                events.for_each(0, events.count(), |words, rows| {
                    black_box(self.work(which, &mut room, words, rows));
                });
            }
        });
        let words = (events.words.len() * times) as f64;
        println!(
            "| {name} | {} | {} | {} | {} |",
            events.count(),
            events.words.len(),
            events.rows.len() / 4,
            columns(&measured, words)
        );
    }

    /// The times by word of one pass over so many events, from different places of the set, so that no pass repeats the one before.
    pub fn growth_row(&self, name: &str, events: &Events<W>, count: usize) {
        let mut room = self.room();
        let mut at = 0;
        let mut words = 0;
        // Short passes differ more from each other.
        let many = if count < 100_000 { 11 * ROUNDS } else { ROUNDS };
        let measured = rounds(many, WORKS, |which| {
            if at + count > events.count() {
                at = 0;
            }
            words = events.for_each(at, count, |words, rows| {
                black_box(self.work(which, &mut room, words, rows));
            });
            at += count;
        });
        println!("| {name} | {count} | {} |", columns(&measured, words as f64));
    }
}

/// ns by word of check, fill, reading, writing, copy; then check, reading and writing by the second reader's, reading and writing by the copy.
fn columns(measured: &Times, words: f64) -> String {
    let ns = [
        measured.of(CHECK),
        measured.more(READ, CHECK),
        measured.of(READ),
        measured.of(WRITE),
        measured.of(COPY),
    ];
    let ratios = [
        measured.ratio(CHECK, SECOND_CHECK),
        measured.ratio(READ, SECOND_READ),
        measured.ratio(WRITE, SECOND_WRITE),
        measured.ratio(READ, COPY),
        measured.ratio(WRITE, COPY),
    ];
    let cells: Vec<String> =
        ns.iter().map(|time| time / words).chain(ratios).map(|cell| format!("{cell:.2}")).collect();
    cells.join(" | ")
}
