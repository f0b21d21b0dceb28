//! Counts of answers met, by source and dialect.

use crate::base::{Answer, Order};
use crate::dialects::{Dialect, Special, Words, DIALECTS};
use crate::vectors::{self, Call, Vector};
use crate::{host, lines};
use std::collections::BTreeMap;

#[derive(Clone, Copy, PartialEq, Eq, PartialOrd, Ord, Debug)]
pub enum Source {
    Line,
    Reading,
    Writing,
    Host,
}

use Source::{Host, Line, Reading, Writing};

pub const SOURCES: [Source; 4] = [Line, Reading, Writing, Host];

/// A source and a dialect, with the refusals that a long comparison must have met.
struct Column {
    source: Source,
    /// The dialect's letter, `-` where a line has none.
    letter: char,
    wanted: Vec<u32>,
}

fn columns() -> Vec<Column> {
    let column =
        |source, letter, wanted: &[u32]| Column { source, letter, wanted: wanted.to_vec() };
    let mut columns = Vec::new();
    columns.extend(DIALECTS.map(|dialect| column(Line, dialect.letter, dialect.wanted.reading)));
    columns.push(column(Line, '-', &[30]));
    columns.extend(
        DIALECTS.map(|dialect| {
            column(Reading, dialect.letter, &[dialect.wanted.reading, &[12]].concat())
        }),
    );
    columns.extend(DIALECTS.map(|dialect| column(Writing, dialect.letter, dialect.wanted.writing)));
    let host_wanted = [host::DIALECT.wanted.reading, &[31]].concat();
    columns.push(column(Host, host::DIALECT.letter, &host_wanted));
    columns
}

/// The source, the letter and the name of a special answer.
type SpecialKey = (Source, char, &'static str);

/// The special answers of a dialect to what comes from a source.
fn special_of(source: Source, dialect: &'static Dialect) -> &'static Special {
    match source {
        Line | Reading => &dialect.wanted.special,
        Writing => &dialect.wanted.special_writing,
        Host => &Special::NONE,
    }
}

/// The special answers of all dialects.
fn specials() -> Vec<SpecialKey> {
    let mut all = Vec::new();
    for dialect in DIALECTS {
        for source in SOURCES {
            let names = special_of(source, dialect).names.iter();
            all.extend(names.map(|name| (source, dialect.letter, *name)));
        }
    }
    all
}

/// How often each answer was met.
pub struct Tally {
    /// For a source, a letter and a refusal number (0 for an acceptance).
    met: BTreeMap<(Source, char, u32), u64>,
    special: BTreeMap<SpecialKey, u64>,
}

impl Tally {
    pub fn new() -> Tally {
        Tally { met: BTreeMap::new(), special: BTreeMap::new() }
    }

    /// The answers to a text of lines.
    pub fn of_lines(text: &[u8]) -> Tally {
        let mut tally = Tally::new();
        let mut note = |words: Option<&Words>, answer| tally.add_line(words, answer);
        lines::list(text, Order::DEFAULT, &mut Vec::new(), &mut note);
        tally
    }

    /// The answers to a text of vectors.
    pub fn of_vectors(text: &[u8]) -> Result<Tally, String> {
        let mut tally = Tally::new();
        for vector in vectors::parse(text)? {
            let answer = vector.push_answer(&mut Vec::new());
            tally.add_call(&vector, answer);
        }
        Ok(tally)
    }

    fn add(&mut self, source: Source, letter: char, answer: Answer) {
        let number = answer.err().map_or(0, |refusal| refusal.number);
        *self.met.entry((source, letter, number)).or_insert(0) += 1;
    }

    pub fn add_line(&mut self, words: Option<&Words>, answer: Answer) {
        let Some(Words { dialect, words }) = words else { return self.add(Line, '-', answer) };
        self.add_special(Line, dialect, words, answer);
        self.add(Line, dialect.letter, answer);
    }

    fn add_special(
        &mut self,
        source: Source,
        dialect: &'static Dialect,
        given: &[u32],
        answer: Answer,
    ) {
        if let Some(name) = (special_of(source, dialect).name_of)(given, answer) {
            *self.special.entry((source, dialect.letter, name)).or_insert(0) += 1;
        }
    }

    pub fn add_call(&mut self, vector: &Vector, answer: Answer) {
        let source = match vector.call {
            Call::Write => Writing,
            Call::Read => Reading,
        };
        self.add_special(source, vector.dialect, &vector.elements, answer);
        self.add(source, vector.dialect.letter, answer);
    }

    pub fn add_host(&mut self, answer: Answer) {
        self.add(Host, host::DIALECT.letter, answer);
    }

    fn count(&self, column: &Column, number: u32) -> u64 {
        self.met.get(&(column.source, column.letter, number)).copied().unwrap_or(0)
    }

    fn special_count(&self, key: &SpecialKey) -> u64 {
        self.special.get(key).copied().unwrap_or(0)
    }

    /// What these sources should have met and have not.
    pub fn missing(&self, sources: &[Source]) -> Vec<String> {
        let mut missing = Vec::new();
        for column in columns().iter().filter(|column| sources.contains(&column.source)) {
            let unmet = column.wanted.iter().filter(|&&number| self.count(column, number) == 0);
            let name = |n| format!("not met: {:?} {} {n}", column.source, column.letter);
            missing.extend(unmet.map(name));
        }
        for key @ (source, letter, name) in specials() {
            if sources.contains(&source) && self.special_count(&key) == 0 {
                missing.push(format!("not met: {source:?} {letter} {name}"));
            }
        }
        missing
    }

    /// Refusals that were met and that no table demands: there a number was forgotten.
    pub fn unwanted(&self) -> Vec<String> {
        let columns = columns();
        let is_wanted = |&&(source, letter, number): &&(Source, char, u32)| {
            let of_column = |c: &&Column| c.source == source && c.letter == letter;
            number == 0
                || columns.iter().find(of_column).is_some_and(|c| c.wanted.contains(&number))
        };
        let others = self.met.keys().filter(|key| !is_wanted(key));
        others
            .map(|(source, letter, n)| format!("met, not wanted: {source:?} {letter} {n}"))
            .collect()
    }

    /// A table of all that was met or wanted; refusal 0 is acceptance.
    pub fn report(&self) -> String {
        let columns = columns();
        let wanted = columns.iter().flat_map(|column| column.wanted.iter().copied());
        let mut numbers: Vec<u32> = self.met.keys().map(|key| key.2).chain(wanted).collect();
        numbers.sort_unstable();
        numbers.dedup();
        let mut text = String::from("refusal  from all");
        for column in &columns {
            text += &format!(" {:>9}", format!("{:?} {}", column.source, column.letter));
        }
        text.push('\n');
        for number in numbers {
            let counts = columns.iter().map(|column| self.count(column, number));
            text += &format!("{number:7} {:9}", counts.clone().sum::<u64>());
            counts.for_each(|count| text += &format!(" {count:9}"));
            text.push('\n');
        }
        for key @ (source, letter, name) in specials() {
            text += &format!("{source:?} {letter} {name}: {}\n", self.special_count(&key));
        }
        text
    }
}
