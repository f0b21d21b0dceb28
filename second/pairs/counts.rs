//! How often each kind of input and of call was met.

use super::call::{Answer, Call};
use super::kinds::calls::{self, CallFacts};
use super::kinds::inputs::{InputFacts, INPUTS, LINES};
use super::kinds::{Compared, Kind, PAIRS, SOME_PAIRS};
use super::print::Given;
use crate::base::Order;
use crate::dialects::DIALECTS;
use crate::generate::pair_inputs::Input;
use std::collections::BTreeMap;

#[derive(Clone, Copy, PartialEq, Eq, PartialOrd, Ord, Debug)]
enum Source {
    Input,
    Call,
}

/// The letter where a kind is not counted for each dialect.
const ANY_LETTER: char = '-';

/// The kinds of a table.
struct Table {
    source: Source,
    /// Is each dialect counted by itself?
    of_dialects: bool,
    names: Vec<&'static str>,
}

fn tables() -> Vec<Table> {
    fn table<T>(source: Source, of_dialects: bool, kinds: &[Kind<T>]) -> Table {
        Table { source, of_dialects, names: kinds.iter().map(|kind| kind.0).collect() }
    }
    vec![
        table(Source::Input, true, &PAIRS),
        table(Source::Input, true, &LINES),
        table(Source::Input, false, &SOME_PAIRS),
        table(Source::Input, false, &INPUTS),
        table(Source::Call, true, &PAIRS),
        table(Source::Call, true, &calls::CALLS),
        table(Source::Call, true, &calls::OTHER_WIDTH),
        table(Source::Call, false, &SOME_PAIRS),
        table(Source::Call, false, &calls::SOME_OTHER_WIDTH),
        table(Source::Call, false, &calls::ANY),
    ]
}

impl Table {
    fn letters(&self) -> Vec<char> {
        match self.of_dialects {
            true => DIALECTS.map(|dialect| dialect.letter).to_vec(),
            false => vec![ANY_LETTER],
        }
    }
}

/// For a source, a letter and a kind's name.
pub struct Counts(BTreeMap<(Source, char, &'static str), u64>);

impl Counts {
    pub fn new() -> Counts {
        Counts(BTreeMap::new())
    }

    fn add<T>(&mut self, source: Source, letter: char, kinds: &[Kind<T>], facts: &T) {
        for (name, holds) in kinds {
            *self.0.entry((source, letter, name)).or_insert(0) += u64::from(holds(facts));
        }
    }

    fn add_pair(&mut self, source: Source, letter: char, compared: &Compared) {
        self.add(source, letter, &PAIRS, compared);
        self.add(source, ANY_LETTER, &SOME_PAIRS, compared);
    }

    pub fn add_input(&mut self, given: &Given, input: &Input) {
        let letter = given.dialect.letter;
        let facts = InputFacts::of(given, input);
        self.add(Source::Input, letter, &LINES, &facts);
        self.add(Source::Input, ANY_LETTER, &INPUTS, &facts);
        if let Some(pair) = given.pair() {
            self.add_pair(Source::Input, letter, &Compared::of(&pair, Order::DEFAULT));
        }
    }

    pub fn add_call(&mut self, call: &Call, answer: Answer) {
        let letter = call.pair.dialect.letter;
        let compared = Compared::of(&call.pair, call.order());
        let facts = CallFacts { call: call.clone(), compared, answer };
        self.add(Source::Call, ANY_LETTER, &calls::ANY, &facts);
        if call.pair.bits == call.pair.dialect.word_bits() {
            self.add(Source::Call, letter, &calls::CALLS, &facts);
            self.add_pair(Source::Call, letter, &facts.compared);
        } else {
            self.add(Source::Call, letter, &calls::OTHER_WIDTH, &facts);
            self.add(Source::Call, ANY_LETTER, &calls::SOME_OTHER_WIDTH, &facts);
        }
    }

    fn count(&self, source: Source, letter: char, name: &'static str) -> u64 {
        self.0.get(&(source, letter, name)).copied().unwrap_or(0)
    }

    /// The kinds that were not met.
    pub fn missing(&self) -> Vec<String> {
        let mut missing = Vec::new();
        for table in tables() {
            for letter in table.letters() {
                let unmet = |name: &&&'static str| self.count(table.source, letter, name) == 0;
                let say = |name| format!("not met: {:?} {letter} {name}", table.source);
                missing.extend(table.names.iter().filter(unmet).map(say));
            }
        }
        missing
    }

    /// A line for each kind, with a count for each dialect or one for all.
    pub fn report(&self) -> String {
        let mut text = String::from("kind                                       ");
        DIALECTS.iter().for_each(|dialect| text += &format!(" {:>7}", dialect.letter));
        text.push('\n');
        for table in tables() {
            for name in &table.names {
                text += &format!("{:<6}{name:<37}", format!("{:?}", table.source));
                for letter in table.letters() {
                    text += &format!(" {:7}", self.count(table.source, letter, name));
                }
                text.push('\n');
            }
        }
        text
    }
}
