//! How often each kind of call and of input was met.

use super::call::{Call, NAMES};
use super::kinds::calls::{CallFacts, ANSWERS, EVERY};
use super::kinds::inputs::{InputFacts, INPUTS};
use super::kinds::own::{ADD, CLEAR, DROP, EVENT_K, EVENT_WORDS, PLANE};
use super::kinds::Kind;
use super::lent::{Came, Lent};
use super::print::Shown;
use crate::generate::pair_inputs::Input;
use std::collections::BTreeMap;

/// The name under which the kinds of inputs are counted.
const INPUT: &str = "input";

/// What a call's kinds are judged by; taken before the call.
pub struct Before(CallFacts);

impl Before {
    pub fn of(call: &Call, lent: &Lent) -> Before {
        Before(CallFacts::before(call, lent))
    }
}

/// For the name of a call, or of inputs, and a kind's name.
pub struct Counts(BTreeMap<(&'static str, &'static str), u64>);

/// The kinds of a call.
fn tables(call: &str) -> Vec<&'static [Kind<CallFacts>]> {
    let own: Vec<&[Kind<CallFacts>]> = match call {
        "clear" => return vec![&CLEAR],
        "add" => vec![&ADD, &ANSWERS],
        "drop" => vec![&DROP, &ANSWERS],
        "find" => vec![&EVENT_K, &ANSWERS],
        "event" => vec![&EVENT_K, &EVENT_WORDS],
        "plane" => vec![&PLANE],
        _ => vec![&ANSWERS],
    };
    [&[&EVERY[..]], &own[..]].concat()
}

/// All names with all their kinds.
fn all() -> Vec<(&'static str, &'static str)> {
    let of_call = |call: &&'static str| {
        let (call, tables) = (*call, tables(call));
        let kinds = tables.into_iter().flatten().map(move |kind| (call, kind.0));
        kinds.collect::<Vec<_>>()
    };
    let inputs = INPUTS.iter().map(|kind| (INPUT, kind.0));
    inputs.chain(NAMES.iter().flat_map(of_call)).collect()
}

impl Counts {
    pub fn new() -> Counts {
        Counts(all().into_iter().map(|key| (key, 0)).collect())
    }

    fn add<T>(&mut self, name: &'static str, kinds: &[Kind<T>], facts: &T) {
        for (kind, holds) in kinds {
            *self.0.entry((name, kind)).or_insert(0) += u64::from(holds(facts));
        }
    }

    pub fn add_call(&mut self, before: Before, came: &Came) {
        let facts = before.0.with(came);
        let name = facts.call.name();
        tables(name).into_iter().for_each(|kinds| self.add(name, kinds, &facts));
    }

    pub fn add_input(&mut self, input: &Input, shown: Shown) {
        self.add(INPUT, &INPUTS, &InputFacts::of(input, shown));
    }

    /// The kinds that were not met.
    pub fn missing(&self) -> Vec<String> {
        let unmet = all().into_iter().filter(|key| self.0[key] == 0);
        unmet.map(|(name, kind)| format!("not met: {name}, {kind}")).collect()
    }

    /// A line for each kind.
    pub fn report(&self) -> String {
        let line = |key: (&str, &str)| format!("{:<11}{:<35} {:7}\n", key.0, key.1, self.0[&key]);
        all().into_iter().map(line).collect()
    }
}
