//! `pairs`: pairs of events through compare_events and the calls of the library, byte for byte.

use super::child;
use super::difference::{self, judge};
use crate::base::Order;
pub use crate::generate::pair_calls::text as calls_text;
use crate::generate::pair_inputs::Input;
use crate::generate::{pair_calls, pair_inputs};
use crate::pairs::call::Call;
use crate::pairs::counts::Counts;
use crate::pairs::print::Given;
use crate::rng::Rng;

/// How many calls one run of the driver gets.
const BATCH_CALLS: usize = 500;
/// From so many pairs on, each kind must be met.
const LONG_RUN: usize = 2000;

pub struct Settings {
    pub seed: u64,
    pub pairs: usize,
    pub compare_events: String,
    pub pair_calls: String,
}

/// Every edge, then so many random inputs and as many random calls; an error is the report of the
/// first difference. The edges are not counted: the random ones must meet each kind by themselves.
pub fn run(settings: &Settings) -> Result<(), String> {
    for (index, input) in pair_inputs::edges().iter().enumerate() {
        let label = |problem| format!("input {} of the edges: {problem}", index + 1);
        compare_input(settings, input, &mut Counts::new()).map_err(label)?;
    }
    for calls in pair_calls::edges().chunks(BATCH_CALLS) {
        let label = |problem| format!("calls at the edges: {problem}");
        compare_calls(settings, calls, &mut Counts::new()).map_err(label)?;
    }
    let mut counts = Counts::new();
    let mut rng = Rng::new(settings.seed);
    for index in 0..settings.pairs {
        let label = |problem| format!("seed {}, input {}: {problem}", settings.seed, index + 1);
        compare_input(settings, &pair_inputs::random(&mut rng), &mut counts).map_err(label)?;
    }
    for first in (0..settings.pairs).step_by(BATCH_CALLS) {
        let size = BATCH_CALLS.min(settings.pairs - first);
        let calls: Vec<Call> = (0..size).map(|_| pair_calls::random(&mut rng)).collect();
        let label =
            |problem| format!("seed {}, calls from {}: {problem}", settings.seed, first + 1);
        compare_calls(settings, &calls, &mut counts).map_err(label)?;
    }
    print!("{}", counts.report());
    let missing = counts.missing();
    if settings.pairs >= LONG_RUN && !missing.is_empty() {
        return Err(missing.join("; "));
    }
    println!("{} inputs and as many calls, no difference", settings.pairs);
    Ok(())
}

/// One input, in a process of its own.
fn compare_input(settings: &Settings, input: &Input, counts: &mut Counts) -> Result<(), String> {
    let program = &settings.compare_events;
    let running = child::start_in_pieces(program, input.pieces.clone(), input.stays_open)?;
    let text = input.text();
    let given = Given::of(&text);
    counts.add_input(&given, input);
    judge(program, &text, &given.print(Order::DEFAULT), &running.finish(), |_| {
        let is_open = if input.stays_open { ", stays open" } else { "" };
        format!("pieces: {}{is_open}; input: {}", input.pieces.len(), text.escape_ascii())
    })
}

/// Some calls, in one process.
fn compare_calls(settings: &Settings, calls: &[Call], counts: &mut Counts) -> Result<(), String> {
    let text: Vec<u8> = calls.iter().flat_map(Call::text).collect();
    let running = child::start(&settings.pair_calls, text.clone())?;
    let mut expected = Vec::new();
    for call in calls {
        let answer = call.push_answer(&mut expected);
        counts.add_call(call, answer);
    }
    judge(&settings.pair_calls, &text, &expected, &running.finish(), |line| {
        let index = difference::call_of_output(&expected, line);
        let input = calls.get(index).map_or(vec![], Call::text);
        format!("call {} of the batch: {}", index + 1, String::from_utf8_lossy(&input))
    })
}
