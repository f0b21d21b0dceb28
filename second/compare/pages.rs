//! `pages`: sequences of calls of the page and inputs of show_page, byte for byte.

use super::child;
use super::difference::{self, judge};
pub use crate::generate::page_calls::text as calls_text;
use crate::generate::pair_inputs::Input;
use crate::generate::{limits, page_calls, page_edges, page_inputs};
use crate::page::call::Step;
use crate::page::counts::{Before, Counts};
use crate::page::lent::Lent;
use crate::page::print::Shown;
use crate::rng::Rng;

/// How many sequences one run of the driver gets.
const BATCH_SEQUENCES: usize = 40;
/// From so many sequences on, each kind must be met.
const LONG_RUN: usize = 1000;

pub struct Settings {
    pub seed: u64,
    pub sequences: usize,
    pub page_calls: String,
    pub show_page: String,
}

/// Every edge, then so many random inputs and as many random sequences; an error is the report of the
/// first difference. The edges are not counted: the random ones must meet each kind by themselves.
pub fn run(settings: &Settings) -> Result<(), String> {
    compare_edges(settings)?;
    let mut counts = Counts::new();
    let mut rng = Rng::new(settings.seed);
    for index in 0..settings.sequences {
        let label = |problem| format!("seed {}, input {}: {problem}", settings.seed, index + 1);
        let shown = compare_input(settings, &page_inputs::random(&mut rng), &mut counts);
        shown.map_err(label)?;
    }
    let mut calls = 0;
    for first in (0..settings.sequences).step_by(BATCH_SEQUENCES) {
        let size = BATCH_SEQUENCES.min(settings.sequences - first);
        let sequences: Vec<Vec<Step>> = (0..size).map(|_| page_calls::random(&mut rng)).collect();
        let label =
            |problem| format!("seed {}, sequences from {}: {problem}", settings.seed, first + 1);
        calls += compare_calls(settings, &sequences, &mut counts).map_err(label)?;
    }
    print!("{}", counts.report());
    let missing = counts.missing();
    if settings.sequences >= LONG_RUN && !missing.is_empty() {
        return Err(missing.join("; "));
    }
    let sequences = settings.sequences;
    println!("{sequences} inputs and as many sequences of {calls} calls, no difference");
    Ok(())
}

fn compare_edges(settings: &Settings) -> Result<(), String> {
    for (index, input) in page_inputs::edges().iter().enumerate() {
        let label = |problem| format!("input {} of the edges: {problem}", index + 1);
        compare_input(settings, input, &mut Counts::new()).map_err(label)?;
    }
    limits::read_ends(&mut |what, text| {
        let input = Input::whole(text);
        compare_input(settings, &input, &mut Counts::new()).map_err(|p| format!("{what}: {p}"))
    })?;
    for sequences in page_edges::all().chunks(BATCH_SEQUENCES) {
        let label = |problem| format!("calls at the edges: {problem}");
        compare_calls(settings, sequences, &mut Counts::new()).map_err(label)?;
    }
    Ok(())
}

/// One input, in a process of its own.
fn compare_input(settings: &Settings, input: &Input, counts: &mut Counts) -> Result<(), String> {
    let program = &settings.show_page;
    let running = child::start_in_pieces(program, input.pieces.clone(), input.stays_open)?;
    let text = input.text();
    let shown = Shown::of(&text);
    let print = shown.print();
    counts.add_input(input, shown);
    judge(program, &text, &print, &running.finish(), |_| {
        let is_open = if input.stays_open { ", stays open" } else { "" };
        format!("pieces: {}{is_open}; {} characters", input.pieces.len(), text.len())
    })
}

/// Some sequences, in one process. The answer is the number of calls.
fn compare_calls(
    settings: &Settings,
    sequences: &[Vec<Step>],
    counts: &mut Counts,
) -> Result<usize, String> {
    let steps: Vec<&Step> = sequences.iter().flatten().collect();
    let text: Vec<u8> = steps.iter().flat_map(|step| step.text()).collect();
    let running = child::start(&settings.page_calls, text.clone())?;
    let (mut lent, mut expected, mut calls) = (Lent::new(), Vec::new(), Vec::new());
    for step in steps {
        let before = match step {
            Step::Call(call) => Some(Before::of(call, &lent)),
            _ => None,
        };
        let came = lent.take(step);
        if let (Some(before), Some(came)) = (before, came) {
            lent.push_text(&came, &mut expected);
            counts.add_call(before, &came);
            calls.push(step);
        }
    }
    judge(&settings.page_calls, &text, &expected, &running.finish(), |line| {
        let index = difference::call_of_output(&expected, line);
        let input = calls.get(index).map_or(vec![], |step| step.text());
        format!("call {} of the batch: {}", index + 1, String::from_utf8_lossy(&input))
    })?;
    Ok(calls.len())
}
