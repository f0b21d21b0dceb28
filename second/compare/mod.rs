//! `compare`: every edge and random events through the programs under test, byte for byte.

mod child;
mod difference;
pub mod pages;
pub mod pairs;

use crate::base::{Answer, Order};
use crate::dialects::Words;
use crate::generate::cases::{self, Case};
use crate::generate::{damage_line, limits};
use crate::host::{self, HostCall};
use crate::rng::Rng;
use crate::tally::{Tally, SOURCES};
use crate::vectors::Vector;
use crate::{lines, stored};
use difference::judge;

/// A batch ends when it has so many events or so many bytes of vectors. One event adds at most
/// two vectors of some 190,000 bytes, so the input stays below 1,048,576 bytes.
const BATCH_EVENTS: usize = 1000;
const BATCH_BYTES: usize = 600_000;
/// From so many events on, each wanted refusal must be met and the limits are tried.
const LONG_RUN: usize = 10_000;

pub struct Settings {
    pub seed: u64,
    pub events: usize,
    pub list_events: String,
    pub list_archive_events: String,
    pub run_vectors: String,
    pub host_calls: String,
}

impl Settings {
    /// The paths of the line programs, each with the stamp order in which it lists (02, #105).
    fn line_programs(&self) -> [(&str, Order); 2] {
        [(&self.list_events, Order::DEFAULT), (&self.list_archive_events, Order::Crossed)]
    }
}

struct Batch {
    /// The index of the first event among all.
    first_event: usize,
    cases: Vec<Case>,
    host_calls: Vec<HostCall>,
    /// Standard input of the line programs, of run_vectors and of the host call's driver.
    line_text: Vec<u8>,
    vector_text: Vec<u8>,
    host_text: Vec<u8>,
}

/// Runs the whole comparison; an error is the report of the first difference.
pub fn run(settings: &Settings) -> Result<(), String> {
    let mut tally = Tally::new();
    let mut rng = Rng::new(settings.seed);
    let mut done = 0;
    compare_batch(settings, &Batch::of_host_edges(), &mut tally)?;
    compare_edges(settings)?;
    while done < settings.events {
        let batch = Batch::random(&mut rng, done, settings.events - done);
        compare_batch(settings, &batch, &mut tally)?;
        done += batch.cases.len();
    }
    if settings.events >= LONG_RUN {
        compare_limits(settings)?;
    }
    print!("{}", tally.report());
    let mut faults = tally.unwanted();
    if settings.events >= LONG_RUN {
        faults.extend(tally.missing(&SOURCES));
    }
    if !faults.is_empty() {
        return Err(faults.join("; "));
    }
    println!("{done} events, no difference");
    Ok(())
}

impl Batch {
    fn empty() -> Batch {
        Batch {
            first_event: 0,
            cases: vec![],
            host_calls: vec![],
            line_text: vec![],
            vector_text: vec![],
            host_text: vec![],
        }
    }

    /// No line, no vector, and the edges of the host call.
    fn of_host_edges() -> Batch {
        let mut batch = Batch::empty();
        host::edges().into_iter().for_each(|call| batch.push_host(call));
        batch
    }

    fn push_host(&mut self, call: HostCall) {
        self.host_text.extend(call.text());
        self.host_calls.push(call);
    }

    fn push_line(&mut self, line: &[u8]) {
        self.line_text.extend_from_slice(line);
        self.line_text.push(b'\n');
    }

    /// The next batch of these edges.
    fn of_edges(lines: &mut Vec<Vec<u8>>, calls: &mut impl Iterator<Item = Vector>) -> Batch {
        let mut batch = Batch::empty();
        lines.drain(..).for_each(|line| batch.push_line(&line));
        while batch.vector_text.len() < BATCH_BYTES {
            let Some(vector) = calls.next() else { break };
            batch.vector_text.extend(vector.text());
            batch.cases.push(Case { line: vec![], vectors: vec![vector] });
        }
        batch
    }

    fn random(rng: &mut Rng, first_event: usize, most: usize) -> Batch {
        let mut batch = Batch { first_event, ..Batch::empty() };
        let size = most.min(rng.within(BATCH_EVENTS / 2, BATCH_EVENTS));
        while batch.cases.len() < size && batch.vector_text.len() < BATCH_BYTES {
            let case = cases::random(rng);
            batch.push_line(&case.line);
            for vector in &case.vectors {
                batch.vector_text.extend(vector.text());
            }
            batch.cases.push(case);
            batch.push_host(host::random(rng));
        }
        end_lines(rng, &mut batch.line_text);
        batch
    }

    /// What run_vectors and the host call's driver should put out.
    fn expected(&self, tally: &mut Tally) -> [Vec<u8>; 2] {
        let [mut answers, mut hosts] = [vec![], vec![]];
        for vector in self.cases.iter().flat_map(|case| &case.vectors) {
            let answer = vector.push_answer(&mut answers);
            tally.add_call(vector, answer);
        }
        for call in &self.host_calls {
            tally.add_host(call.push_answer(&mut hosts));
        }
        [answers, hosts]
    }
}

/// Ends of the line input: as it is, without the last line feed, with a line of the largest
/// length, or with one too long, after which more may follow.
fn end_lines(rng: &mut Rng, text: &mut Vec<u8>) {
    match rng.below(8) {
        0 => drop(text.pop()),
        1 => text.extend_from_slice(&damage_line::longest(rng)),
        2 => text.extend_from_slice(&damage_line::too_long(rng)),
        3 => {
            text.extend_from_slice(&damage_line::too_long(rng));
            text.extend_from_slice(b"\nS 0001\n");
        }
        4 => text.push(b'\n'),
        _ => {}
    }
}

fn compare_batch(settings: &Settings, batch: &Batch, tally: &mut Tally) -> Result<(), String> {
    let first = batch.first_event + 1;
    let label = |problem: String| format!("seed {}, events from {first}: {problem}", settings.seed);
    let mut note = |words: Option<&Words>, answer| tally.add_line(words, answer);
    compare_listings(settings, &batch.line_text, &mut note, |expected, line| {
        let (event, input) = difference::line_of_output(&batch.line_text, expected, line);
        format!("event {} of the run, input line: {input}", first + event)
    })
    .map_err(label)?;
    let calls = child::start(&settings.run_vectors, batch.vector_text.clone()).map_err(label)?;
    let hosts = child::start(&settings.host_calls, batch.host_text.clone()).map_err(label)?;
    let [expected_answers, expected_hosts] = batch.expected(tally);
    let calls = calls.finish();
    let hosts = hosts.finish();
    judge(&settings.run_vectors, &batch.vector_text, &expected_answers, &calls, |line| {
        let index = difference::call_of_output(&expected_answers, line);
        let (event, input) = vector_input(batch, index);
        format!("event {} of the run, input vector:\n{input}", first + event)
    })
    .map_err(label)?;
    judge(&settings.host_calls, &batch.host_text, &expected_hosts, &hosts, |line| {
        let input = batch.host_calls.get(line).map_or(vec![], HostCall::text);
        format!("host call {} of the batch: {}", line + 1, String::from_utf8_lossy(&input))
    })
    .map_err(label)
}

/// Each line program on the same lines; `describe` takes what was expected of it and an output line.
/// Both orders answer a line alike, so it is given to `note` once.
fn compare_listings(
    settings: &Settings,
    input: &[u8],
    note: &mut dyn FnMut(Option<&Words>, Answer),
    describe: impl Fn(&[u8], usize) -> String,
) -> Result<(), String> {
    let programs = settings.line_programs();
    let started = programs.iter().map(|(path, _)| child::start(path, input.to_vec()));
    let started = started.collect::<Result<Vec<_>, _>>()?;
    for ((path, order), running) in programs.into_iter().zip(started) {
        let mut expected = Vec::new();
        lines::list(input, order, &mut expected, &mut |words, answer| {
            if order == Order::DEFAULT {
                note(words, answer);
            }
        });
        judge(path, input, &expected, &running.finish(), |line| describe(&expected, line))?;
    }
    Ok(())
}

/// The event that a vector of the batch belongs to, and the vector's text.
fn vector_input(batch: &Batch, index: usize) -> (usize, String) {
    let mut vectors_before = 0;
    for (event, case) in batch.cases.iter().enumerate() {
        if index < vectors_before + case.vectors.len() {
            let text = case.vectors[index - vectors_before].text();
            return (event, String::from_utf8_lossy(&text).into_owned());
        }
        vectors_before += case.vectors.len();
    }
    (batch.cases.len(), "(none: output after the last vector's)".to_string())
}

/// Every edge of every dialect. They are not counted: a long run must meet each refusal by
/// itself.
fn compare_edges(settings: &Settings) -> Result<(), String> {
    let mut lines = stored::edge_lines();
    let mut calls = stored::edge_calls().into_iter().peekable();
    while !lines.is_empty() || calls.peek().is_some() {
        let batch = Batch::of_edges(&mut lines, &mut calls);
        let label = |problem| format!("edges: {problem}");
        compare_batch(settings, &batch, &mut Tally::new()).map_err(label)?;
    }
    Ok(())
}

/// The inputs at the limits of the listing.
fn compare_limits(settings: &Settings) -> Result<(), String> {
    limits::each(&mut |what, input| {
        compare_listings(settings, &input, &mut |_, _| {}, |_, _| what.to_string())
    })
}
