//! The check of bytes, as C calls it.

use crate::calls;
use crate::events::Events;
use crate::timing::{rounds, ROUNDS};
use second::host::{packed, HostCall};
use std::hint::black_box;

const PROVED: usize = 0;
const SECOND: usize = 1;

fn answer(which: usize, call: &HostCall) -> u64 {
    if which == PROVED {
        calls::host(&call.bytes)
    } else {
        packed(call.answer())
    }
}

pub fn table_row(name: &str, events: &Events<u16>, times: usize) {
    let mut calls = Vec::new();
    events.for_each(0, events.count(), |words, _| {
        calls.push(HostCall {
            order: 0,
            bytes: words.iter().flat_map(|word| word.to_le_bytes()).collect(),
        });
    });
    for call in &calls {
        assert_eq!(answer(PROVED, call), answer(SECOND, call), "answers");
    }
    let measured = rounds(ROUNDS, 2, |which| {
        for call in (0..times).flat_map(|_| &calls) {
            black_box(answer(which, call));
        }
    });
    let made = times as f64;
    println!(
        "| {name} | {} | {:.1} | {:.2} | {:.2} |",
        calls.len(),
        measured.of(PROVED) / made / calls.len() as f64,
        measured.of(PROVED) / made / events.words.len() as f64,
        measured.ratio(PROVED, SECOND)
    );
}
