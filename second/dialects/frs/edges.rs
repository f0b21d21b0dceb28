//! Systematic events of dialect F, acceptable ones at every edge and refused ones beyond it.

use super::layout::{
    tagged, DATA_FLAG, EMPTY_FLAG, FOOTER_FLAG, HEADER_FLAG, LARGEST_DATUM, PATTERN_FOOTER,
    PATTERN_HEADER, SCALER_FOOTER, SCALER_GEO,
};
use super::make::{module_geos, Block};
use super::{datum_edges, listing, two_faults};
use crate::dialects::{refused, Edges, Probed};

/// F has no lengths: its headers are among the layouts.
pub fn edges() -> Edges<u32> {
    Edges {
        smallest: smallest(),
        layouts: layouts(),
        headers: vec![],
        probed: vec![Probed { words: every_block(), first_word: 0, first_row: 0 }],
        answered: [refused(two_faults::events()), datum_edges::answered(), listing::answered()]
            .concat(),
    }
}

/// The event of spoken case 10.
pub fn smallest() -> Vec<u32> {
    vec![0x0200, 0x00f7_17ff, 0x01f7_38e1, 0x02f7_0563, 0x3200_0001, 0x2a, SCALER_FOOTER]
}

/// The smallest event with more blocks.
pub fn with(blocks: &[Block]) -> Vec<u32> {
    [smallest(), blocks.concat()].concat()
}

fn scaler(count: u32) -> Block {
    let mut words = vec![tagged(SCALER_GEO, HEADER_FLAG, count)];
    words.extend((0..count).map(|index| 0xffff_ffff - index));
    words.push(SCALER_FOOTER);
    words
}

fn pattern_unit() -> Block {
    vec![PATTERN_HEADER, 0x2800_ffff, 0x2801_0010, PATTERN_FOOTER]
}

/// A module with channels from 0 up, each datum the largest.
pub fn module(geo: u32, count: u32) -> Block {
    let mut words = vec![tagged(geo, HEADER_FLAG, count)];
    let data = (0..count).map(|channel| channel % 32 << 16 | LARGEST_DATUM);
    words.extend(data.map(|lower| tagged(geo, DATA_FLAG, lower)));
    words.push(tagged(geo, FOOTER_FLAG, 0xffff));
    words
}

pub fn empty(geo: u32) -> Block {
    vec![tagged(geo, EMPTY_FLAG, 0)]
}

pub fn stamp() -> Block {
    smallest()[..4].to_vec()
}

/// An event with a block of every kind, two scalers and two values.
pub fn every_block() -> Vec<u32> {
    [stamp(), scaler(2), pattern_unit(), module(13, 2), empty(8), module(31, 1)].concat()
}

/// The largest event: all scalers, the pattern unit, all modules with all channels.
pub fn largest() -> Vec<u32> {
    let mut words = [stamp(), scaler(32), pattern_unit()].concat();
    for geo in module_geos() {
        words.extend(module(geo, 32));
    }
    words
}

/// Every layout at and just beyond its edges.
fn layouts() -> Vec<Vec<u32>> {
    let mut events = vec![smallest(), every_block(), largest(), [largest(), vec![0]].concat()];
    for geo in 0..32 {
        events.push(with(&[empty(geo)]));
        events.push(with(&[module(geo, 1)]));
        events.push(with(&[pattern_unit(), module(geo, 2)]));
        events.push(with(&[empty(geo), module(geo, 1)]));
        events.push(with(&[vec![0x6a00_0001, tagged(geo, DATA_FLAG, 97), 0x6c00_0000]]));
        events.push(with(&[vec![0x6a00_0001, 0x6804_0061, tagged(geo, FOOTER_FLAG, 5)]]));
    }
    for channel in 0..32 {
        let data = tagged(13, DATA_FLAG, channel << 16 | 97);
        events.push(with(&[vec![0x6a00_0001, data, 0x6c00_0005]]));
        events.push(with(&[vec![0x6a00_0002, data, 0x6804_0061, 0x6c00_0005]]));
    }
    for count in [0, 1, 2, 31, 32, 33, 34, 62, 63] {
        events.push([stamp(), scaler(count)].concat());
        events.push(with(&[module(0, count)]));
    }
    for flag in 0..8 {
        events.push(with(&[vec![tagged(13, flag, 0)]]));
        events.push(with(&[vec![tagged(13, flag, 1), 0x6804_0061, 0x6c00_0005]]));
    }
    events.extend(misplaced());
    events
}

/// Blocks where they may not stand, and blocks that do not fit.
fn misplaced() -> Vec<Vec<u32>> {
    let mut events = vec![
        with(&[pattern_unit()]),
        with(&[pattern_unit(), pattern_unit()]),
        with(&[empty(8), pattern_unit()]),
        with(&[empty(5)]),
        with(&[scaler(1)]),
        with(&[vec![0x4600_0000, 0x4600_0000]]),
        with(&[module(8, 2), module(8, 2)]),
        [stamp(), pattern_unit(), scaler(1)].concat(),
        [stamp(), module(8, 2)].concat(),
    ];
    let whole = every_block();
    for count in 0..whole.len() {
        events.push(whole[..count].to_vec());
    }
    events
}
