//! Systematic events of dialect R, acceptable ones at every edge and refused ones beyond it.

use super::layout::{
    header, CHECK_SUM, DRIFT_CHAMBER, INPUT_REGISTER, LARGEST_SIZE, MODULE, OPAQUE, SCALER,
    SUM_HEADER,
};
use super::make::{event_of, region, summed, Region};
use super::read::LARGEST_EVENT;
use super::two_faults;
use crate::dialects::{refused, Edges, Probed};

pub fn edges() -> Edges<u16> {
    Edges {
        smallest: smallest(),
        layouts: layouts(),
        headers: ids_and_sizes(),
        probed: probed(),
        answered: refused(two_faults::events()),
    }
}

/// The event of the sum alone.
pub fn smallest() -> Vec<u16> {
    with(&[])
}

/// The event of some regions, with its sum.
pub fn with(regions: &[Region]) -> Vec<u16> {
    event_of(&summed(regions.to_vec()))
}

fn input_register() -> Region {
    region(INPUT_REGISTER, &[0x1c3a])
}

/// A region of equal words, but for a module header at the front of region 7.
pub fn filled(id: u32, size: usize, word: u16) -> Region {
    let mut content = vec![word; size];
    if id == DRIFT_CHAMBER && size > 0 {
        content[0] = MODULE | 0x0961;
    }
    region(id, &content)
}

/// The most words behind the header of a region in an acceptable event.
pub const FULLEST: usize = LARGEST_EVENT - 3;

/// The largest events, of a single region or nearly so.
fn largest() -> Vec<Vec<u16>> {
    let scalers = [filled(OPAQUE[1], 0, 0), filled(SCALER, FULLEST - 1, 0xff)];
    vec![
        with(&[filled(OPAQUE[0], FULLEST, 0xffff)]),
        with(&[filled(DRIFT_CHAMBER, FULLEST, 0x7fff)]),
        with(&scalers),
    ]
}

/// An event with a region of every id.
fn every_region() -> Vec<u16> {
    let mut regions = vec![input_register()];
    regions.push(region(SCALER, &[0xcc66, 0x0008, 0xffff, 0x00ff]));
    regions.push(region(DRIFT_CHAMBER, &[0x8961, 0x5d79, 0xbfff]));
    regions.extend(OPAQUE.map(|id| region(id, &[0x8000 | id as u16])));
    with(&regions)
}

/// The smallest event, and one with a small region of each form.
fn probed() -> Vec<Probed<u16>> {
    let regions = [
        input_register(),
        region(OPAQUE[0], &[0x0096, 0xffff]),
        region(SCALER, &[0xcc66, 0x0008, 0xffff, 0x00ff]),
        region(DRIFT_CHAMBER, &[0x8961, 0x5d79, 0x8900]),
    ];
    let mut events = vec![smallest()];
    events.extend(regions.map(|region| with(&[region])));
    events.into_iter().map(|words| Probed { words, first_word: 0, first_row: 0 }).collect()
}

/// Every layout at and just beyond its edges.
fn layouts() -> Vec<Vec<u16>> {
    let mut events = vec![smallest(), every_region()];
    events.extend(largest());
    events.extend(scalers());
    events.extend(modules());
    events.extend(sums());
    events.extend(misplaced());
    events
}

/// Upper halves of each limit, in the first scaler and in the second.
fn scalers() -> Vec<Vec<u16>> {
    let mut events = Vec::new();
    for upper in [0, 1, 0xff, 0x100, 0x1ff, 0x8000, 0xffff] {
        events.push(with(&[region(SCALER, &[0xffff, upper])]));
        events.push(with(&[region(SCALER, &[0, upper, 1, 0])]));
        events.push(with(&[region(SCALER, &[0xffff, 0xff, 0, upper])]));
    }
    events
}

/// One word and two words at the limits of module headers and data words; a third of each kind.
fn modules() -> Vec<Vec<u16>> {
    let limits = [0x8000, 0x80ff, 0xb800, 0xbfff, 0xc000, 0xffff, 0, 0x3ff, 0x4000, 0x7fff];
    let mut events = Vec::new();
    for first in limits {
        events.push(with(&[region(DRIFT_CHAMBER, &[first])]));
        for second in limits {
            events.push(with(&[region(DRIFT_CHAMBER, &[first, second])]));
        }
        events.push(with(&[region(DRIFT_CHAMBER, &[0x8961, 0x5d79, first])]));
        events.push(with(&[region(DRIFT_CHAMBER, &[0x8961, 0x8961, first])]));
        // A data word next to a region, or to an empty one, of its own id.
        events.push(with(&[region(DRIFT_CHAMBER, &[0x8961]), region(DRIFT_CHAMBER, &[first])]));
        events.push(with(&[region(DRIFT_CHAMBER, &[]), region(DRIFT_CHAMBER, &[first])]));
    }
    events
}

/// Each limit as the last word, with a sum that is right, and too large or too small by one and by
/// a bit of each half.
fn sums() -> Vec<Vec<u16>> {
    let mut events = Vec::new();
    for last in [0u16, 1, 0x7fff, 0x8000, 0xfffe, 0xffff] {
        let heads = header(OPAQUE[0], 1).wrapping_add(SUM_HEADER);
        let word = last.wrapping_add(heads).wrapping_neg();
        for off in [0, 1, 0xffff, 0x100, 0x8000] {
            let sum = region(CHECK_SUM, &[last.wrapping_add(off)]);
            events.push(event_of(&[region(OPAQUE[0], &[word]), sum]));
        }
    }
    // A sum of many carries, and one without the headers.
    events.push(with(&[filled(OPAQUE[4], 64, 0xffff)]));
    events.push(event_of(&[region(OPAQUE[0], &[1]), region(CHECK_SUM, &[0xffff])]));
    events
}

/// Regions in other orders and again, behind region 15, and events without one or cut off.
fn misplaced() -> Vec<Vec<u16>> {
    let (register, empty) = (input_register(), filled(OPAQUE[0], 0, 0));
    let mut events = vec![
        with(&[register.clone(), register.clone()]),
        with(&[filled(SCALER, 2, 0), filled(SCALER, 2, 1), filled(SCALER, 0, 0)]),
        with(&[empty.clone(), register.clone(), empty.clone(), empty.clone()]),
        with(&[filled(OPAQUE[6], 1, SUM_HEADER), empty.clone()]),
        [smallest(), smallest()].concat(),
        [smallest(), register.clone()].concat(),
        [with(&[register.clone()]), empty.clone()].concat(),
        [smallest(), vec![0]].concat(),
        [vec![SUM_HEADER, 0], vec![0xfff]].concat(),
        with(&[smallest()]),
        with(&[register.clone(), smallest(), register.clone()]),
        [register, empty.clone()].concat(),
        [empty.clone(), empty].concat(),
        // No region 15, and the sum is 0.
        vec![header(OPAQUE[0], 1), 0xcfff],
    ];
    let whole = every_region();
    events.extend((0..whole.len()).map(|count| whole[..count].to_vec()));
    events
}

/// Every id with every size to 9, then with sizes about what remains and the largest.
fn ids_and_sizes() -> Vec<Vec<u16>> {
    let mut events = Vec::new();
    for id in 0..16 {
        for size in 0..=9 {
            events.push(with(&[filled(id, size, 0)]));
            events.push(event_of(&[filled(id, size, 1)]));
        }
        for size in [1, 2, 3, 4, LARGEST_SIZE - 1, LARGEST_SIZE] {
            events.push(with(&[vec![header(id, size)]]));
        }
    }
    events
}
