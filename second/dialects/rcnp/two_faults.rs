//! Events, and row lists, that break two rules at once: which refusal comes first (02, #101).

use super::edges::{smallest, with};
use super::layout::{
    header, kind, CHECK_SUM, DRIFT_CHAMBER, INPUT_REGISTER, OPAQUE, REFUSED, SCALER, SUM_HEADER,
};
use super::make::region;
use crate::base::{Refusal, Row};

/// A refusal number, its place, and what it is given for.
type Fault<T> = (u32, u32, Vec<T>);

fn named<T>(faults: Vec<Fault<T>>) -> Vec<(Refusal, Vec<T>)> {
    let name = |(number, place, given)| (Refusal { number, place }, given);
    faults.into_iter().map(name).collect()
}

pub fn events() -> Vec<(Refusal, Vec<u16>)> {
    named([at_headers(), at_words()].concat())
}

/// The first fault is the number of words, or at a header or where one is missing.
fn at_headers() -> Vec<Fault<u16>> {
    let after_sum = |words: &[u16]| [&smallest(), words].concat();
    let mut events = vec![
        // Too few words, and no good header.
        (1, 0, vec![0x0fff]),
        // Behind region 15 all is 6: a refused id, no room, a wrong size, a sum that was wrong.
        (6, 2, after_sum(&[0x0fff])),
        (6, 2, after_sum(&[0x3fff])),
        (6, 2, after_sum(&[0x2002, 0, 0])),
        (6, 2, after_sum(&[0xf001])),
        (6, 2, vec![SUM_HEADER, 0, 0x3000]),
        (6, 2, vec![SUM_HEADER, 0, SUM_HEADER, 0]),
        // No region 15, and a wrong sum.
        (6, 2, vec![0x3001, 0]),
        (6, 2, vec![0x3000, 0x3000]),
        // No room, and a size that the id does not allow.
        (5, 0, vec![header(INPUT_REGISTER, 2), 0]),
        (5, 0, vec![header(SCALER, 3), 0, 0]),
        (5, 0, vec![header(CHECK_SUM, 2), 0]),
        (5, 2, with(&[region(INPUT_REGISTER, &[7])])[..3].to_vec()),
        // A size that the id does not allow, and a word that breaks its layout, or a wrong sum.
        (7, 0, with(&[region(SCALER, &[0, 0xffff, 0])])),
        (7, 0, with(&[region(INPUT_REGISTER, &[]), region(DRIFT_CHAMBER, &[0])])),
        (7, 0, vec![header(CHECK_SUM, 0), 0]),
        (7, 0, vec![header(CHECK_SUM, 2), 0, 0]),
    ];
    // A refused id, and no room.
    events.extend(REFUSED.map(|id| (6, 0, vec![header(id, 2), 0])));
    events
}

/// The first fault is at a word that breaks its layout.
fn at_words() -> Vec<Fault<u16>> {
    let scalers = |words: &[u16]| region(SCALER, words);
    let modules = |words: &[u16]| region(DRIFT_CHAMBER, words);
    vec![
        // Two such words.
        (10, 2, with(&[scalers(&[0, 0x100, 0, 0x100])])),
        (10, 1, with(&[modules(&[0, 0xc000])])),
        (10, 2, with(&[modules(&[0x8000, 0xc000, 0xffff])])),
        // A header behind it that is refused, no region 15, or a wrong sum.
        (10, 2, with(&[scalers(&[0, 0x100]), region(REFUSED[0], &[])])),
        (10, 1, [modules(&[0xc000]), vec![0x3fff]].concat()),
        (10, 1, modules(&[0x7fff])),
        (10, 2, [scalers(&[0, 0x8000]), vec![SUM_HEADER, 0]].concat()),
    ]
}

fn head(id: u32, size: u32) -> Row {
    [kind::REGION, id, size, 0]
}

fn word(datum: u32) -> Row {
    [kind::WORD, 0, 0, datum]
}

/// The sum of the smallest event.
const SUM: u32 = 0x0fff;

/// Row lists with the refusal of their writing, many of them for a single fault.
pub fn writings() -> Vec<(Refusal, Vec<Row>)> {
    named([ends(), regions()].concat())
}

/// About region 15 and what stands behind it.
fn ends() -> Vec<Fault<Row>> {
    let last = head(CHECK_SUM, 1);
    vec![
        (21, 0, vec![]),
        (21, 1, vec![last]),
        (21, 1, vec![head(OPAQUE[0], 0)]),
        (22, 1, vec![last, word(0)]),
        (22, 1, vec![last, word(SUM | 0x1_0000)]),
        // A row too many before a wrong sum; a wrong field before a row too many.
        (21, 2, vec![last, word(0), word(0)]),
        (21, 2, vec![last, word(SUM), last, word(SUM)]),
        (21, 2, vec![last, word(0), [kind::REGION, 16, 0, 1]]),
        (22, 1, vec![last, word(0x1_0000), word(0)]),
        (21, 2, vec![last, word(SUM), head(OPAQUE[0], 0)]),
    ]
}

/// About the rows of regions before it.
fn regions() -> Vec<Fault<Row>> {
    let scaler = |index, value| [kind::SCALER, 0, index, value];
    let (module, time) = ([kind::MODULE, 1, 0, 0], [kind::TIME, 0, 0, 0]);
    let mut lists = vec![
        (22, 0, vec![head(16, 0)]),
        (22, 0, vec![head(INPUT_REGISTER, 0)]),
        (22, 0, vec![head(INPUT_REGISTER, 2), word(0x1_0000)]),
        (22, 0, vec![head(SCALER, 1), scaler(1, 0)]),
        (22, 0, vec![head(SCALER, 4096)]),
        (22, 0, vec![head(OPAQUE[0], 4096), word(0)]),
        (22, 0, vec![[kind::REGION, OPAQUE[0], 0, 1], word(0)]),
        (21, 0, vec![[kind::WORD, 16, 1, 1]]),
        (21, 1, vec![head(OPAQUE[0], 1), scaler(1, 0)]),
        (21, 1, vec![head(OPAQUE[0], 0), word(0x1_0000)]),
        (21, 2, vec![head(OPAQUE[0], 2), word(0), head(0, 0)]),
        (21, 1, vec![head(SCALER, 2), word(0)]),
        (22, 1, vec![head(SCALER, 2), scaler(1, 0)]),
        (22, 1, vec![head(SCALER, 2), scaler(0, 0x100_0000)]),
        (21, 2, vec![head(SCALER, 2), scaler(0, 0), scaler(1, 0)]),
        (21, 2, vec![head(SCALER, 4), scaler(0, 0), head(0, 0)]),
        (21, 1, vec![head(DRIFT_CHAMBER, 1), [kind::TIME, 1, 32, 0x400]]),
        (21, 1, vec![head(DRIFT_CHAMBER, 0), module]),
        (22, 1, vec![head(DRIFT_CHAMBER, 1), [kind::MODULE, 256, 0, 0], word(0)]),
        (22, 2, vec![head(DRIFT_CHAMBER, 2), module, [kind::TIME, 0, 32, 0]]),
        (21, 2, vec![head(DRIFT_CHAMBER, 1), module, time]),
        (21, 3, vec![head(DRIFT_CHAMBER, 3), module, time]),
    ];
    lists.extend(REFUSED.map(|id| (22, 0, vec![head(id, 0)])));
    lists
}
