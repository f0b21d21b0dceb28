//! Groups of packet 0x5840 at and beyond their edges, with the answers of reading and writing as
//! worked out from 02, #103, and from 01's refusals.

use super::edges::{crdc, with};
use super::make::{filling, packet};
use super::tags;
use crate::base::{Refusal, Row};
use crate::dialects::Answered;

/// Where the groups begin behind the smallest event: in its words, and in its rows.
const FIRST_WORD: u32 = 20;
const FIRST_ROW: u32 = 6;

/// The rows before the groups and the row behind them.
const BEFORE: [Row; 6] = [
    [1, 0x5803, 0, 0],
    [2, 0, 0, 0x0001_1234],
    [1, 0x5804, 0, 0],
    [3, 0, 0, 7],
    [1, 0x5840, 1, 0],
    [7, 0, 0, 0xffff],
];
const ANODE: Row = [9, 0, 0xffff, 0xffff];

/// The head and the data word of spoken case 7, as rows.
const HEAD: Row = [8, 37, 18, 0];
const DATA: Row = [12, 37, 146, 300];

pub fn answered() -> Vec<Answered<u16>> {
    let event = |groups: &[u16]| with(&[crdc(1, groups)]);
    let mut events = Vec::new();
    for (groups, rows) in accepted() {
        events.push((Ok([&BEFORE, &rows[..], &[ANODE]].concat()), event(&groups)));
    }
    for (index, groups) in refused() {
        let refusal = Refusal { number: 10, place: FIRST_WORD + index };
        events.push((Err(refusal), event(&groups)));
    }
    for length in 2..10 {
        let short = packet(tags::CRDC, &vec![0; length - 2]);
        events.push((Err(Refusal { number: 7, place: 14 }), with(&[short])));
    }
    events
}

/// The words of groups and their rows.
fn accepted() -> Vec<(Vec<u16>, Vec<Row>)> {
    let connectors = |four: [u32; 4]| four.map(|pad| [12, 37, pad, 0]);
    vec![
        (vec![], vec![]),
        (vec![0x8952, 0x092c], vec![HEAD, DATA]),
        (vec![0x8000, 0x0000], vec![[8, 0, 0, 0], [12, 0, 0, 0]]),
        (vec![0xffff, 0x0fff], vec![[8, 511, 63, 0], [12, 511, 255, 1023]]),
        (vec![0x8041, 0x0401, 0x0c02], vec![[8, 1, 1, 0], [12, 1, 65, 1], [12, 1, 193, 2]]),
        (
            vec![0x8041, 0x0001, 0x0402, 0x0803],
            vec![[8, 1, 1, 0], [12, 1, 1, 1], [12, 1, 65, 2], [12, 1, 129, 3]],
        ),
        (
            vec![0x8952, 0x0000, 0x0400, 0x0800, 0x0c00],
            [&[HEAD], &connectors([18, 82, 146, 210])[..]].concat(),
        ),
        // A head once more: its connectors begin anew.
        (vec![0x8952, 0x092c, 0x8952, 0x092c], vec![HEAD, DATA, HEAD, DATA]),
        (
            vec![0x8952, 0x0c00, 0x8041, 0x0000, 0x0400],
            vec![HEAD, [12, 37, 210, 0], [8, 1, 1, 0], [12, 1, 1, 0], [12, 1, 65, 0]],
        ),
    ]
}

/// The words of groups and the index of the one that is refused.
fn refused() -> Vec<(u32, Vec<u16>)> {
    vec![
        // A head before the inner packet's end or before a head.
        (0, vec![0x8952]),
        (2, vec![0x8952, 0x092c, 0x8953]),
        (0, vec![0x8952, 0x8953, 0x092c]),
        (2, vec![0x8952, 0x092c, 0x8953, 0x8954, 0x092c]),
        // No head before a data word.
        (0, vec![0x092c]),
        (0, vec![0x0000, 0x8952, 0x092c]),
        // The connector before again, at each of the four, or a lower one.
        (2, vec![0x8952, 0x0001, 0x0002]),
        (2, vec![0x8952, 0x0401, 0x0402]),
        (2, vec![0x8952, 0x0801, 0x0802]),
        (2, vec![0x8952, 0x0c01, 0x0c02]),
        (2, vec![0x8952, 0x0400, 0x03ff]),
        (2, vec![0x8952, 0x0c00, 0x0bff]),
        (2, vec![0x8952, 0x0c00, 0x0000, 0x0400]),
        (3, vec![0x8952, 0x0000, 0x0800, 0x0400]),
        (4, vec![0x8952, 0x0000, 0x0400, 0x0c00, 0x0800]),
        // A fifth data word, its connector 3, 0, or 4 in bits 12-10.
        (5, vec![0x8952, 0x0000, 0x0400, 0x0800, 0x0c00, 0x0c01]),
        (5, vec![0x8952, 0x0000, 0x0400, 0x0800, 0x0c00, 0x0000]),
        (5, vec![0x8952, 0x0000, 0x0400, 0x0800, 0x0c00, 0x1000]),
        // Bits 12, 13 and 14: still a data word, so that the head before it has one.
        (1, vec![0x8952, 0x192c]),
        (1, vec![0x8952, 0x292c]),
        (1, vec![0x8952, 0x492c]),
        (2, vec![0x8952, 0x0000, 0x1400]),
        (2, vec![0x8952, 0x0000, 0x2400]),
        (2, vec![0x8952, 0x0000, 0x4400]),
    ]
}

/// Rows with the refusal of their writing.
pub fn writings() -> Vec<(Refusal, Vec<Row>)> {
    let mut lists = Vec::new();
    for (number, index, groups) in kinds().into_iter().chain(fields()) {
        lists.push((number, index, [&BEFORE, &groups[..], &[ANODE]].concat()));
    }
    let ended = |groups: &[Row]| [&BEFORE, groups].concat();
    lists.extend([
        // The rows end behind a head, behind a data word, and behind a head that is wrong.
        (21, 1, ended(&[HEAD])),
        (21, 2, ended(&[HEAD, DATA])),
        (22, 0, ended(&[[8, 37, 64, 0]])),
        (21, 1, ended(&[HEAD, [1, 0x58a0, 0, 0]])),
        // Behind the anode.
        (21, 1, ended(&[ANODE, HEAD, DATA])),
        (21, 3, ended(&[HEAD, DATA, ANODE, DATA])),
    ]);
    let name = |(number, index, rows)| (Refusal { number, place: FIRST_ROW + index }, rows);
    let mut lists: Vec<(Refusal, Vec<Row>)> = lists.into_iter().map(name).collect();
    let before_threshold = [&BEFORE[..5], &[HEAD, DATA, BEFORE[5], ANODE]].concat();
    lists.push((Refusal { number: 21, place: 5 }, before_threshold));
    lists
}

/// The row elements of the accepted groups and of the refused rows.
pub fn row_lists() -> Vec<Vec<u32>> {
    let accepted = answered().into_iter().filter_map(|(answer, _)| answer.ok());
    let refused = writings().into_iter().map(|(_, rows)| rows);
    accepted.chain(refused).map(|rows| rows.concat()).collect()
}

/// A refusal, the index of its row among those of the groups, and these.
type Fault = (u32, u32, Vec<Row>);

/// Kinds that may not stand there: next after a head no kind but 12, and 12 not without a head.
fn kinds() -> Vec<Fault> {
    vec![
        (21, 1, vec![HEAD]),
        (21, 1, vec![HEAD, HEAD, DATA]),
        (21, 3, vec![HEAD, DATA, HEAD]),
        (21, 3, vec![HEAD, DATA, HEAD, HEAD, DATA]),
        (21, 1, vec![HEAD, [11, 0, 0, 0x1_0000]]),
        (21, 0, vec![DATA]),
        (21, 0, vec![DATA, HEAD, DATA]),
        (21, 0, vec![[12, 512, 256, 1024], HEAD]),
    ]
}

/// Fields out of their range, or not the head's.
fn fields() -> Vec<Fault> {
    let pads = |pads: &[u32]| -> Vec<Row> {
        let data_words = pads.iter().map(|&pad| [12, 37, pad, 300]);
        [HEAD].into_iter().chain(data_words).collect()
    };
    vec![
        (22, 0, vec![[8, 512, 18, 0], [12, 512, 18, 0]]),
        (22, 0, vec![[8, 37, 64, 0], [12, 37, 64, 0]]),
        (22, 0, vec![[8, 37, 146, 300]]),
        (22, 0, vec![[8, 37, 18, 1], DATA]),
        (22, 1, vec![HEAD, [12, 36, 146, 300]]),
        (22, 1, vec![HEAD, [12, 0, 146, 300]]),
        (22, 1, vec![HEAD, [12, 37, 146, 1024]]),
        // A second head's sample, and the first one's behind a second head.
        (22, 2, vec![HEAD, DATA, [12, 38, 210, 300], [8, 38, 18, 0]]),
        (22, 3, vec![HEAD, DATA, [8, 38, 18, 0], DATA]),
        // The channels beside the head's, no pad of the head's channel, and connectors above 3.
        (22, 1, pads(&[145])),
        (22, 1, pads(&[147])),
        (22, 1, pads(&[0])),
        (22, 1, pads(&[2])),
        (22, 1, pads(&[274])),
        (22, 1, pads(&[0x1_0012])),
        // A connector again, a lower one, and a fifth data word.
        (22, 2, pads(&[18, 18])),
        (22, 2, pads(&[210, 210])),
        (22, 2, pads(&[146, 82])),
        (22, 3, pads(&[18, 146, 82])),
        (22, 5, pads(&[18, 82, 146, 210, 210])),
        (22, 5, pads(&[18, 82, 146, 210, 274])),
    ]
}

/// Every two and every three connectors, rising or not.
pub fn layouts() -> Vec<Vec<u16>> {
    let mut all = Vec::new();
    for first in 0..4 {
        for second in 0..4 {
            let two = vec![0x8952, first << 10, second << 10 | 1];
            all.extend((0..4).map(|third| [&two[..], &[third << 10 | 2]].concat()));
            all.push(two);
        }
    }
    all.into_iter().map(|groups| with(&[crdc(0, &groups)])).collect()
}

/// So many words of groups; one word is a head alone, which is refused.
pub fn filled(words: usize) -> Vec<u16> {
    let group = |count: u32| {
        let data_words = (0..count as u16).map(|connector| connector << 10 | 0x12c);
        [0x8952].into_iter().chain(data_words)
    };
    filling(words).into_iter().flat_map(group).collect()
}
