//! What is tried on the rows of dialect S, in its writing.

use super::tags::{self, kind};
use super::{edges, group_edges, groups, make, read};
use crate::base::{Order, Row};
use crate::rng::Rng;
use crate::vectors::MOST_ELEMENTS;

/// Values at the limits of a field (1 unit, 2 channel, 3 datum) of a row.
pub fn limits(row: &Row, field: usize) -> Vec<u32> {
    let whole: &[u32] = &[0xffff, 0x1_0000];
    let zero: &[u32] = &[1];
    let values: &[u32] = match (row[0], field) {
        (kind::PACKET, 1) => {
            return vec![row[1] | 0x1_0000, 0x5800, 0x5803, 0x5804, 0x5821, 0x5841, 0x5ff0, 0x5802]
        }
        (kind::PACKET, 2) => &[0, 1, 2, 3, 4, 0x1_0000],
        (kind::STAMP, 2 | 3) | (kind::EVENT_NUMBER, 3) => &[0, 0x1_0000],
        (kind::EVENT_NUMBER, 2) => whole,
        (kind::PATTERN, 3) => &[0, 0x1f, 0x20],
        (kind::TIME, 2) => &[0, 3, 4, 5, 6, 7, 8, 11, 12, 15, 16],
        (kind::TIME, 3) => &[0, 0xfff, 0x1000],
        (kind::ENERGY, 2) => &[0, 5, 6, 7, 8, 15, 16, 23, 24, 31, 32],
        (kind::ENERGY, 3) => &[0, 0xfff, 0x1000, 0x1fff, 0x2000],
        (kind::GROUP_HEAD, 1) => &[0, 0x1ff, 0x200],
        (kind::GROUP_HEAD, 2) => &[0, 0x3f, 0x40, 0xff, 0x100],
        (kind::DATA_WORD, 1) => return vec![row[1] ^ 1, 0, 0x1ff, 0x200],
        (kind::DATA_WORD, 2) => return data_word_pads(row[2] % 64),
        (kind::DATA_WORD, 3) => &[0, 0x3ff, 0x400],
        (kind::THRESHOLD | kind::OPAQUE, 3) => whole,
        (kind::ANODE, 2 | 3) | (kind::HITS, _) => whole,
        _ => zero,
    };
    values.to_vec()
}

/// Each connector with the channel and with the one beside it, and connectors 4 and 2^16.
fn data_word_pads(channel: u32) -> Vec<u32> {
    let connectors = [0, 1, 2, 3, 4, 0x1_0000];
    connectors.iter().flat_map(|n| [64 * n + channel, 64 * n + (channel ^ 1)]).collect()
}

/// A tag of a row of kind 1: mostly one that may stand after the second packet.
pub fn any_tag(rng: &mut Rng) -> u32 {
    let known = u32::from(rng.pick(&tags::LATER));
    let others = [known | 0x1_0000, known + 1, 0x5800, 0x5803, 0x5804, 0x5821, 0x5841, 0x5845];
    if rng.chance(60) {
        known
    } else {
        rng.pick(&others)
    }
}

/// All channels of each form, with one row more, and with one packet more; the lists of
/// group_edges.rs.
pub fn lists() -> Vec<Vec<u32>> {
    let mut lists = group_edges::row_lists();
    for words in edges::fullest() {
        let rows = rows_of(&words);
        let last = rows[rows.len() - 1];
        let head = [kind::PACKET, u32::from(tags::PIN), 0, 0];
        lists.push(rows.concat());
        lists.push([rows.clone(), vec![last]].concat().concat());
        lists.push([rows, vec![head, last]].concat().concat());
    }
    lists
}

fn rows_of(words: &[u16]) -> Vec<Row> {
    read::rows_of(words, Order::Crossed).expect("an edge event is acceptable")
}

/// The indices of heads that data words follow.
fn group_heads(rows: &[Row]) -> Vec<usize> {
    let is_group =
        |at: &usize| rows[*at][0] == kind::GROUP_HEAD && rows[at + 1][0] == kind::DATA_WORD;
    (0..rows.len() - 1).filter(is_group).collect()
}

/// Damage to one group, or to what its rows must say alike; a packet with groups is added if none
/// is there.
pub fn damage_group(rng: &mut Rng, rows: &mut Vec<Row>) {
    if group_heads(rows).is_empty() {
        let packet = make::packet_with_groups(rng);
        rows.extend_from_slice(&rows_of(&edges::with(&[packet]))[4..]);
    }
    let heads = group_heads(rows);
    let head = rng.pick(&heads);
    let count = rows[head + 1..].iter().take_while(|row| row[0] == kind::DATA_WORD).count();
    let end = head + 1 + count;
    let at = rng.within(head + 1, end - 1);
    match rng.below(12) {
        0 => rows[at][1] ^= 1 << rng.below(9),
        1 => rows[at][2] ^= 1 << rng.below(6),
        2 => rows[at][2] |= 1 << rng.within(8, 31),
        3 => rows[at][3] |= 1 << rng.within(10, 31),
        4 => rows[head][1] |= 1 << rng.within(9, 31),
        5 => rows[head][2] |= 1 << rng.within(6, 31),
        6 => rows[head][3] |= 1 << rng.below(32),
        // A group without its data words, without its head, and the rows' end behind a head.
        7 => drop(rows.drain(head + 1..end)),
        8 => drop(rows.remove(head)),
        9 => rows.truncate(head + 1),
        // The connector before again or a lower one; a fifth data word, of connector 0 to 4.
        10 => rows.insert(end, rows[at]),
        _ => {
            let connectors = [0, 1, 2, 3, rng.below(5) as u32];
            let [_, sample, channel, _] = rows[head];
            let data_word = |n| [kind::DATA_WORD, sample, groups::pad(channel, n), 0x12c];
            drop(rows.splice(head + 1..end, connectors.map(data_word)));
        }
    }
}

/// Rows that need about or more than 4,096 words: groups, opaque words or empty packets of two
/// words are added to the rows of an event.
pub fn too_many(rng: &mut Rng, rows: &[Row], words_now: usize) -> Vec<u32> {
    let mut rows = rows.to_vec();
    let wanted = rng.pick(&[4095, 4096, 4097, 4098, 4099, 4100, 4500, 6000]).max(words_now);
    let mut missing = wanted - words_now;
    if missing >= 12 && rng.chance(40) {
        let groups = group_edges::filled((missing - 10).min(1500));
        rows.extend_from_slice(&rows_of(&edges::with(&[edges::crdc(0, &groups)]))[4..]);
        missing -= 10 + groups.len();
    }
    let tag = u32::from(rng.pick(&tags::OPAQUE));
    if missing >= 2 {
        let opaque = if rng.chance(50) { (missing - 2).min(1500) } else { missing % 2 };
        rows.push([kind::PACKET, tag, 0, 0]);
        rows.extend((0..opaque).map(|_| [kind::OPAQUE, 0, 0, 0x5a5a]));
        rows.extend((0..(missing - 2 - opaque) / 2).map(|_| [kind::PACKET, tag, 0, 0]));
    }
    let mut elements = rows.concat();
    elements.truncate(MOST_ELEMENTS);
    elements
}
