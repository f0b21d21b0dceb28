//! Damage to the words of dialect S. Enclosing lengths are often repaired afterwards, so that
//! an inner fault is reached and not hidden by refusal 2 or 5.

use super::groups::{is_head, HEAD};
use super::make::{self, Packet};
use super::tags;
use crate::rng::Rng;

/// The words of an event of these packets, damaged in one to three ways.
pub fn damaged(rng: &mut Rng, mut packets: Vec<Packet>) -> Vec<u16> {
    for _ in 0..rng.pick(&[1, 1, 1, 1, 2, 3]) {
        match rng.below(16) {
            0..=3 => damage_packets(rng, &mut packets),
            4..=6 => damage_groups(rng, &mut packets),
            _ => damage_one(rng, &mut packets),
        }
    }
    let mut words = make::event_of(&packets);
    if rng.chance(20) {
        damage_event(rng, &mut words);
        if rng.chance(50) {
            words[0] = words.len() as u16;
        }
    }
    words
}

/// The event cut or filled with an opaque packet to a size about the smallest or the largest.
pub fn resized(rng: &mut Rng, good: &[u16]) -> Vec<u16> {
    let size = rng.pick(&[12, 13, 14, 4094, 4095, 4096, 4097, 4098, 9000]);
    let mut words = good.to_vec();
    if size >= words.len() + 2 {
        let filling = vec![rng.number(16) as u16; size - words.len() - 2];
        words.extend(make::packet(rng.pick(&tags::OPAQUE), &filling));
    }
    words.resize(size, 0);
    words[0] = size as u16;
    words
}

/// Packets lost, doubled, swapped, or one of any tag and any words put in.
fn damage_packets(rng: &mut Rng, packets: &mut Vec<Packet>) {
    if packets.is_empty() {
        return;
    }
    let (one, other) = (rng.below(packets.len()), rng.below(packets.len()));
    match rng.below(4) {
        0 => drop(packets.remove(one)),
        1 => packets.insert(other, packets[one].clone()),
        2 => packets.swap(one, other),
        _ => {
            let content: Vec<u16> = (0..rng.below(8)).map(|_| rng.next() as u16).collect();
            let tag = any_tag(rng);
            packets.insert(rng.below(packets.len() + 1), make::packet(tag, &content));
        }
    }
}

/// A known tag, an inner one, or one near to a known one.
fn any_tag(rng: &mut Rng) -> u16 {
    let others = [
        tags::EVENT,
        tags::STAMP,
        tags::EVENT_NUMBER,
        tags::ION_CHAMBER_ENERGIES,
        tags::CRDC_RAW,
        tags::CRDC_ANODE,
        0,
        0xffff,
        0x58d0,
        0x5ff0,
    ];
    let tag = if rng.chance(70) { rng.pick(&tags::LATER) } else { rng.pick(&others) };
    match rng.below(8) {
        0 => tag.wrapping_add(1),
        1 => tag ^ 0x10,
        2 => tag.swap_bytes(),
        _ => tag,
    }
}

/// One packet damaged, mostly one of the later ones.
fn damage_one(rng: &mut Rng, packets: &mut [Packet]) {
    if packets.is_empty() {
        return;
    }
    let from = if rng.chance(80) { 2.min(packets.len() - 1) } else { 0 };
    let index = rng.within(from, packets.len() - 1);
    let packet = &mut packets[index];
    if packet.len() < 2 {
        return;
    }
    match rng.below(5) {
        0 => damage_head(rng, packet),
        1 => damage_count(rng, packet),
        _ => damage_word(rng, packet),
    }
    if rng.chance(80) {
        packet[0] = packet.len() as u16;
        if rng.chance(60) {
            repair_inner(packet);
        }
    }
}

/// The length, the tag, the id or the words of an inner head.
fn damage_head(rng: &mut Rng, packet: &mut Packet) {
    let index = rng.below(packet.len().min(5));
    packet[index] = match (index, rng.below(4)) {
        (1, _) => any_tag(rng),
        (_, 0) => packet[index].wrapping_add(1),
        (_, 1) => packet[index].wrapping_sub(1),
        (_, 2) => rng.below(6) as u16,
        _ => rng.number(16) as u16,
    };
}

/// Words lost, added, doubled, or very many added.
fn damage_count(rng: &mut Rng, packet: &mut Packet) {
    let at = rng.below(packet.len());
    match rng.below(5) {
        0 => drop(packet.remove(at)),
        1 => packet.insert(at, rng.next() as u16),
        2 => packet.insert(at, packet[at]),
        3 => packet.push(rng.number(16) as u16),
        _ => {
            let extra = rng.within(1, 20);
            packet.extend((0..extra).map(|index| (index << 12) as u16));
        }
    }
    packet.resize(packet.len().max(2), 0);
}

/// One word of the content: bits, channels and reserved bits.
fn damage_word(rng: &mut Rng, packet: &mut Packet) {
    if packet.len() < 3 {
        return;
    }
    let one = rng.within(2, packet.len() - 1);
    let other = rng.within(2, packet.len() - 1);
    match rng.below(8) {
        0 => packet[one] ^= 1 << rng.below(16),
        1 => packet[one] = packet[one] & 0x0fff | (rng.below(16) << 12) as u16,
        2 | 5 | 6 => packet[one] = packet[one] & 0x0fff | packet[other] & 0xf000,
        3 => packet[one] = packet[one].wrapping_add(rng.pick(&[0x1000, 0xf000, 0x2000, 0xe000])),
        4 => packet.swap(one, other),
        _ => packet[one] = rng.number(16) as u16,
    }
}

/// The groups of one 0x5840 packet, added if none has groups, or the packet cut below its least
/// length; its lengths are then right again.
fn damage_groups(rng: &mut Rng, packets: &mut Vec<Packet>) {
    let has_groups = |packet: &Packet| packet.len() >= 12 && packet[1] == tags::CRDC;
    if !packets.iter().any(has_groups) {
        packets.push(make::packet_with_groups(rng));
    }
    let places: Vec<usize> = (0..packets.len()).filter(|&at| has_groups(&packets[at])).collect();
    let packet = &mut packets[rng.pick(&places)];
    if rng.chance(10) {
        packet.truncate(rng.within(2, 9));
    } else {
        let anode = packet.len() - 4;
        let mut words = packet[6..anode].to_vec();
        damage_group(rng, &mut words);
        packet.splice(6..anode, words);
    }
    packet[0] = packet.len() as u16;
    repair_inner(packet);
}

/// One group of these words, or what stands before the first or behind the last one.
fn damage_group(rng: &mut Rng, words: &mut Vec<u16>) {
    let at = rng.below(words.len());
    let head = words[..=at].iter().rposition(|&word| is_head(word)).unwrap_or(0);
    let count = words[head + 1..].iter().take_while(|&&word| !is_head(word)).count();
    let end = head + 1 + count;
    let energy = rng.number(10) as u16;
    match rng.below(10) {
        // A connector again, and the highest one before the others.
        0 => words.insert(end, words[end - 1] & 0x0c00 | energy),
        1 => words.insert(head + 1, 0x0c00 | energy),
        // Bits that are zero in a data word; a data word that becomes a head, or the other way.
        2 => words[end - 1] |= rng.pick(&[0x1000, 0x2000, 0x4000]),
        3 => words[at] ^= HEAD,
        // A group without its head, without its data words, and one more head before it.
        4 => drop(words.remove(head)),
        5 => drop(words.drain(head + 1..end)),
        6 => words.insert(head, words[head]),
        // A data word first and a head last in the inner packet.
        7 => words.insert(0, rng.number(12) as u16),
        8 => words.push(words[head]),
        _ => {
            let five = [0, 0x0400, 0x0800, 0x0c00, rng.number(12) as u16];
            drop(words.splice(head + 1..end, five));
        }
    }
}

/// The inner lengths that a packet of this length must have, where it has inner packets.
fn repair_inner(packet: &mut Packet) {
    let length = packet.len();
    match packet[1] {
        tags::ION_CHAMBER if length > 2 => packet[2] = length as u16 - 2,
        tags::CRDC if length >= 10 => packet[3] = length as u16 - 7,
        _ => {}
    }
}

/// The event as a run of words: flips, losses, additions, truncation and padding.
fn damage_event(rng: &mut Rng, words: &mut Vec<u16>) {
    let at = rng.below(words.len());
    match rng.below(8) {
        0 => words[at] ^= 1 << rng.below(16),
        1 => drop(words.remove(at)),
        2 => words.insert(at, rng.next() as u16),
        3 => words.truncate(at.max(1)),
        4 => words.resize(words.len() + rng.within(1, 20), 0),
        5 => words[rng.below(3)] = rng.pick(&[0, 5, 14, 0x5800, 0x0058, 4096]),
        6 => words[0] = words[0].wrapping_add(rng.pick(&[1, 0xffff])),
        _ => {
            let length = rng.pick(&[1, 3, 9, 12, 13]);
            words.truncate(length);
        }
    }
}
