//! Acceptable events of dialect S, kept as packets so that damage can repair lengths.

use super::groups;
use super::read::{LARGEST_EVENT, SMALLEST_EVENT};
use super::tags;
use crate::dialects::OPAQUE_WORDS;
use crate::rng::Rng;

/// A packet's words, its length word first.
pub type Packet = Vec<u16>;

pub fn packet(tag: u16, content: &[u16]) -> Packet {
    let mut words = vec![content.len() as u16 + 2, tag];
    words.extend_from_slice(content);
    words
}

/// The event of some packets, with its length.
pub fn event_of(packets: &[Packet]) -> Vec<u16> {
    let mut words = vec![0, tags::EVENT, tags::VERSION];
    for packet in packets {
        words.extend_from_slice(packet);
    }
    words[0] = words.len() as u16;
    words
}

fn stamp_packet(rng: &mut Rng) -> Packet {
    packet(tags::STAMP, &whole_words(rng, 4))
}

fn event_number_packet(rng: &mut Rng) -> Packet {
    packet(tags::EVENT_NUMBER, &whole_words(rng, 3))
}

fn whole_words(rng: &mut Rng, count: usize) -> Vec<u16> {
    (0..count).map(|_| rng.number(16) as u16).collect()
}

/// A random event of 14 words.
pub fn smallest(rng: &mut Rng) -> Vec<Packet> {
    vec![stamp_packet(rng), event_number_packet(rng)]
}

/// A trigger, an ion chamber, two 0x5840 packets whose groups fill 256 words each: by turns one to
/// four data words, 20 groups of one and 18 of each other number.
pub fn large(rng: &mut Rng) -> Vec<Packet> {
    let mut packets = smallest(rng);
    packets.push(packet_of(rng, tags::TRIGGER));
    packets.push(packet_of(rng, tags::ION_CHAMBER));
    packets.push(crdc_packet(rng, &filling(256)));
    packets.push(crdc_packet(rng, &filling(256)));
    packets
}

/// All but 16 words are opaque.
pub fn opaque(rng: &mut Rng) -> Vec<Packet> {
    let mut packets = smallest(rng);
    packets.push(packet(tags::OPAQUE[0], &whole_words(rng, OPAQUE_WORDS)));
    packets
}

/// A random opaque packet of so many words.
pub fn opaque_packet(rng: &mut Rng, words: usize) -> Packet {
    let tag = rng.pick(&tags::OPAQUE);
    packet(tag, &whole_words(rng, words - 2))
}

/// A random 0x5840 packet of so many words, 12 or more, filled with groups of one to four data words.
pub fn filled_crdc_packet(rng: &mut Rng, words: usize) -> Packet {
    let data_words = filling(words - 10);
    let shuffled = rng.distinct(&data_words, data_words.len());
    crdc_packet(rng, &shuffled)
}

/// A random event: most are small, about one in four hundred is filled up to a large size.
pub fn mixed(rng: &mut Rng) -> Vec<Packet> {
    let mut packets = smallest(rng);
    if rng.below(400) == 0 {
        fill_up(rng, &mut packets);
        return packets;
    }
    for _ in 0..rng.pick(&[0, 1, 1, 1, 2, 2, 3, 4, 6]) {
        let tag = later_tag(rng);
        let again = rng.chance(15);
        packets.push(packet_of(rng, tag));
        if again {
            packets.push(packet_of(rng, tag));
        }
    }
    packets
}

/// A tag of the third packet or a later one; opaque ones, which refuse little, come less often.
fn later_tag(rng: &mut Rng) -> u16 {
    let tag = rng.pick(&tags::LATER);
    if tags::OPAQUE.contains(&tag) {
        rng.pick(&tags::LATER)
    } else {
        tag
    }
}

/// Packets up to the largest event or a size near it.
fn fill_up(rng: &mut Rng, packets: &mut Vec<Packet>) {
    let size = rng.pick(&[LARGEST_EVENT, LARGEST_EVENT, LARGEST_EVENT - 1, 1024, 2048]);
    let mut free = size - SMALLEST_EVENT;
    while free > 600 {
        let tag = later_tag(rng);
        let next = packet_of(rng, tag);
        free -= next.len();
        packets.push(next);
    }
    packets.push(match rng.chance(60) {
        true => filled_crdc_packet(rng, free),
        false => opaque_packet(rng, free),
    });
}

/// A random acceptable packet of a tag of tags::LATER.
fn packet_of(rng: &mut Rng, tag: u16) -> Packet {
    match tag {
        tags::TRIGGER => {
            let count = rng.count(0, 4);
            let mut content = vec![rng.number(5) as u16];
            content.extend(channel_words(rng, &[8, 9, 10, 11], count, 12));
            packet(tag, &content)
        }
        tags::TIME_OF_FLIGHT => {
            let count = rng.count(0, 8);
            let allowed = [4, 5, 6, 7, 12, 13, 14, 15];
            packet(tag, &channel_words(rng, &allowed, count, 12))
        }
        tags::SCINTILLATOR => scintillator_packet(rng),
        tags::ION_CHAMBER => {
            let count = rng.count(0, 16);
            let mut content = vec![count as u16 + 2, tags::ION_CHAMBER_ENERGIES];
            content.extend(any_channel_words(rng, count));
            packet(tag, &content)
        }
        tags::CRDC => {
            let groups = if rng.below(12) == 0 { rng.count(0, 64) } else { rng.below(4) };
            random_crdc_packet(rng, groups)
        }
        tags::PIN => packet(tag, &any_channel_words(rng, 1)),
        tags::HODOSCOPE => hodoscope_packet(rng),
        tags::ADC => {
            let count = rng.count(0, 8);
            let mut content = vec![rng.below(4) as u16];
            content.extend(channel_words(rng, &[0, 1, 2, 3, 4, 5, 6, 7], count, 13));
            packet(tag, &content)
        }
        _ => {
            let count = rng.count(0, 40);
            packet(tag, &whole_words(rng, count))
        }
    }
}

fn channel_words(rng: &mut Rng, allowed: &[u32], count: usize, number_bits: u32) -> Vec<u16> {
    let mut words = Vec::new();
    for channel in rng.distinct(allowed, count) {
        words.push((channel << number_bits | rng.number(number_bits)) as u16);
    }
    words
}

fn any_channel_words(rng: &mut Rng, count: usize) -> Vec<u16> {
    let all: Vec<u32> = (0..16).collect();
    channel_words(rng, &all, count, 12)
}

fn scintillator_packet(rng: &mut Rng) -> Packet {
    let count = rng.count(0, 6);
    let mut content = Vec::new();
    for channel in rng.distinct(&[0, 1, 2, 3, 4, 5], count) {
        content.push((channel << 12 | rng.number(12)) as u16);
        content.push((channel << 12 | rng.number(12)) as u16);
    }
    packet(tags::SCINTILLATOR, &content)
}

fn hodoscope_packet(rng: &mut Rng) -> Packet {
    let id = rng.below(3) as u16;
    let mut content = vec![id];
    if id == 2 {
        content.extend(whole_words(rng, 3));
    } else {
        let count = rng.count(0, 16);
        content.extend(any_channel_words(rng, count));
    }
    packet(tags::HODOSCOPE, &content)
}

/// A random 0x5840 packet of one to three groups.
pub fn packet_with_groups(rng: &mut Rng) -> Packet {
    let groups = rng.within(1, 3);
    random_crdc_packet(rng, groups)
}

fn random_crdc_packet(rng: &mut Rng, groups: usize) -> Packet {
    let data_words: Vec<u32> = (0..groups).map(|_| rng.pick(&[1, 2, 3, 4])).collect();
    crdc_packet(rng, &data_words)
}

/// Groups with these numbers of data words.
fn crdc_packet(rng: &mut Rng, data_words: &[u32]) -> Packet {
    let groups: Vec<u16> = data_words.iter().flat_map(|&count| group(rng, count)).collect();
    let mut content = vec![rng.below(2) as u16, groups.len() as u16 + 3, tags::CRDC_RAW];
    content.push(rng.number(16) as u16);
    content.extend(groups);
    content.extend([4, tags::CRDC_ANODE]);
    content.extend(whole_words(rng, 2));
    packet(tags::CRDC, &content)
}

/// The numbers of data words of groups that have so many words together: one to four by turns,
/// others only at the end. A single word is a head without data words.
pub fn filling(words: usize) -> Vec<u32> {
    let (mut left, mut data_words) = (words, Vec::new());
    while left > 0 {
        let mut count = (data_words.len() % 4 + 1).min(left - 1);
        // One word more or less, so that no single one is left.
        if left - 1 - count == 1 {
            count = if count < 4 { count + 1 } else { 3 };
        }
        data_words.push(count as u32);
        left -= 1 + count;
    }
    data_words
}

fn group(rng: &mut Rng, data_words: u32) -> Vec<u16> {
    let mut connectors = rng.distinct(&[0, 1, 2, 3], data_words as usize);
    connectors.sort_unstable();
    let mut words = vec![groups::HEAD | (rng.number(9) << 6 | rng.number(6)) as u16];
    words.extend(connectors.iter().map(|connector| (connector << 10 | rng.number(10)) as u16));
    words
}
