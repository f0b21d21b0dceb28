//! Systematic events of dialect S, acceptable ones at every edge and refused ones beyond it.

use super::make::{event_of, packet, Packet};
use super::read::{LARGEST_EVENT, SMALLEST_EVENT};
use super::{group_edges, tags, two_faults};
use crate::dialects::{refused, Edges, Probed};

pub fn edges() -> Edges<u16> {
    Edges {
        smallest: smallest(),
        layouts: layouts(),
        headers: tags_and_lengths(),
        probed: probed(),
        answered: [refused(two_faults::events()), group_edges::answered()].concat(),
    }
}

/// The first line of 01's listing.
pub fn smallest() -> Vec<u16> {
    event_of(&[first(), second()])
}

pub fn first() -> Packet {
    packet(tags::STAMP, &[0x1234, 0, 1, 0])
}

pub fn second() -> Packet {
    packet(tags::EVENT_NUMBER, &[7, 0, 0])
}

/// The packets of an event with one of each form.
pub fn every_form() -> Vec<Packet> {
    [vec![first(), second()], small_packets()].concat()
}

/// The smallest event with more packets.
pub fn with(packets: &[Packet]) -> Vec<u16> {
    event_of(&[&[first(), second()], packets].concat())
}

/// A kind of packet whose content ends in channel words.
struct Form {
    tag: u16,
    id: Option<u16>,
    channels: &'static [u16],
    number_bits: u32,
}

const ALL: [u16; 16] = [0, 1, 2, 3, 4, 5, 6, 7, 8, 9, 10, 11, 12, 13, 14, 15];

fn forms() -> Vec<Form> {
    let form = |tag, id, channels, number_bits| Form { tag, id, channels, number_bits };
    let mut forms = vec![
        form(tags::TRIGGER, None, &ALL[8..12], 12),
        form(tags::TIME_OF_FLIGHT, None, &[4, 5, 6, 7, 12, 13, 14, 15], 12),
        form(tags::ION_CHAMBER, None, &ALL, 12),
        form(tags::PIN, None, &ALL[..1], 12),
        form(tags::HODOSCOPE, Some(0), &ALL, 12),
        form(tags::HODOSCOPE, Some(1), &ALL, 12),
    ];
    for id in 0..4 {
        forms.push(form(tags::ADC, Some(id), &ALL[..8], 13));
    }
    forms
}

impl Form {
    fn packet(&self, channel_words: &[u16]) -> Packet {
        let mut content: Vec<u16> = self.id.into_iter().collect();
        match self.tag {
            tags::TRIGGER => content.push(0x1f),
            tags::ION_CHAMBER => {
                content.extend([channel_words.len() as u16 + 2, tags::ION_CHAMBER_ENERGIES]);
            }
            _ => {}
        }
        content.extend_from_slice(channel_words);
        packet(self.tag, &content)
    }

    /// Every number of channel words up to one too many, and every single channel; the words'
    /// numbers are 0 and the largest in turn.
    fn packets(&self) -> Vec<Packet> {
        let largest = (1 << self.number_bits) - 1;
        let mut packets = Vec::new();
        for count in 0..=self.channels.len() + 1 {
            let channels = self.channels.iter().chain(self.channels).take(count);
            let words: Vec<u16> = channels.map(|channel| channel << self.number_bits).collect();
            let full: Vec<u16> = words.iter().map(|word| word | largest).collect();
            packets.extend([self.packet(&words), self.packet(&full)]);
        }
        for channel in 0..1 << (16 - self.number_bits) {
            let word = channel << self.number_bits;
            packets.push(self.packet(&[word | largest]));
            packets.push(self.packet(&[word, word | 1]));
        }
        packets
    }

    /// At most two channel words, of the last channels.
    fn small(&self) -> Packet {
        let channels = self.channels.iter().rev().take(2);
        let words: Vec<u16> = channels.map(|channel| channel << self.number_bits | 0x12c).collect();
        self.packet(&words)
    }

    /// Each channel once, which is the most words that the form allows.
    fn fullest(&self) -> Packet {
        let words: Vec<u16> = self.channels.iter().map(|c| c << self.number_bits | 1).collect();
        self.packet(&words)
    }
}

/// Acceptable packets with all channels of their form, for the writings.
pub fn fullest() -> Vec<Vec<u16>> {
    let mut events: Vec<Vec<u16>> = forms().iter().map(|form| with(&[form.fullest()])).collect();
    events.push(with(&[scintillator(&[0, 1, 2, 3, 4, 5])]));
    events
}

/// One small acceptable packet of each form.
fn small_packets() -> Vec<Packet> {
    let mut packets: Vec<Packet> = forms().iter().map(Form::small).collect();
    packets.push(scintillator(&[3, 5]));
    packets.push(crdc(1, &[0x8952, 0x052c, 0x092c, 0x8041, 0x0000]));
    packets.push(packet(tags::HODOSCOPE, &[2, 0xffff, 0x8001, 0x0fff]));
    packets.extend(tags::OPAQUE.map(|tag| packet(tag, &[0xffff])));
    packets
}

/// The smallest event, and it with each small packet but those that differ only in their opaque
/// tag or in an inner id: of these the packet alone is changed, whose rows come after the first
/// four.
fn probed() -> Vec<Probed<u16>> {
    let mut packets = small_packets();
    packets.retain(|packet| match packet[1] {
        tags::HODOSCOPE => packet[2] != 0,
        tags::ADC => packet[2] == 0 || packet[2] == 3,
        tag => !tags::OPAQUE[1..].contains(&tag),
    });
    let mut probed = vec![Probed { words: smallest(), first_word: 0, first_row: 0 }];
    probed.extend(packets.into_iter().map(|packet| Probed {
        words: with(&[packet]),
        first_word: SMALLEST_EVENT,
        first_row: 4,
    }));
    probed
}

fn scintillator(channels: &[u16]) -> Packet {
    let words: Vec<u16> = channels.iter().flat_map(|c| [c << 12 | 0xfff, c << 12]).collect();
    packet(tags::SCINTILLATOR, &words)
}

/// With the words of some groups.
pub fn crdc(id: u16, groups: &[u16]) -> Packet {
    let mut content = vec![id, groups.len() as u16 + 3, tags::CRDC_RAW, 0xffff];
    content.extend_from_slice(groups);
    content.extend([4, tags::CRDC_ANODE, 0xffff, 0xffff]);
    packet(tags::CRDC, &content)
}

/// Every layout at and just beyond its edges.
fn layouts() -> Vec<Vec<u16>> {
    let mut packets: Vec<Packet> = forms().iter().flat_map(Form::packets).collect();
    for count in 0..=7 {
        packets.push(scintillator(&ALL[..count]));
    }
    for channel in ALL {
        packets.push(scintillator(&[channel]));
        packets.push(packet(tags::SCINTILLATOR, &[0x5001, channel << 12 | 0xfff]));
        packets.push(scintillator(&[channel, channel]));
    }
    for id in 0..=4 {
        packets.push(crdc(id, &[0x8000, 0, 0xffff, 0x0fff, 0xffff, 0x0fff]));
        packets.push(crdc(id, &[]));
        packets.push(packet(tags::HODOSCOPE, &[id, 0xffff, 0xffff, 0xffff]));
        packets.push(packet(tags::ADC, &[id, 0xffff]));
    }
    for count in 0..=17 {
        packets.push(packet(tags::HODOSCOPE, &[vec![2], vec![0; count]].concat()));
    }
    packets.extend((0..16).map(|bit| packet(tags::TRIGGER, &[1 << bit])));
    let mut events: Vec<Vec<u16>> = packets.into_iter().map(|packet| with(&[packet])).collect();
    events.extend(group_edges::layouts());
    events.extend(whole_events());
    events
}

/// Edges that concern several packets or the whole event.
fn whole_events() -> Vec<Vec<u16>> {
    let ones = [packet(tags::STAMP, &[0xffff; 4]), packet(tags::EVENT_NUMBER, &[0xffff; 3])];
    let chunks = [packet(tags::STAMP, &[1, 2, 3, 4]), packet(tags::EVENT_NUMBER, &[1, 2, 3])];
    let time = packet(tags::TIME_OF_FLIGHT, &[0x4001]);
    let free = LARGEST_EVENT - SMALLEST_EVENT;
    let mut events = vec![
        event_of(&ones),
        event_of(&chunks),
        with(&[time.clone(), time]),
        event_of(&every_form()),
        with(&[first()]),
        with(&[second()]),
        event_of(&[second(), first()]),
        event_of(&[first(), first(), second()]),
        event_of(&[packet(0x5830, &[0; 4]), second()]),
        event_of(&[first(), packet(0x5830, &[0; 3])]),
        with(&[packet(tags::OPAQUE[0], &vec![0xffff; free - 2])]),
        with(&[crdc(0, &group_edges::filled(free - 10))]),
        with(&[crdc(0, &group_edges::filled(free - 11))]),
    ];
    for (index, word) in [(0, 0), (0, 13), (0, 15), (1, 0x5801), (1, 0), (2, 4), (2, 6), (2, 0)] {
        let mut event = smallest();
        event[index] = word;
        events.push(event);
    }
    for count in 0..14 {
        events.push(smallest()[..count].to_vec());
        events.push([smallest(), vec![0; count + 1]].concat());
    }
    events
}

/// Every tag from 0x5800 to 0x58ff with the shortest length, and every known tag with every
/// length to 22, its inner lengths and tags, and its groups, as they should be.
fn tags_and_lengths() -> Vec<Vec<u16>> {
    let mut events = Vec::new();
    for tag in 0x5800..=0x58ff {
        events.push(with(&[packet(tag, &[])]));
    }
    for tag in tags::LATER {
        for length in 3..=22 {
            let mut words = packet(tag, &vec![0; length - 2]);
            if tag == tags::ION_CHAMBER && length >= 4 {
                words[2..4].copy_from_slice(&[length as u16 - 2, tags::ION_CHAMBER_ENERGIES]);
            }
            if tag == tags::CRDC && length >= 10 {
                words = crdc(0, &group_edges::filled(length - 10));
            }
            events.push(with(&[words]));
        }
    }
    events
}
