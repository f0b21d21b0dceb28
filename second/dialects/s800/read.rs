//! Reading of dialect S (01, "Dialect S, word by word" and the refusal table).

use super::groups;
use super::tags::{self, kind};
use crate::base::{refuse, ChannelSet, Order, Refusal, Row};

pub const SMALLEST_EVENT: usize = 14;
pub const LARGEST_EVENT: usize = 4096;

/// The rows of an event, or its refusal; every refusal but 12.
pub fn rows_of(words: &[u16], order: Order) -> Result<Vec<Row>, Refusal> {
    if words.len() < SMALLEST_EVENT || words.len() > LARGEST_EVENT {
        return refuse(1, 0);
    }
    if usize::from(words[0]) != words.len() {
        return refuse(2, 0);
    }
    if words[1] != tags::EVENT {
        return refuse(3, 1);
    }
    if words[2] != tags::VERSION {
        return refuse(4, 2);
    }
    let mut rows = Vec::new();
    let mut at = 3;
    let mut packet_index = 0;
    while at < words.len() {
        let packet = Packet::open(words, at, packet_index)?;
        packet.put_rows(order, &mut rows)?;
        at += packet.words.len();
        packet_index += 1;
    }
    Ok(rows)
}

/// A packet whose length, tag and id are found good.
struct Packet<'a> {
    /// The packet's words, its length word first.
    words: &'a [u16],
    /// The place of its length word in the event.
    at: usize,
    tag: u16,
    /// Its id, or 0 where the tag has none.
    id: u16,
}

/// Words with a channel above a number: the number's bits and the channels allowed.
struct ChannelLayout {
    kind: u32,
    number_bits: u32,
    allowed_channels: u32,
    first_row_channel: u32,
}

impl<'a> Packet<'a> {
    /// Refusals 5, 6, 7, 8, and 7 again for a hodoscope.
    fn open(event: &'a [u16], at: usize, packet_index: usize) -> Result<Packet<'a>, Refusal> {
        let length = usize::from(event[at]);
        if length < 2 || length > event.len() - at {
            return refuse(5, at);
        }
        let tag = event[at + 1];
        if !tags::may_stand(u32::from(tag), packet_index) {
            return refuse(6, at + 1);
        }
        if !tags::length_allowed(tag, length) {
            return refuse(7, at);
        }
        let mut id = 0;
        if let Some(largest) = tags::largest_id(tag) {
            id = event[at + 2];
            if id > largest {
                return refuse(8, at + 2);
            }
        }
        if tag == tags::HODOSCOPE && id == 2 && length != 6 {
            return refuse(7, at);
        }
        Ok(Packet { words: &event[at..at + length], at, tag, id })
    }

    fn number(&self, index: usize) -> u32 {
        u32::from(self.words[index])
    }

    fn refuse<T>(&self, number: u32, index: usize) -> Result<T, Refusal> {
        refuse(number, self.at + index)
    }

    fn put_rows(&self, order: Order, rows: &mut Vec<Row>) -> Result<(), Refusal> {
        rows.push([kind::PACKET, u32::from(self.tag), u32::from(self.id), 0]);
        let id = u32::from(self.id);
        match self.tag {
            tags::STAMP => self.put_stamp(order, rows),
            tags::EVENT_NUMBER => self.put_event_number(rows),
            tags::TRIGGER => self.put_trigger(rows)?,
            tags::TIME_OF_FLIGHT => self.put_channels(2, &times(0xf0f0), rows)?,
            tags::SCINTILLATOR => self.put_scintillator(rows)?,
            tags::ION_CHAMBER => self.put_ion_chamber(rows)?,
            tags::CRDC => self.put_crdc(rows)?,
            tags::HODOSCOPE if id == 2 => {
                rows.push([kind::HITS, self.number(3), self.number(4), self.number(5)]);
            }
            tags::HODOSCOPE => self.put_channels(3, &energies(16 * id), rows)?,
            tags::PIN => self.put_channels(2, &energies(0), rows)?,
            tags::ADC => self.put_channels(3, &adc_energies(8 * id), rows)?,
            _ => {
                for &word in &self.words[2..] {
                    rows.push([kind::OPAQUE, 0, 0, u32::from(word)]);
                }
            }
        }
        Ok(())
    }

    fn put_stamp(&self, order: Order, rows: &mut Vec<Row>) {
        let mut stamp = 0u64;
        for (chunk, shift) in self.words[2..].iter().zip(order.shifts()) {
            stamp |= u64::from(*chunk) << shift;
        }
        rows.push([kind::STAMP, 0, (stamp >> 32) as u32, stamp as u32]);
    }

    fn put_event_number(&self, rows: &mut Vec<Row>) {
        let low = self.number(2) | self.number(3) << 16;
        rows.push([kind::EVENT_NUMBER, 0, self.number(4), low]);
    }

    fn put_trigger(&self, rows: &mut Vec<Row>) -> Result<(), Refusal> {
        let pattern = self.number(2);
        if pattern & 0xffe0 != 0 {
            return self.refuse(10, 2);
        }
        rows.push([kind::PATTERN, 0, 0, pattern]);
        self.put_channels(3, &times(0x0f00), rows)
    }

    /// Channel words from an index to the packet's end; 10, then 11 on each word.
    fn put_channels(
        &self,
        from: usize,
        layout: &ChannelLayout,
        rows: &mut Vec<Row>,
    ) -> Result<(), Refusal> {
        let mut met = ChannelSet::new();
        for index in from..self.words.len() {
            let channel = self.number(index) >> layout.number_bits;
            let number = self.number(index) & ((1 << layout.number_bits) - 1);
            if layout.allowed_channels >> channel & 1 == 0 {
                return self.refuse(10, index);
            }
            if !met.add(channel) {
                return self.refuse(11, index);
            }
            rows.push([layout.kind, 0, layout.first_row_channel + channel, number]);
        }
        Ok(())
    }

    /// Pairs of an energy and a time of one channel, 0 to 5. The times have the energies'
    /// channels, so a repeated channel always shows at an energy.
    fn put_scintillator(&self, rows: &mut Vec<Row>) -> Result<(), Refusal> {
        let mut met = ChannelSet::new();
        for index in (2..self.words.len()).step_by(2) {
            let (energy, time) = (self.number(index), self.number(index + 1));
            let channel = energy >> 12;
            if channel > 5 {
                return self.refuse(10, index);
            }
            if !met.add(channel) {
                return self.refuse(11, index);
            }
            if time >> 12 != channel {
                return self.refuse(10, index + 1);
            }
            rows.push([kind::ENERGY, 0, channel, energy & 0xfff]);
            rows.push([kind::TIME, 0, channel, time & 0xfff]);
        }
        Ok(())
    }

    fn put_ion_chamber(&self, rows: &mut Vec<Row>) -> Result<(), Refusal> {
        self.inner_head(2, self.words.len() - 2, tags::ION_CHAMBER_ENERGIES)?;
        self.put_channels(4, &energies(0), rows)
    }

    fn put_crdc(&self, rows: &mut Vec<Row>) -> Result<(), Refusal> {
        let anode = self.words.len() - 4;
        self.inner_head(3, self.words.len() - 7, tags::CRDC_RAW)?;
        rows.push([kind::THRESHOLD, 0, 0, self.number(5)]);
        groups::put_rows(&self.words[6..anode], rows)
            .or_else(|index| self.refuse(10, 6 + index))?;
        self.inner_head(anode, 4, tags::CRDC_ANODE)?;
        rows.push([kind::ANODE, 0, self.number(anode + 2), self.number(anode + 3)]);
        Ok(())
    }

    /// The length and the tag of an inner packet; 9 at the one that is wrong.
    fn inner_head(&self, index: usize, length: usize, tag: u16) -> Result<(), Refusal> {
        if usize::from(self.words[index]) != length {
            return self.refuse(9, index);
        }
        if self.words[index + 1] != tag {
            return self.refuse(9, index + 1);
        }
        Ok(())
    }
}

fn times(allowed_channels: u32) -> ChannelLayout {
    ChannelLayout { kind: kind::TIME, number_bits: 12, allowed_channels, first_row_channel: 0 }
}

fn energies(first_row_channel: u32) -> ChannelLayout {
    let allowed_channels = 0xffff;
    ChannelLayout { kind: kind::ENERGY, number_bits: 12, allowed_channels, first_row_channel }
}

fn adc_energies(first_row_channel: u32) -> ChannelLayout {
    let allowed_channels = 0xff;
    ChannelLayout { kind: kind::ENERGY, number_bits: 13, allowed_channels, first_row_channel }
}
