//! Writing of dialect S: the inverse of the layouts in read.rs, with refusals 20 to 23.

use super::groups;
use super::read::LARGEST_EVENT;
use super::tags::{self, kind};
use crate::base::{refuse, ChannelSet, Order, Refusal};
use crate::cursor::Cursor;

/// The words of rows, or their refusal; every refusal but 24. Above 65,535 words the length
/// words are only their lower 16 bits; such events are refused by 23 in any case.
pub fn words_of(elements: &[u32], order: Order) -> Result<Vec<u16>, Refusal> {
    let rows = Cursor::new(elements)?;
    let mut writer = Writer { rows, words: vec![0, tags::EVENT, tags::VERSION] };
    let mut packet_index = 0;
    while packet_index < 2 || !writer.rows.is_done() {
        writer.put_packet(packet_index, order)?;
        packet_index += 1;
    }
    let length = writer.words.len();
    if length > LARGEST_EVENT {
        return refuse(23, length);
    }
    writer.words[0] = length as u16;
    Ok(writer.words)
}

struct Writer<'a> {
    rows: Cursor<'a>,
    words: Vec<u16>,
}

impl Writer<'_> {
    fn put(&mut self, word: u32) {
        self.words.push(word as u16);
    }

    /// Sets the length word at an index to the number of words from it to the end.
    fn set_length(&mut self, index: usize) {
        self.words[index] = (self.words.len() - index) as u16;
    }

    fn put_packet(&mut self, packet_index: usize, order: Order) -> Result<(), Refusal> {
        let head = self
            .rows
            .take_if(|row| row[0] == kind::PACKET && tags::may_stand(row[1], packet_index))?;
        let (tag, id) = (head[1] as u16, head[2]);
        let largest_id = tags::largest_id(tag);
        self.rows.require(id <= u32::from(largest_id.unwrap_or(0)) && head[3] == 0)?;
        let start = self.words.len();
        self.put(0);
        self.put(head[1]);
        if largest_id.is_some() {
            self.put(id);
        }
        self.put_content(tag, id, order)?;
        self.set_length(start);
        Ok(())
    }

    fn put_content(&mut self, tag: u16, id: u32, order: Order) -> Result<(), Refusal> {
        match tag {
            tags::STAMP => self.put_stamp(order),
            tags::EVENT_NUMBER => self.put_event_number(),
            tags::TRIGGER => self.put_trigger(),
            tags::TIME_OF_FLIGHT => self.put_channels(kind::TIME, 12, 0, 0xf0f0),
            tags::SCINTILLATOR => self.put_scintillator(),
            tags::ION_CHAMBER => self.put_ion_chamber(),
            tags::CRDC => self.put_crdc(),
            tags::HODOSCOPE if id == 2 => self.put_hits(),
            tags::HODOSCOPE => self.put_channels(kind::ENERGY, 12, 16 * id, 0xffff),
            tags::PIN => self.put_pin(),
            tags::ADC => self.put_channels(kind::ENERGY, 13, 8 * id, 0xff),
            _ => self.put_opaque(),
        }
    }

    fn put_stamp(&mut self, order: Order) -> Result<(), Refusal> {
        let row = self.rows.take(kind::STAMP)?;
        self.rows.require(row[1] == 0)?;
        let stamp = u64::from(row[2]) << 32 | u64::from(row[3]);
        for shift in order.shifts() {
            self.words.push((stamp >> shift) as u16);
        }
        Ok(())
    }

    fn put_event_number(&mut self) -> Result<(), Refusal> {
        let row = self.rows.take(kind::EVENT_NUMBER)?;
        self.rows.require(row[1] == 0 && row[2] <= 0xffff)?;
        self.put(row[3] & 0xffff);
        self.put(row[3] >> 16);
        self.put(row[2]);
        Ok(())
    }

    fn put_trigger(&mut self) -> Result<(), Refusal> {
        let row = self.rows.take(kind::PATTERN)?;
        self.rows.require(row[1] == 0 && row[2] == 0 && row[3] <= 0x1f)?;
        self.put(row[3]);
        self.put_channels(kind::TIME, 12, 0, 0x0f00)
    }

    /// Rows of one kind as words with the channel above a number; row channels count from
    /// the first, and each allowed one may come once.
    fn put_channels(
        &mut self,
        kind: u32,
        number_bits: u32,
        first_row_channel: u32,
        allowed_channels: u32,
    ) -> Result<(), Refusal> {
        let mut met = ChannelSet::new();
        while self.rows.next_is(kind) {
            let row = self.rows.take(kind)?;
            self.rows.require(row[1] == 0 && row[3] < 1 << number_bits)?;
            self.rows.require(row[2] >= first_row_channel && row[2] - first_row_channel < 16)?;
            let channel = row[2] - first_row_channel;
            self.rows.require(allowed_channels >> channel & 1 == 1 && met.add(channel))?;
            self.put(channel << number_bits | row[3]);
        }
        Ok(())
    }

    fn put_scintillator(&mut self) -> Result<(), Refusal> {
        let mut met = ChannelSet::new();
        while self.rows.next_is(kind::ENERGY) {
            let energy = self.rows.take(kind::ENERGY)?;
            let channel = energy[2];
            self.rows.require(energy[1] == 0 && channel <= 5 && energy[3] <= 0xfff)?;
            self.rows.require(met.add(channel))?;
            let time = self.rows.take(kind::TIME)?;
            self.rows.require(time[1] == 0 && time[2] == channel && time[3] <= 0xfff)?;
            self.put(channel << 12 | energy[3]);
            self.put(channel << 12 | time[3]);
        }
        Ok(())
    }

    fn put_ion_chamber(&mut self) -> Result<(), Refusal> {
        let inner = self.words.len();
        self.put(0);
        self.put(u32::from(tags::ION_CHAMBER_ENERGIES));
        self.put_channels(kind::ENERGY, 12, 0, 0xffff)?;
        self.set_length(inner);
        Ok(())
    }

    fn put_crdc(&mut self) -> Result<(), Refusal> {
        let raw = self.words.len();
        self.put(0);
        self.put(u32::from(tags::CRDC_RAW));
        let threshold = self.rows.take(kind::THRESHOLD)?;
        self.rows.require(threshold[1] == 0 && threshold[2] == 0 && threshold[3] <= 0xffff)?;
        self.put(threshold[3]);
        self.put_groups()?;
        self.set_length(raw);
        let anode = self.rows.take(kind::ANODE)?;
        self.rows.require(anode[1] == 0 && anode[2] <= 0xffff && anode[3] <= 0xffff)?;
        self.put(4);
        self.put(u32::from(tags::CRDC_ANODE));
        self.put(anode[2]);
        self.put(anode[3]);
        Ok(())
    }

    fn put_groups(&mut self) -> Result<(), Refusal> {
        while self.rows.next_is(kind::GROUP_HEAD) {
            let [_, sample, channel, zero] = self.rows.take(kind::GROUP_HEAD)?;
            self.rows.require(sample <= 0x1ff && channel <= 0x3f && zero == 0)?;
            self.put(u32::from(groups::HEAD) | sample << 6 | channel);
            self.put_data_words(sample, channel)?;
        }
        Ok(())
    }

    /// At least one row, each with the head's sample and channel. The rising connectors leave none
    /// for a fifth row.
    fn put_data_words(&mut self, sample: u32, channel: u32) -> Result<(), Refusal> {
        let mut next_connector = 0;
        loop {
            let [_, own_sample, pad, energy] = self.rows.take(kind::DATA_WORD)?;
            let connector = pad / 64;
            self.rows.require(own_sample == sample && pad % 64 == channel && energy <= 0x3ff)?;
            self.rows.require(connector >= next_connector && connector <= 3)?;
            self.put(connector << 10 | energy);
            next_connector = connector + 1;
            if !self.rows.next_is(kind::DATA_WORD) {
                return Ok(());
            }
        }
    }

    fn put_hits(&mut self) -> Result<(), Refusal> {
        let row = self.rows.take(kind::HITS)?;
        self.rows.require(row[1..].iter().all(|&field| field <= 0xffff))?;
        for &field in &row[1..] {
            self.put(field);
        }
        Ok(())
    }

    fn put_pin(&mut self) -> Result<(), Refusal> {
        let row = self.rows.take(kind::ENERGY)?;
        self.rows.require(row[1] == 0 && row[2] <= 15 && row[3] <= 0xfff)?;
        self.put(row[2] << 12 | row[3]);
        Ok(())
    }

    fn put_opaque(&mut self) -> Result<(), Refusal> {
        while self.rows.next_is(kind::OPAQUE) {
            let row = self.rows.take(kind::OPAQUE)?;
            self.rows.require(row[1] == 0 && row[2] == 0 && row[3] <= 0xffff)?;
            self.put(row[3]);
        }
        Ok(())
    }
}
