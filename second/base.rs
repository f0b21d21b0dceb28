//! What the dialects share: rows, refusals, stamp order, channel sets and lent room.

/// A row: kind, unit, channel, datum (01, "Rows").
pub type Row = [u32; 4];

/// A refusal number and its place.
#[derive(Clone, Copy, PartialEq, Eq, Debug)]
pub struct Refusal {
    pub number: u32,
    pub place: u32,
}

/// An accepted count (rows or words) or a refusal.
pub type Answer = Result<u32, Refusal>;

pub fn refuse<T>(number: u32, place: usize) -> Result<T, Refusal> {
    Err(Refusal { number, place: place as u32 })
}

/// The order of the four stamp chunks in packet 0x5803.
#[derive(Clone, Copy, PartialEq, Eq, Debug)]
pub enum Order {
    Crossed,
    Rising,
}

impl Order {
    /// Where no order is given (02, #105).
    pub const DEFAULT: Order = Order::Rising;

    /// For each chunk of the packet, the lowest stamp bit that it holds.
    pub fn shifts(self) -> [u32; 4] {
        match self {
            Order::Crossed => [0, 32, 16, 48],
            Order::Rising => [0, 16, 32, 48],
        }
    }
}

/// Channels (or GEOs) already met, each below 32.
pub struct ChannelSet(u32);

impl ChannelSet {
    pub fn new() -> ChannelSet {
        ChannelSet(0)
    }

    /// Adds a channel; false if it was in the set before.
    pub fn add(&mut self, channel: u32) -> bool {
        let bit = 1u32 << channel;
        let is_new = self.0 & bit == 0;
        self.0 |= bit;
        is_new
    }
}

/// The end of a reading: refusal 12, or the rows go into the lent elements.
pub fn fill_rows(rows: &[Row], room: &mut [u32]) -> Answer {
    if rows.len() > room.len() / 4 {
        return refuse(12, rows.len());
    }
    for (elements, row) in room.chunks_exact_mut(4).zip(rows) {
        elements.copy_from_slice(row);
    }
    Ok(rows.len() as u32)
}

/// The end of a writing: refusal 24, or the words go into the lent words.
pub fn fill_words<W: Copy>(words: &[W], room: &mut [W]) -> Answer {
    if words.len() > room.len() {
        return refuse(24, words.len());
    }
    room[..words.len()].copy_from_slice(words);
    Ok(words.len() as u32)
}
