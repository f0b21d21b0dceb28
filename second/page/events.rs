//! A page of up to 64 events of S in lent room (02, #107).

use crate::base::{refuse, Answer, Order, Refusal, Row};
use crate::dialects::s800;

/// The most events held, and the words that each has in the room: its slot.
pub const MOST_EVENTS: usize = 64;
pub const SLOT_WORDS: usize = 1024;
pub const ROOM_WORDS: usize = MOST_EVENTS * SLOT_WORDS;
/// The numbers of a page: first, count, then the lengths of the slots.
pub const NUMBERS: usize = 2 + MOST_EVENTS;
/// Of one connector, and of all four.
pub const CHANNELS: usize = 64;
pub const PADS: usize = 4 * CHANNELS;

/// Rows of this kind are hits, their channel is the pad (02, #103).
const HIT: u32 = 12;

/// How often each pad was hit.
pub type Plane = [u32; PADS];

#[derive(Clone, PartialEq, Eq, Debug)]
pub struct Page {
    /// The oldest event's slot, modulo 64.
    pub first: u64,
    /// How many events are held.
    pub count: u64,
    /// The words of the event in each slot; free where a slot has none.
    pub lengths: [u64; MOST_EVENTS],
}

impl Page {
    pub const CLEARED: Page = Page { first: 0, count: 0, lengths: [0; MOST_EVENTS] };

    /// The page of lent numbers; those that are missing are 0.
    pub fn of(numbers: &[u64]) -> Page {
        let number = |index: usize| numbers.get(index).copied().unwrap_or(0);
        let lengths = std::array::from_fn(|slot| number(2 + slot));
        Page { first: number(0), count: number(1), lengths }
    }

    pub fn numbers(&self) -> Vec<u64> {
        [&[self.first, self.count], &self.lengths[..]].concat()
    }

    /// The slot of event k, the oldest being event 0. The sum may pass 64 bits.
    pub fn slot(&self, k: u64) -> usize {
        ((u128::from(self.first) + u128::from(k)) % MOST_EVENTS as u128) as usize
    }

    /// 28 for too little room, and for a page said to hold too many events or one too long.
    fn require_sound(&self, room: &[u16]) -> Result<(), Refusal> {
        let is_event_sound = |k| self.lengths[self.slot(k)] <= SLOT_WORDS as u64;
        let is_page_sound = self.count <= MOST_EVENTS as u64 && (0..self.count).all(is_event_sound);
        if room.len() < ROOM_WORDS || !is_page_sound {
            return refuse(28, 0);
        }
        Ok(())
    }

    /// Puts an event behind the others; where 64 are held, the oldest leaves. Only the event's words
    /// are written. The answer is the number of events then held.
    pub fn add(&mut self, words: &[u16], room: &mut [u16]) -> Answer {
        self.require_sound(room)?;
        rows_of(words)?;
        if words.len() > SLOT_WORDS {
            return refuse(26, words.len());
        }
        let slot = self.slot(self.count);
        room[SLOT_WORDS * slot..][..words.len()].copy_from_slice(words);
        self.lengths[slot] = words.len() as u64;
        if self.count == MOST_EVENTS as u64 {
            self.first = self.slot(1) as u64;
        } else {
            self.count += 1;
        }
        Ok(self.count as u32)
    }

    /// Drops the oldest event. The answer is the number of events then held.
    pub fn drop_oldest(&mut self, room: &[u16]) -> Answer {
        self.require_sound(room)?;
        if self.count == 0 {
            return refuse(27, 0);
        }
        self.first = self.slot(1) as u64;
        self.count -= 1;
        Ok(self.count as u32)
    }

    /// The number of words of event k.
    pub fn find(&self, k: u64, room: &[u16]) -> Answer {
        self.require_sound(room)?;
        if k >= self.count {
            return refuse(27, 0);
        }
        Ok(self.lengths[self.slot(k)] as u32)
    }

    /// The words of event k, a part of the room; none where it is not found.
    pub fn event<'a>(&self, k: u64, room: &'a [u16]) -> &'a [u16] {
        match self.find(k, room) {
            Ok(length) => &room[SLOT_WORDS * self.slot(k)..][..length as usize],
            Err(_) => &[],
        }
    }

    /// The number of events that the plane is counted over.
    pub fn find_plane(&self, room: &[u16]) -> Answer {
        self.require_sound(room)?;
        Ok(self.count as u32)
    }

    /// The hits of each pad in the events held, those aside whose words are no acceptable event;
    /// none where the plane is refused.
    pub fn plane(&self, room: &[u16]) -> Plane {
        let mut plane = [0; PADS];
        for k in 0..self.find_plane(room).map_or(0, u64::from) {
            let rows = rows_of(self.event(k, room)).unwrap_or_default();
            for [_, _, pad, _] in rows.into_iter().filter(|row| row[0] == HIT) {
                plane[pad as usize] += 1;
            }
        }
        plane
    }
}

/// The rows of an event of S, or its refusal: any but 12. Hits are the same in both stamp orders.
fn rows_of(words: &[u16]) -> Result<Vec<Row>, Refusal> {
    (s800::FUNCTIONS.rows_of)(words, Order::DEFAULT)
}
