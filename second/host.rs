//! The host call of dialect S (01, "A host analysis written in C may call the check"): bytes and a
//! stamp order go in, one 64-bit number comes out.

use crate::base::{refuse, Answer, Order};
use crate::dialects::s800::make;
pub use crate::dialects::s800::{DIALECT, FUNCTIONS};
use crate::lines::push_hex;
use crate::rng::Rng;

pub struct HostCall {
    pub order: u32,
    pub bytes: Vec<u8>,
}

impl HostCall {
    pub fn answer(&self) -> Answer {
        let order = match self.order {
            0 => Order::Crossed,
            1 => Order::Rising,
            _ => return refuse(31, 0),
        };
        if self.bytes.len() % 2 != 0 {
            return refuse(1, 0);
        }
        let pairs = self.bytes.chunks_exact(2);
        let words: Vec<u16> = pairs.map(|pair| u16::from_le_bytes([pair[0], pair[1]])).collect();
        (FUNCTIONS.rows_of)(&words, order).map(|rows| rows.len() as u32)
    }

    /// The call as a line of text: the order, then the bytes, `-` for none.
    pub fn text(&self) -> Vec<u8> {
        let mut text = Vec::with_capacity(2 * self.bytes.len() + 11);
        push_hex(&mut text, self.order, 8);
        text.push(b' ');
        for &byte in &self.bytes {
            push_hex(&mut text, u32::from(byte), 2);
        }
        if self.bytes.is_empty() {
            text.push(b'-');
        }
        text.push(b'\n');
        text
    }

    /// The answer as a line of text, which is given back too.
    pub fn push_answer(&self, text: &mut Vec<u8>) -> Answer {
        let answer = self.answer();
        let packed = packed(answer);
        push_hex(text, (packed >> 32) as u32, 8);
        push_hex(text, packed as u32, 8);
        text.push(b'\n');
        answer
    }
}

/// The rows, or 2^32 times the refusal plus its place.
pub fn packed(answer: Answer) -> u64 {
    match answer {
        Ok(rows) => u64::from(rows),
        Err(refusal) => u64::from(refusal.number) << 32 | u64::from(refusal.place),
    }
}

fn bytes_of(words: &[u16]) -> Vec<u8> {
    words.iter().flat_map(|word| word.to_le_bytes()).collect()
}

/// An event or a damaged one, its bytes as they are or damaged too, mostly with a known order.
pub fn random(rng: &mut Rng) -> HostCall {
    let packets = (FUNCTIONS.mixed)(rng);
    let words = match rng.below(10) {
        0..=3 => (FUNCTIONS.event_of)(&packets),
        _ => (FUNCTIONS.damaged)(rng, packets),
    };
    let mut bytes = bytes_of(&words);
    damage(rng, &mut bytes);
    let order = match rng.below(24) {
        0 => rng.pick(&[2, 3, 256, 1 << 16, 1 << 31, u32::MAX]),
        1 => rng.number(32),
        choice => choice as u32 % 2,
    };
    HostCall { order, bytes }
}

fn damage(rng: &mut Rng, bytes: &mut Vec<u8>) {
    let at = rng.below(bytes.len());
    match rng.below(16) {
        0 => drop(bytes.pop()),
        1 => bytes.push(rng.number(8) as u8),
        2 => bytes[at] ^= 1 << rng.below(8),
        3 => bytes[at] = rng.number(8) as u8,
        4 => drop(bytes.remove(at)),
        5 => bytes.chunks_exact_mut(2).for_each(|pair| pair.swap(0, 1)),
        6 => bytes.truncate(at),
        7 if rng.chance(10) => bytes.resize(rng.pick(&[8190, 8191, 8192, 8193, 8194, 20_000]), 0),
        _ => {}
    }
}

/// No bytes, one, the sizes about the smallest and the largest event, with each order at an edge.
pub fn edges() -> Vec<HostCall> {
    let mut rng = Rng::new(1);
    let mut packets = (FUNCTIONS.smallest)(&mut rng);
    let event = (FUNCTIONS.event_of)(&packets);
    let filling = vec![0; DIALECT.largest_event - event.len() - 2];
    packets.push(make::packet(0x5830, &filling));
    let largest = bytes_of(&(FUNCTIONS.event_of)(&packets));
    let mut calls = Vec::new();
    for order in [0, 1, 2, u32::MAX] {
        for size in [0, 1, 26, 27, 28, 29, 30] {
            let mut bytes = bytes_of(&event);
            bytes.resize(size, 0);
            calls.push(HostCall { order, bytes });
        }
        for size in [8190, 8191, 8192, 8193, 8194] {
            let mut bytes = largest.clone();
            bytes.resize(size, 0);
            calls.push(HostCall { order, bytes });
        }
    }
    calls
}

/// The edges and some random calls, as lines of text.
pub fn calls_text() -> Vec<u8> {
    let mut rng = Rng::new(1);
    let random = (0..300).map(|_| random(&mut rng));
    edges().into_iter().chain(random).flat_map(|call| call.text()).collect()
}
