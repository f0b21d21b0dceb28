//! The stored input of show_page: events whose hits are a peak in each connector.

use crate::dialects::s800::make::{self, Packet};
use crate::dialects::{s800, widened};
use crate::lines::line_of;
use crate::page::{MOST_EVENTS, SLOT_WORDS};

/// Lines that are refused by 30 (twice), 2, 10 and 1, and lines of other dialects, one of them no
/// event: each stands behind some events.
const BETWEEN: [&str; 8] = [
    "",
    "S 000E 5800 0005 0006 5803 1234 0000 0001 0000 0005 5804 0007 0000 0000",
    "F 00000200 00f717ff 01f738e1 02f70563 32000001 0000002a 34000000",
    "S 000d 5800 0005 0006 5803 1234 0000 0001 0000 0005 5804 0007 0000 0000",
    "R f001 0fff",
    "S 0019 5800 0005 0006 5803 1234 0000 0001 0000 0005 5804 0007 0000 0000 \
     000b 5840 0000 0004 5841 0000 8952 0004 5845 0000 0000",
    "F or R, and then anything",
    "S",
];
const EVENTS_BETWEEN: usize = 8;

/// Events that leave the page again, before those that are held.
const LEAVING: usize = 12;

/// The channel of a peak, the channels from there to its foot, and its height.
type Peak = (u32, u32, u32);

/// The peaks of each connector: one that moves along the channels, and in the last a second one.
const PEAKS: [&[Peak]; 4] =
    [&[(10, 8, 64)], &[(24, 12, 48)], &[(38, 16, 32)], &[(54, 9, 56), (8, 6, 24)]];

/// How often a pad is hit in the 64 events that are held.
pub fn hits(connector: usize, channel: u32) -> u32 {
    let of_peak = |&(center, foot, height): &Peak| {
        height * foot.saturating_sub(channel.abs_diff(center)) / foot
    };
    PEAKS[connector].iter().map(of_peak).max().unwrap_or(0)
}

/// The lines: events that leave, the 64 that are held, others between them.
pub fn text() -> Vec<u8> {
    let mut lines = Vec::new();
    let mut between = BETWEEN.map(|line| line.as_bytes().to_vec()).into_iter().chain([too_long()]);
    for number in 0..LEAVING + MOST_EVENTS {
        if number % EVENTS_BETWEEN == EVENTS_BETWEEN - 1 {
            lines.extend(between.next());
        }
        let words = make::event_of(&packets(number as u32));
        lines.push(line_of(&s800::DIALECT, &widened(&words)));
    }
    lines.iter().flat_map(|line| [&line[..], b"\n"].concat()).collect()
}

/// An event of one word more than a page takes: 26.
fn too_long() -> Vec<u8> {
    let [stamp, event_number, _] = packets(0);
    let opaque = make::packet(0x5830, &[0; SLOT_WORDS + 1 - 16]);
    line_of(&s800::DIALECT, &widened(&make::event_of(&[stamp, event_number, opaque])))
}

/// Time stamp and event number count up; the samples are those of the event's hits.
fn packets(number: u32) -> [Packet; 3] {
    let mut content = vec![0, 0, 0x5841, 0];
    for channel in 0..64 {
        let connectors: Vec<u16> = (0..4).filter(|&c| is_hit(number, c, channel)).collect();
        if !connectors.is_empty() {
            content.push(0x8000 | (number << 6 | channel) as u16);
            content.extend(connectors.iter().map(|connector| connector << 10 | 300));
        }
    }
    content[1] = content.len() as u16 - 1;
    content.extend([4, 0x5845, 0x0123, 0x0456]);
    let stamp = make::packet(0x5803, &[number as u16 * 1000, 0x0010, 0, 0]);
    let event_number = make::packet(0x5804, &[number as u16 + 1, 0, 0]);
    [stamp, event_number, make::packet(0x5840, &content)]
}

/// Does an event hit a pad? Of 64 events one after another so many do as the pad has hits, since the
/// odd factor gives each of 64 remainders once. Those that leave hit every fourth channel.
fn is_hit(number: u32, connector: u16, channel: u32) -> bool {
    if (number as usize) < LEAVING {
        return channel % 4 == u32::from(connector);
    }
    (37 * number + 11 * channel) % 64 < hits(usize::from(connector), channel)
}
