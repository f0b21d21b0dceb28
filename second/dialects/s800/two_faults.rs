//! Events that break two rules at once: which refusal comes first (01, "Order in S").

use super::edges::{crdc, first, second, with};
use super::make::{event_of, packet};
use super::tags;
use crate::base::Refusal;

/// Events that break two rules at once, and lengths of the first two packets, with the refusal
/// that comes first.
pub fn events() -> Vec<(Refusal, Vec<u16>)> {
    let pairs = |words: &[u16]| with(&[packet(tags::SCINTILLATOR, words)]);
    let mut events = vec![
        (Refusal { number: 10, place: 19 }, pairs(&[0x2064, 0x2064, 0x3065, 0x2065])),
        (Refusal { number: 11, place: 18 }, pairs(&[0x2064, 0x2064, 0x2065, 0x3065])),
    ];
    // The last packet keeps the events from being too short.
    let last = packet(tags::OPAQUE[0], &[0; 3]);
    for length in [2, 3, 4, 5, 7, 8] {
        let stamp = packet(tags::STAMP, &vec![1; length - 2]);
        let refusal = Refusal { number: 7, place: 3 };
        events.push((refusal, event_of(&[stamp, second(), last.clone()])));
    }
    for length in [2, 3, 4, 6, 7] {
        let number = packet(tags::EVENT_NUMBER, &vec![1; length - 2]);
        let refusal = Refusal { number: 7, place: 9 };
        events.push((refusal, event_of(&[first(), number, last.clone()])));
    }
    events.extend(around_groups());
    events
}

/// Packet 0x5840: a fault of a group beside one of the packet's or of an inner packet's head, and
/// two faults of groups (02, #103).
fn around_groups() -> Vec<(Refusal, Vec<u16>)> {
    let groups = |words: &[u16]| with(&[crdc(0, words)]);
    let changed = |groups: &[u16], index: usize, word| {
        let mut packet = crdc(0, groups);
        packet[index] = word;
        with(&[packet])
    };
    let events = vec![
        // A length, an id, an inner length or tag, before a group.
        (7, 14, with(&[packet(tags::CRDC, &[2, 2, tags::CRDC_RAW, 4, tags::CRDC_ANODE, 0, 0])])),
        (8, 16, changed(&[0x8952], 2, 2)),
        (9, 17, changed(&[0x8952], 3, 3)),
        (9, 17, changed(&[0x8952], 3, 5)),
        (9, 17, changed(&[0x8952, 0x092c], 3, 4)),
        (9, 18, changed(&[0x092c], 4, tags::CRDC_ANODE)),
        // A head last, before an anode length that is wrong or looks like a word of a group.
        (10, 20, changed(&[0x8952], 7, 5)),
        (10, 20, changed(&[0x8952], 7, 0x1004)),
        (10, 20, changed(&[0x8952], 7, 0x8004)),
        (10, 20, changed(&[0x8952], 8, tags::CRDC_RAW)),
        (10, 22, changed(&[0x8952, 0x092c, 0x8953], 9, 3)),
        // A single fault: what follows the last data word is the anode's head by its place alone.
        (9, 22, changed(&[0x8952, 0x092c], 8, 0x0c04)),
        (9, 22, changed(&[0x8952, 0x092c], 8, 0x8004)),
        (9, 24, changed(&[0x8952, 0x052c, 0x092c], 10, tags::CRDC_RAW)),
        // Two faults of groups.
        (10, 20, groups(&[0x8952, 0x8953])),
        (10, 20, groups(&[0x192c, 0x8952])),
        (10, 21, groups(&[0x8952, 0x7fff, 0x8953])),
        (10, 22, groups(&[0x8952, 0x092c, 0x192c, 0x8953])),
        (10, 22, groups(&[0x8952, 0x092c, 0x092c, 0x8953])),
    ];
    let name = |(number, place, words)| (Refusal { number, place }, words);
    events.into_iter().map(name).collect()
}
