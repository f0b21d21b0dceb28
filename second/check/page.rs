//! The page of recent events: its calls on small pages, worked out by hand from 02, #107.

use super::ensure;
use crate::base::{Answer, Refusal};
use crate::page::{Page, ROOM_WORDS, SLOT_WORDS};

/// Event M of 01, and M with a sample of pad 146 (01, case 7, as 02, #103, has it).
pub const M: [u16; 14] = [14, 0x5800, 5, 6, 0x5803, 0x1234, 0, 1, 0, 5, 0x5804, 7, 0, 0];
pub const PAD_146: [u16; 26] = [
    26, 0x5800, 5, 6, 0x5803, 0x1234, 0, 1, 0, 5, 0x5804, 7, 0, 0, 12, 0x5840, 0, 5, 0x5841, 0,
    0x8952, 0x092c, 4, 0x5845, 0, 0,
];
const BEFORE: u16 = 0xa5a5;

pub fn run() -> Result<(), String> {
    check_28()?;
    check_added()?;
    check_places()?;
    check_refused()?;
    check_dropped()?;
    check_found()?;
    check_plane()
}

fn refused(number: u32, place: u32) -> Answer {
    Err(Refusal { number, place })
}

/// A page that holds words of these lengths from a slot on.
fn page(first: u64, lengths: &[u64]) -> Page {
    let mut page = Page { first, count: lengths.len() as u64, ..Page::CLEARED };
    for (k, &length) in lengths.iter().enumerate() {
        page.lengths[(first % 64) as usize + k & 63] = length;
    }
    page
}

/// An acceptable event of so many words.
fn event_of(words: usize) -> Vec<u16> {
    let opaque = [vec![words as u16 - 14, 0x5830], vec![0; words - 16]].concat();
    [&[words as u16], &M[1..], &opaque].concat()
}

/// 28 for too little room, too many events, and an event held of too many words; before 27, before
/// the reader's refusals and before 26. Lengths of slots that hold no event are free.
fn check_28() -> Result<(), String> {
    let enough = vec![BEFORE; ROOM_WORDS];
    let mut free = page(63, &[14, 26]);
    free.lengths[1..63].fill(1025);
    ensure(free.find_plane(&enough) == Ok(2), "lengths of slots without event are free")?;
    let mut too_many = Page::CLEARED;
    too_many.count = 65;
    let mut most = too_many.clone();
    most.count = u64::MAX;
    let too_long = [page(63, &[1025, 26]), page(63, &[14, 1025]), page(u64::MAX, &[14, u64::MAX])];
    for page in [vec![too_many, most], too_long.to_vec()].concat() {
        ensure_28(&page, &enough)?;
    }
    for room in [0, ROOM_WORDS - 1] {
        ensure_28(&Page::CLEARED, &enough[..room])?;
        ensure_28(&page(3, &[14]), &enough[..room])?;
    }
    Ok(())
}

fn ensure_28(page: &Page, room: &[u16]) -> Result<(), String> {
    let (mut changed, mut room_after) = (page.clone(), room.to_vec());
    let mut answers = vec![page.find(0, room), page.find(u64::MAX, room), page.find_plane(room)];
    answers.push(changed.drop_oldest(room));
    for words in [&M[..], &M[..1], &event_of(1025)] {
        answers.push(changed.add(words, &mut room_after));
    }
    let is_refused = answers.iter().all(|&answer| answer == refused(28, 0));
    let is_empty = page.event(0, room).is_empty() && page.plane(room) == [0; 256];
    let is_same = changed == *page && room_after == room;
    let what = format!("first {}, count {}, room {}", page.first, page.count, room.len());
    ensure(is_refused && is_empty && is_same, &format!("28 of each call: {what}"))
}

/// From a cleared page the events stand one behind another; only their words are written.
fn check_added() -> Result<(), String> {
    let (mut page, mut room) = (Page::CLEARED, vec![BEFORE; ROOM_WORDS + 1]);
    ensure(page.add(&M, &mut room) == Ok(1), "the first event")?;
    ensure(page.add(&PAD_146, &mut room) == Ok(2), "the second event")?;
    let is_written = |at: usize, words: &[u16]| {
        room[at..at + words.len()] == *words && room[at + words.len()] == BEFORE
    };
    ensure(is_written(0, &M) && is_written(1024, &PAD_146), "the words of two events")?;
    let is_untouched = |words: &[u16]| words.iter().all(|&word| word == BEFORE);
    ensure(is_untouched(&room[14..1024]) && is_untouched(&room[1050..]), "the room behind them")?;
    let mut expected = Page { count: 2, ..Page::CLEARED };
    (expected.lengths[0], expected.lengths[1]) = (14, 26);
    ensure(page == expected, "the page of two events")
}

/// For a first number, the events held and M added: the slot where it goes, the first number then,
/// and the events then held.
const PLACES: [(u64, usize, usize, u64, u32); 12] = [
    (0, 63, 63, 0, 64),
    (63, 1, 0, 63, 2),
    (64, 2, 2, 64, 3),
    (100, 30, 2, 100, 31),
    (u64::MAX, 0, 63, u64::MAX, 1),
    (u64::MAX, 1, 0, u64::MAX, 2),
    (u64::MAX, 63, 62, u64::MAX, 64),
    (0, 64, 0, 1, 64),
    (63, 64, 63, 0, 64),
    (64, 64, 0, 1, 64),
    (70, 64, 6, 7, 64),
    (u64::MAX, 64, 63, 0, 64),
];

/// Where the next event goes; what stood behind its words in the slot stays.
fn check_places() -> Result<(), String> {
    for (first, held, slot, first_then, held_then) in PLACES {
        let mut page = page(first, &vec![20; held]);
        let mut room = vec![BEFORE; ROOM_WORDS];
        let mut expected = page.clone();
        (expected.first, expected.count) = (first_then, u64::from(held_then));
        expected.lengths[slot] = 14;
        let mut expected_room = room.clone();
        expected_room[1024 * slot..1024 * slot + 14].copy_from_slice(&M);
        let answer = page.add(&M, &mut room);
        let is_good = answer == Ok(held_then) && page == expected && room == expected_room;
        ensure(is_good, &format!("M added to {held} events, first {first}"))?;
    }
    Ok(())
}

/// The reader's refusals, then 26; page and room as they were.
fn check_refused() -> Result<(), String> {
    let mut wrong_end = event_of(1025);
    wrong_end[14] -= 1;
    let mut wrong_tag = event_of(4096);
    wrong_tag[15] = 0x5831;
    let cases: [(&[u16], Answer); 9] = [
        (&[], refused(1, 0)),
        (&M[..13], refused(1, 0)),
        (&vec![0; 4097], refused(1, 0)),
        (&[13, 0x5800, 5, 6, 0x5803, 0, 0, 0, 0, 5, 0x5804, 7, 0, 0], refused(2, 0)),
        (&wrong_end, refused(5, 1024)),
        (&wrong_tag, refused(6, 15)),
        (&event_of(1025), refused(26, 1025)),
        (&event_of(4096), refused(26, 4096)),
        (&event_of(1024), Ok(64)),
    ];
    for (words, answer) in cases {
        let (mut page, mut room) = (page(5, &[14; 64]), vec![BEFORE; ROOM_WORDS]);
        let (page_before, room_before) = (page.clone(), room.clone());
        let came = page.add(words, &mut room);
        let is_same = page == page_before && room == room_before;
        let what = format!("{} words: {answer:?}, not {came:?}", words.len());
        ensure(came == answer && is_same == answer.is_err(), &what)?;
    }
    Ok(())
}

/// Only the first number and the count change; 27 for an empty page, wherever it begins.
fn check_dropped() -> Result<(), String> {
    let room = vec![BEFORE; ROOM_WORDS];
    for (first, then) in [(0, 1), (62, 63), (63, 0), (64, 1), (200, 9), (u64::MAX, 0)] {
        for held in [1, 2, 64] {
            let mut page = page(first, &vec![20; held]);
            let expected = Page { first: then, count: held as u64 - 1, lengths: page.lengths };
            let answer = page.drop_oldest(&room);
            let is_good = answer == Ok(held as u32 - 1) && page == expected;
            ensure(is_good, &format!("a drop of {held} events, first {first}"))?;
        }
        let mut empty = Page { first, ..Page::CLEARED };
        let is_27 = empty.drop_oldest(&room) == refused(27, 0) && empty.first == first;
        ensure(is_27, &format!("a drop of none, first {first}"))?;
    }
    Ok(())
}

/// The events held, oldest first, each as part of the room; 27 past the last.
fn check_found() -> Result<(), String> {
    let room: Vec<u16> = (0..ROOM_WORDS).map(|index| index as u16).collect();
    for first in [63, 127, u64::MAX] {
        let page = page(first, &[3, 1024, 0]);
        let answers = [0, 1, 2, 3, 63, 64, u64::MAX].map(|k| page.find(k, &room));
        let past = refused(27, 0);
        let expected = [Ok(3), Ok(1024), Ok(0), past, past, past, past];
        ensure(answers == expected, &format!("lengths, first {first}"))?;
        let is_part = |k, range: std::ops::Range<usize>| {
            page.event(k, &room).as_ptr_range() == room[range].as_ptr_range()
        };
        let last = SLOT_WORDS * 63;
        ensure(is_part(0, last..last + 3) && is_part(1, 0..1024), "events are parts of the room")?;
        let is_none = [2, 3, 63, 64, u64::MAX].iter().all(|&k| page.event(k, &room).is_empty());
        ensure(is_none, "an event of no words, and none past the last")?;
    }
    Ok(())
}

/// Pad 146 once for each event with its sample; four connectors of one head; one pad twice in an
/// event; nothing of words that are no acceptable event, or that no event held has.
fn check_plane() -> Result<(), String> {
    let (mut page, mut room) = (Page::CLEARED, vec![BEFORE; ROOM_WORDS]);
    let samples = [0x8001, 0x0000, 0x0400, 0x0800, 0x0c00, 0x807f, 0x0c01, 0x8041, 0x0002];
    let crdc = [&[19, 0x5840, 1, 12, 0x5841, 0][..], &samples, &[4, 0x5845, 0, 0]].concat();
    let groups = [&[33], &M[1..], &crdc].concat();
    for words in [&PAD_146[..], &M, &groups, &PAD_146] {
        page.add(words, &mut room).map_err(|refusal| format!("{refusal:?} of the plane"))?;
    }
    let mut expected = [0; 256];
    (expected[146], expected[255]) = (2, 1);
    (expected[1], expected[65], expected[129], expected[193]) = (2, 1, 1, 1);
    ensure(page.plane(&room) == expected, "the hits of four events")?;
    room[1024 * 3 + 20] = 0x0952;
    expected[146] = 1;
    ensure(page.plane(&room) == expected, "a head without bit 15: nothing of its event counts")?;
    ensure(page.find_plane(&room) == Ok(4), "it is held all the same")?;
    page.lengths[0] = 25;
    expected[146] = 0;
    ensure(page.plane(&room) == expected, "an event that lacks its last word")?;
    page.drop_oldest(&room).map_err(|refusal| format!("{refusal:?} of a drop"))?;
    page.drop_oldest(&room).map_err(|refusal| format!("{refusal:?} of a drop"))?;
    ensure(page.plane(&room) == expected, "what is dropped counted nothing")?;
    page.drop_oldest(&room).map_err(|refusal| format!("{refusal:?} of a drop"))?;
    ensure(page.plane(&room) == [0; 256], "no hit is left")
}
