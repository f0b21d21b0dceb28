//! The texts of the page's calls and of their answers, and what holds of every run of calls: the page
//! is a queue of events.

use super::ensure;
use super::page::{M, PAD_146};
use crate::generate::page_calls as generated;
use crate::page::call::{Call, Step};
use crate::page::lent::Lent;
use crate::page::{Page, MOST_EVENTS, NUMBERS, ROOM_WORDS};
use crate::rng::Rng;
use std::collections::VecDeque;

const SEQUENCES: usize = 300;
const CALLS: usize = 400;
const SEED: u64 = 107;

pub fn run() -> Result<(), String> {
    check_texts()?;
    check_answers()?;
    check_short_page()?;
    check_queue()?;
    check_unchanged()
}

fn text_of(step: &Step) -> String {
    String::from_utf8_lossy(&step.text()).into_owned()
}

fn check_texts() -> Result<(), String> {
    let call = |call| Step::Call(call);
    let steps = [
        (Step::LendPage(vec![]), "page 0\n"),
        (Step::LendPage(vec![0, 65, u64::MAX, 0]), "page 4 0 41 ffffffffffffffff\n"),
        (Step::LendRoom { words: ROOM_WORDS, factor: 0x9e37 }, "room 10000 9e37\n"),
        (Step::Put { at: 1024, words: vec![1, 0xffff] }, "put 400 0001ffff\n"),
        (call(Call::Clear), "clear\n"),
        (call(Call::Add { answer: 2, words: vec![] }), "add 2 -\n"),
        (call(Call::Add { answer: 0, words: vec![0xabc] }), "add 0 0abc\n"),
        (call(Call::Drop { answer: 3 }), "drop 3\n"),
        (call(Call::Find { answer: 2, k: 63 }), "find 2 3f\n"),
        (call(Call::Event { words: 26, k: u64::MAX }), "event 1a ffffffffffffffff\n"),
        (call(Call::FindPlane { answer: 1 }), "find-plane 1\n"),
        (call(Call::Plane { counts: 256 }), "plane 100\n"),
    ];
    for (step, text) in steps {
        ensure(text_of(&step) == text, &format!("the text of {step:?}"))?;
    }
    Ok(())
}

/// What comes of a call, as text.
fn answer_text(lent: &mut Lent, call: Call) -> Result<String, String> {
    let came = lent.take(&Step::Call(call)).ok_or("a call has an outcome")?;
    let mut text = Vec::new();
    lent.push_text(&came, &mut text);
    Ok(String::from_utf8_lossy(&text).into_owned())
}

/// The hashes are those of FNV-1a for no bytes, for `foob` and for `foobar`.
fn check_answers() -> Result<(), String> {
    let mut lent = Lent::new();
    let (of_none, of_foob) = ("cbf29ce484222325", "dd120e790c2512af");
    let came = answer_text(&mut lent, Call::Clear)?;
    ensure(came == format!("answer\npage\nroom {of_none}\n"), "the text of clear")?;
    // The numbers 1, 2, the words `fo` and `ob`.
    let _ = lent.take(&Step::LendPage(vec![1, 2]));
    let _ = lent.take(&Step::LendRoom { words: 2, factor: 0 });
    let _ = lent.take(&Step::Put { at: 0, words: vec![0x6f66, 0x626f] });
    let kept = format!("page 1 2\nroom {of_foob}\n");
    let untouched = "a5a5a5a5a5a5a5a5";
    let came = answer_text(&mut lent, Call::Drop { answer: 3 })?;
    let refused = format!("answer 000000000000001c 0000000000000000 {untouched}\n{kept}");
    ensure(came == refused, "the text of a refused drop")?;
    let came = answer_text(&mut lent, Call::Find { answer: 1, k: 0 })?;
    ensure(came == format!("answer {untouched}\n{kept}"), "the text of one number")?;
    let came = answer_text(&mut lent, Call::Event { words: 2, k: 0 })?;
    ensure(came == format!("answer\n{kept}words a5a5 a5a5\n"), "the text of words")?;
    let came = answer_text(&mut lent, Call::Plane { counts: 65 })?;
    let counts = " a5a5a5a5".repeat(64);
    let lines = format!("counts{counts}\ncounts a5a5a5a5\n");
    ensure(came == format!("answer\n{kept}{lines}"), "the text of too few counts")?;
    let came = answer_text(&mut lent, Call::Plane { counts: 257 })?;
    let counts = format!("counts{}\n", " 00000000".repeat(64)).repeat(4);
    let lines = format!("{counts}counts a5a5a5a5\n");
    ensure(came == format!("answer\n{kept}{lines}"), "the text of a refused plane")?;
    let _ = lent.take(&Step::LendRoom { words: 3, factor: 0 });
    let _ = lent.take(&Step::Put { at: 0, words: vec![0x6f66, 0x626f, 0x7261] });
    let came = answer_text(&mut lent, Call::FindPlane { answer: 0 })?;
    ensure(came == "answer\npage 1 2\nroom 85944171f73967e8\n", "the text of no answer")
}

/// A page that is lent in too few numbers: the missing ones are 0, the words are written, and the
/// numbers stay.
fn check_short_page() -> Result<(), String> {
    let mut lent = Lent::new();
    let _ = lent.take(&Step::LendRoom { words: ROOM_WORDS, factor: 1 });
    let mut page = Page { first: 62, count: 1, ..Page::CLEARED };
    page.lengths[62] = 14;
    let numbers = page.numbers()[..NUMBERS - 1].to_vec();
    let _ = lent.take(&Step::LendPage(numbers.clone()));
    let add = Step::Call(Call::Add { answer: 2, words: M.to_vec() });
    let answer = lent.take(&add).and_then(|came| came.answer);
    let is_written = lent.room[1024 * 63..][..14] == M && lent.room[1024 * 63 + 14] == 0xfc0f;
    ensure(answer == Some(Ok(2)) && is_written, "an add to a page of 65 numbers")?;
    ensure(lent.page == numbers, "65 numbers stay as they are")?;
    let _ = lent.take(&Step::LendPage([&page.numbers()[..], &[7]].concat()));
    let _ = lent.take(&Step::Call(Call::Clear));
    ensure(lent.page == [vec![0; NUMBERS], vec![7]].concat(), "67 numbers, the last stays")
}

/// After each of many calls from a cleared page the events read back are the last added and not
/// dropped, and the sum over the plane is that of their samples.
fn check_queue() -> Result<(), String> {
    let mut rng = Rng::new(SEED);
    let (mut page, mut room) = (Page::CLEARED, vec![0x5800; ROOM_WORDS]);
    let mut queue: VecDeque<&[u16]> = VecDeque::new();
    for call in 0..CALLS {
        let is_drop = rng.chance(if call % 200 < 120 { 10 } else { 80 });
        let words = rng.pick(&[&M[..], &PAD_146]);
        let is_accepted = match is_drop {
            true => page.drop_oldest(&room).is_ok(),
            false => page.add(words, &mut room).is_ok(),
        };
        let is_good = is_accepted != (is_drop && queue.is_empty());
        ensure(is_good, &format!("call {call} of a queue"))?;
        if !is_drop {
            queue.push_back(words);
        }
        if is_drop || queue.len() > MOST_EVENTS {
            queue.pop_front();
        }
        let held = (0..page.count).map(|k| page.event(k, &room));
        ensure(held.eq(queue.iter().copied()), &format!("the events after call {call}"))?;
        let samples = queue.iter().filter(|words| words.len() == PAD_146.len()).count();
        let hits: u32 = page.plane(&room).iter().sum();
        ensure(hits as usize == samples, &format!("the hits after call {call}"))?;
    }
    Ok(())
}

/// A refused call, and one that only reads, leaves page and room as they were.
fn check_unchanged() -> Result<(), String> {
    let mut rng = Rng::new(SEED);
    let mut lent = Lent::new();
    for step in (0..SEQUENCES).flat_map(|_| generated::random(&mut rng)) {
        let before = (lent.page.clone(), lent.room.clone());
        let Some(came) = lent.take(&step) else { continue };
        let is_refused = came.answer.is_some_and(|answer| answer.is_err());
        let may_change =
            matches!(step, Step::Call(Call::Clear | Call::Add { .. } | Call::Drop { .. }));
        let is_same = (lent.page.clone(), lent.room.clone()) == before;
        ensure(is_same || may_change && !is_refused, &text_of(&step))?;
    }
    Ok(())
}
