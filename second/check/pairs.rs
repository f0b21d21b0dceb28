//! The comparison of two events: the lists, their rooms and the tail, worked out by hand from 02,
//! #104; then what holds of every pair.

use super::ensure;
use crate::base::{Order, Refusal};
use crate::dialects::DIALECTS;
use crate::generate::pairs as generated;
use crate::lines::line_of;
use crate::pairs::call::Call;
use crate::pairs::{tail, Pair};
use crate::rng::Rng;

const PAIRS: usize = 3000;
const SEED: u64 = 104;
const UNTOUCHED: u32 = 0xa5a5_a5a5;
const UNTOUCHED_LONG: u64 = 0xa5a5_a5a5_a5a5_a5a5;

pub fn run() -> Result<(), String> {
    check_rooms()?;
    check_other_width()?;
    check_tail()?;
    check_text()?;
    let mut rng = Rng::new(SEED);
    for index in 0..PAIRS {
        let pair = generated::random(&mut rng, DIALECTS[index % DIALECTS.len()]);
        check_itself(&pair)?;
        check_exchanged(&pair)?;
    }
    Ok(())
}

/// Spoken case 10 with a value and the last word of the stamp changed: two words and two rows.
fn two_events() -> Pair {
    let first = [0x0200, 0x00f7_17ff, 0x01f7_38e1, 0x02f7_0563, 0x3200_0001, 0x2a, 0x3400_0000];
    let second = [0x0200, 0x00f7_17ff, 0x01f7_38e1, 0x02f7_0000, 0x3200_0001, 0x2b, 0x3400_0000];
    Pair::new(DIALECTS[1], [first.to_vec(), second.to_vec()])
}

const WORDS: [u64; 6] = [3, 0x02f7_0563, 0x02f7_0000, 5, 0x2a, 0x2b];
const ROWS: [u32; 18] =
    [0, 16, 0x17ff, 0x38e1, 0x563, 16, 0x17ff, 0x38e1, 0, 2, 18, 6, 0, 0x2a, 18, 6, 0, 0x2b];

/// Every room of the two lists up to an entry more than they need.
fn check_rooms() -> Result<(), String> {
    for lent_words in 0..=9 {
        for lent_rows in 0..=27 {
            let mut words = vec![UNTOUCHED_LONG; lent_words];
            let mut rows = vec![UNTOUCHED; lent_rows];
            let answer = two_events().compare(Order::Crossed, &mut words, &mut rows);
            let is_good = if lent_words < 6 || lent_rows < 18 {
                answer == Err(Refusal { number: 25, place: 2 })
                    && words.iter().all(|&number| number == UNTOUCHED_LONG)
                    && rows.iter().all(|&number| number == UNTOUCHED)
            } else {
                answer == Ok([2, 2])
                    && words[..6] == WORDS
                    && words[6..].iter().all(|&number| number == UNTOUCHED_LONG)
                    && rows[..18] == ROWS
                    && rows[18..].iter().all(|&number| number == UNTOUCHED)
            };
            ensure(is_good, &format!("the lists in {lent_words} and {lent_rows} elements"))?;
        }
    }
    check_which_list()
}

/// 25 counts the entries of the word list, or else of the row list: the three words of M's event
/// number are one row.
fn check_which_list() -> Result<(), String> {
    let m = [14, 0x5800, 5, 6, 0x5803, 0x1234, 0, 1, 0, 5, 0x5804, 7, 0, 0];
    let mut other = m;
    (other[11], other[12], other[13]) = (8, 1, 1);
    let answer = |events: [&[u32]; 2], words: usize, rows: usize| {
        let pair = Pair::new(DIALECTS[0], events.map(<[u32]>::to_vec));
        pair.compare(Order::Rising, &mut vec![0; words], &mut vec![0; rows])
    };
    let refused = |place| Err(Refusal { number: 25, place });
    ensure(answer([&m, &other], 8, 0) == refused(3), "25 of the word list before the row list")?;
    ensure(answer([&m, &other], 9, 8) == refused(1), "25 of the row list")?;
    ensure(answer([&m, &other], 9, 9) == Ok([3, 1]), "three words and a row")?;
    ensure(answer([&m, &m], 0, 0) == Ok([0, 0]), "empty lists need no room")?;
    other[0] = 13;
    ensure(answer([&m, &other], 12, 0) == Ok([4, 0]), "a refused event has no rows")?;
    ensure(answer([&m, &m[..13]], 0, 0) == Ok([0, 0]), "a tail needs no room")
}

/// M in words of 32 bits, its stamp changed: a word differs, and no row.
fn check_other_width() -> Result<(), String> {
    let m = [14, 0x5800, 5, 6, 0x5803, 0x1234, 0, 1, 0, 5, 0x5804, 7, 0, 0];
    let mut other = m;
    other[5] = 0x4321;
    let mut pair = Pair::new(DIALECTS[0], [m.to_vec(), other.to_vec()]);
    let (mut words, mut rows) = ([0; 3], [0; 9]);
    let answer = pair.compare(Order::Crossed, &mut words, &mut rows);
    ensure(answer == Ok([1, 1]) && words == [5, 0x1234, 0x4321], "M in words of 16 bits")?;
    pair.bits = 32;
    rows = [0; 9];
    let answer = pair.compare(Order::Crossed, &mut words, &mut rows);
    ensure(answer == Ok([1, 0]) && rows == [0; 9], "M in words of 32 bits")
}

/// The tail is a part of the event that is longer, and of the first where both are as long.
fn check_tail() -> Result<(), String> {
    let (first, second) = ([1, 2, 3], [1, 5, 3, 4, 6]);
    let is_part = |of: &[u32], range: std::ops::Range<usize>, part: &[u32]| {
        part.as_ptr_range() == of[range].as_ptr_range()
    };
    ensure(is_part(&second, 3..5, tail(&first, &second)), "the tail of the second")?;
    ensure(is_part(&second, 3..5, tail(&second, &first)), "the tail of the first")?;
    ensure(is_part(&first, 3..3, tail(&first, &second[..3])), "the empty end of the first")?;
    ensure(is_part(&second, 0..5, tail(&[], &second)), "a tail of all words")
}

/// A call's text, and the texts of its answers: accepted, refused, and with too little room for the
/// three numbers. Any order but 0 is rising.
fn check_text() -> Result<(), String> {
    let pair = Pair::new(DIALECTS[2], [vec![0xf001, 0x0fff], vec![]]);
    let mut call = Call { pair, order: 1, words: 1, rows: 0, answer: 4 };
    let text = "00000010 00000002 00000001 00000001 00000000 00000004 f0010fff -\n";
    ensure(call.text() == text.as_bytes(), "the text of a call")?;
    let (zero, one) = ("0000000000000000", "0000000000000001");
    let untouched = "a5a5a5a5a5a5a5a5";
    let text = format!("answer {zero} {zero} {zero} {untouched}\nword {untouched}\n");
    ensure(answer_text(&call) == text, "the text of an answer")?;
    call.pair.events[1] = vec![0xf002];
    call.rows = 10;
    let row = " a5a5a5a5".repeat(9);
    let lists = format!("word {untouched}\nrow{row}\nrow a5a5a5a5\n");
    let text = format!("answer 0000000000000019 {one} {zero} {untouched}\n{lists}");
    ensure(answer_text(&call) == text, "the text of a refused answer")?;
    call.answer = 2;
    let text = format!("answer {untouched} {untouched}\n{lists}");
    ensure(answer_text(&call) == text, "the text of two numbers")?;
    let orders = [0, 1, 2, u32::MAX].map(|order| Call { order, ..call.clone() }.order());
    let rising = Order::Rising;
    ensure(orders == [Order::Crossed, rising, rising, rising], "the orders by number")
}

fn answer_text(call: &Call) -> String {
    let mut text = Vec::new();
    // The answer itself is in the text.
    let _ = call.push_answer(&mut text);
    String::from_utf8_lossy(&text).into_owned()
}

/// An event does not differ from itself.
fn check_itself(pair: &Pair) -> Result<(), String> {
    for event in &pair.events {
        let itself = Pair::new(pair.dialect, [event.clone(), event.clone()]);
        let is_empty = itself.compare(Order::Crossed, &mut [], &mut []) == Ok([0, 0]);
        let line = String::from_utf8_lossy(&line_of(pair.dialect, event)).into_owned();
        ensure(is_empty && tail(event, event).is_empty(), &format!("{line} with itself"))?;
    }
    Ok(())
}

/// With the events exchanged, the columns are exchanged and the tail is the same.
fn check_exchanged(pair: &Pair) -> Result<(), String> {
    let [first, second] = &pair.events;
    let exchanged = Pair::new(pair.dialect, [second.clone(), first.clone()]);
    let words = pair.word_list().into_iter().map(|[index, one, other]| [index, other, one]);
    let rows = pair.row_list(Order::Rising).into_iter().map(|entry| {
        let [index, a, b, c, d, e, f, g, h] = entry;
        [index, e, f, g, h, a, b, c, d]
    });
    let is_same = words.eq(exchanged.word_list())
        && rows.eq(exchanged.row_list(Order::Rising))
        && tail(first, second) == tail(second, first);
    let lines = [first, second].map(|words| line_of(pair.dialect, words));
    let [one, other] = lines.map(|line| String::from_utf8_lossy(&line).into_owned());
    ensure(is_same, &format!("the columns of\n{one}\n{other}\nexchanged"))
}
