//! Spoken cases 1 to 9 of document 01, case 7 as 02, #103, has it, and the lists of group_edges.rs.

use super::{group_edges, DIALECT};
use crate::base::{Order, Refusal, Row};
use crate::check::{ensure, ensure_refused, outcome, Outcome};

const M: &str = "S 000e 5800 0005 0006 5803 1234 0000 0001 0000 0005 5804 0007 0000 0000";

pub fn check() -> Result<(), String> {
    let refused = |number, place| -> Outcome { Err(Refusal { number, place }) };
    let stamp = |order| outcome(M, order).map(|rows| rows[1]);
    ensure(stamp(Order::Crossed) == Ok([2, 0, 0, 0x0001_1234]), "case 1")?;
    ensure(stamp(Order::Rising) == Ok([2, 0, 1, 0x1234]), "case 2")?;
    ensure(m_with(0, "000d") == refused(2, 0), "case 3")?;
    ensure(m_with(3, "000b") == refused(7, 3), "case 4")?;
    ensure(m_with(3, "000c") == refused(5, 3), "case 5")?;
    let longer = format!("{} 0000", M.replacen("000e", "000f", 1));
    ensure(outcome(&longer, Order::Crossed) == refused(5, 14), "case 6")?;
    let crdc = "000c 5840 0000 0005 5841 0000 8952 092c 0004 5845 0000 0000";
    ensure(added_row(crdc, 2) == Some([8, 37, 18, 0]), "case 7, the head")?;
    ensure(added_row(crdc, 1) == Some([12, 37, 146, 300]), "case 7, the data word")?;
    ensure(added_row("0004 58c0 0002 612c", 0) == Some([6, 0, 19, 300]), "case 8")?;
    ensure(added_row("0004 5801 0000 8064", 0) == Some([5, 0, 8, 100]), "case 9")?;
    ensure_refused(&DIALECT, group_edges::writings())
}

/// The outcome of M with one word replaced.
fn m_with(index: usize, word: &str) -> Outcome {
    let mut words: Vec<&str> = M.split(' ').collect();
    words[index + 1] = word;
    outcome(&words.join(" "), Order::Crossed)
}

/// The last but so many row of M with a packet added.
fn added_row(packet: &str, from_end: usize) -> Option<Row> {
    let words = packet.split(' ').count() + 14;
    let line = format!("{} {packet}", M.replacen("000e", &format!("{words:04x}"), 1));
    let rows = outcome(&line, Order::Crossed).ok()?;
    Some(rows[rows.len() - 1 - from_end])
}
