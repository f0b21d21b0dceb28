//! Spoken cases 10 to 12 of document 01 and the thirteenth of 02, #106, and the lists of
//! datum_edges.rs.

use super::{datum_edges, DIALECT};
use crate::base::{Order, Refusal, Row};
use crate::check::{ensure, ensure_refused, outcome};

const CASE_10: &str = "F 00000200 00f717ff 01f738e1 02f70563 32000001 0000002a 34000000";

pub fn check() -> Result<(), String> {
    let with = |more: &str| outcome(&format!("{CASE_10}{more}"), Order::Crossed);
    let is_five = |rows: Vec<Row>, last: Row| rows.len() == 5 && rows[4] == last;
    ensure(with("").is_ok_and(|rows| rows.len() == 3), "case 10")?;
    let eleven = with(" 6a000001 68040061 6c000005");
    ensure(eleven.is_ok_and(|rows| is_five(rows, [22, 13, 4, 97])), "case 11")?;
    let twelve = with(" 46000000 46000000");
    ensure(twelve == Err(Refusal { number: 11, place: 8 }), "case 12")?;
    let thirteen = with(" 6a000001 6804404b 6c000005");
    ensure(thirteen.is_ok_and(|rows| is_five(rows, [22, 13, 4, 16_459])), "case 13")?;
    ensure_refused(&DIALECT, datum_edges::writings())
}
