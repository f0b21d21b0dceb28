//! The data block of source document 003 (its chapter 4.3), and the lists of two_faults.rs. Document
//! 01's spoken cases have none of R.

use super::{two_faults, DIALECT};
use crate::base::{Order, Row};
use crate::check::{ensure, ensure_refused, outcome};

/// The regions of the first event, with a sum behind them that document 003 leaves out there.
const DATA_BLOCK: &str = "R 2001 1c3a d007 b001 0096 0873 1037 182e 2081 283b \
    d005 a002 181e 20e9 5828 60a0 e006 a881 024b 0a85 1b08 2287 2b16 e003 9082 2231 6254 \
    2001 1fff 7011 8961 5d79 61fa 659d 8941 3559 39e7 3da9 8921 6981 6e03 71a3 \
    8901 4166 45ec 49a2 8900 a008 5007 8002 3209 39fa c800 52cc 5b18 cc00 f001 1cd5";

/// The register and a scaler of the block's last event.
const BLOCK_END: &str = "R 2001 8000 6004 0000 0000 cc66 0008 f001 438c";

pub fn check() -> Result<(), String> {
    check_data_block()?;
    let end = outcome(BLOCK_END, Order::Rising);
    let rows = vec![
        [32, 2, 1, 0],
        [33, 0, 0, 0x8000],
        [32, 6, 4, 0],
        [34, 0, 0, 0],
        [34, 0, 1, 0x0008_cc66],
        [32, 15, 1, 0],
        [33, 0, 0, 0x438c],
    ];
    ensure(end == Ok(rows), "document 003's scaler")?;
    ensure_refused(&DIALECT, two_faults::writings())
}

/// Document 003 names, of these, module 61, channel 23 with time 179, channel 28 with 1a3, the last
/// module, and the sizes of the regions.
fn check_data_block() -> Result<(), String> {
    let rows = outcome(DATA_BLOCK, Order::Crossed);
    let rows = rows.map_err(|refusal| format!("document 003's data block: {refusal:?}"))?;
    let regions: Vec<Row> = rows.iter().copied().filter(|row| row[0] == 32).collect();
    let sizes = [(2, 1), (13, 7), (13, 5), (14, 6), (14, 3), (2, 1), (7, 17), (10, 8), (15, 1)];
    ensure(regions == sizes.map(|(id, size)| [32, id, size, 0]), "document 003's regions")?;
    ensure(rows[1] == [33, 0, 0, 0x1c3a], "document 003's input register")?;
    // No scaler: each word has a row, and they have the same index.
    let named = [
        (30, [35, 0x61, 1, 1]),
        (31, [36, 0, 23, 0x179]),
        (41, [36, 0, 28, 0x1a3]),
        (46, [35, 0, 1, 1]),
    ];
    for (index, row) in named {
        ensure(rows[index] == row, &format!("document 003's word {index}"))?;
    }
    ensure(rows.len() == 58, "document 003's rows")
}
