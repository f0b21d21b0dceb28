//! Writing of dialect R: the inverse of the layouts in read.rs, with refusals 20 to 23.

use super::layout::{
    header, id_allowed, kind, size_allowed, sum_of, CHECK_SUM, DRIFT_CHAMBER, MODULE, SCALER,
};
use super::read::LARGEST_EVENT;
use crate::base::{refuse, Order, Refusal};
use crate::cursor::Cursor;

/// The words of rows, or their refusal; every refusal but 24.
pub fn words_of(elements: &[u32], _: Order) -> Result<Vec<u16>, Refusal> {
    let mut rows = Cursor::new(elements)?;
    let mut words = Vec::new();
    while put_region(&mut rows, &mut words)? != CHECK_SUM {}
    rows.finish()?;
    // The row last taken is that of the sum.
    rows.require(sum_of(&words) == 0)?;
    if words.len() > LARGEST_EVENT {
        return refuse(23, words.len());
    }
    Ok(words)
}

/// Writes one region and answers its id.
fn put_region(rows: &mut Cursor, words: &mut Vec<u16>) -> Result<u32, Refusal> {
    let [_, id, size, datum] = rows.take(kind::REGION)?;
    rows.require(id_allowed(id) && size_allowed(id, size) && datum == 0)?;
    words.push(header(id, size));
    match id {
        SCALER => put_scalers(rows, size / 2, words)?,
        DRIFT_CHAMBER => put_modules(rows, size, words)?,
        _ => put_words(rows, size, words)?,
    }
    Ok(id)
}

fn put_words(rows: &mut Cursor, count: u32, words: &mut Vec<u16>) -> Result<(), Refusal> {
    for _ in 0..count {
        let row = rows.take(kind::WORD)?;
        rows.require(row[1] == 0 && row[2] == 0 && row[3] <= 0xffff)?;
        words.push(row[3] as u16);
    }
    Ok(())
}

fn put_scalers(rows: &mut Cursor, count: u32, words: &mut Vec<u16>) -> Result<(), Refusal> {
    for index in 0..count {
        let row = rows.take(kind::SCALER)?;
        rows.require(row[1] == 0 && row[2] == index && row[3] <= 0xff_ffff)?;
        words.push(row[3] as u16);
        words.push((row[3] >> 16) as u16);
    }
    Ok(())
}

fn put_modules(rows: &mut Cursor, count: u32, words: &mut Vec<u16>) -> Result<(), Refusal> {
    for index in 0..count {
        let row = rows.take_if(|row| match row[0] {
            kind::MODULE => true,
            kind::TIME => index > 0,
            _ => false,
        })?;
        if row[0] == kind::MODULE {
            rows.require(row[1] <= 0xff && row[2] <= 7 && row[3] <= 7)?;
            words.push(MODULE | (row[2] << 11 | row[3] << 8 | row[1]) as u16);
        } else {
            rows.require(row[1] == 0 && row[2] <= 31 && row[3] <= 0x3ff)?;
            words.push((row[2] << 10 | row[3]) as u16);
        }
    }
    Ok(())
}
