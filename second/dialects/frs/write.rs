//! Writing of dialect F: the inverse of the layouts in read.rs, with refusals 20 to 22.

use super::layout::{
    kind, tagged, DATA_FLAG, EMPTY_FLAG, FOOTER_FLAG, HEADER_FLAG, LARGEST_DATUM, PATTERN_FOOTER,
    PATTERN_GEO, PATTERN_HEADER, PATTERN_UPPER, SCALER_FOOTER, SCALER_GEO, STAMP_HEAD, STAMP_UPPER,
};
use crate::base::{ChannelSet, Order, Refusal};
use crate::cursor::Cursor;

/// The longwords of rows, or their refusal; every refusal but 24. 23 cannot be given: each GEO
/// comes once, so rows never need more than 1,062 longwords.
pub fn words_of(elements: &[u32], _: Order) -> Result<Vec<u32>, Refusal> {
    let mut rows = Cursor::new(elements)?;
    let mut words = Vec::new();
    put_stamp(&mut rows, &mut words)?;
    put_scaler(&mut rows, &mut words)?;
    if rows.next_is(kind::PATTERN_UNIT) {
        put_pattern_unit(&mut rows, &mut words)?;
    }
    let mut geos = ChannelSet::new();
    while !rows.is_done() {
        put_module(&mut rows, &mut geos, &mut words)?;
    }
    Ok(words)
}

fn put_stamp(rows: &mut Cursor, words: &mut Vec<u32>) -> Result<(), Refusal> {
    let row = rows.take(kind::STAMP)?;
    rows.require(row[1..].iter().all(|&field| field <= 0xffff))?;
    words.push(STAMP_HEAD);
    for index in 0..3 {
        words.push(STAMP_UPPER[index] << 16 | row[index + 1]);
    }
    Ok(())
}

fn put_scaler(rows: &mut Cursor, words: &mut Vec<u32>) -> Result<(), Refusal> {
    let [_, unit, count, datum] = rows.take(kind::SCALER_BLOCK)?;
    rows.require(unit == SCALER_GEO && (1..=32).contains(&count) && datum == 0)?;
    words.push(tagged(SCALER_GEO, HEADER_FLAG, count));
    for index in 0..count {
        let row = rows.take(kind::SCALER)?;
        rows.require(row[1] == SCALER_GEO && row[2] == index)?;
        words.push(row[3]);
    }
    words.push(SCALER_FOOTER);
    Ok(())
}

fn put_pattern_unit(rows: &mut Cursor, words: &mut Vec<u32>) -> Result<(), Refusal> {
    let [_, unit, multiplicity, register] = rows.take(kind::PATTERN_UNIT)?;
    rows.require(unit == PATTERN_GEO && multiplicity <= 0xffff && register <= 0xffff)?;
    words.push(PATTERN_HEADER);
    words.push(PATTERN_UPPER[0] << 16 | register);
    words.push(PATTERN_UPPER[1] << 16 | multiplicity);
    words.push(PATTERN_FOOTER);
    Ok(())
}

fn put_module(
    rows: &mut Cursor,
    geos: &mut ChannelSet,
    words: &mut Vec<u32>,
) -> Result<(), Refusal> {
    let [row_kind, geo, count, counter] =
        rows.take_if(|row| row[0] == kind::EMPTY_MODULE || row[0] == kind::MODULE)?;
    rows.require(geo <= 31 && geo != PATTERN_GEO && geo != SCALER_GEO)?;
    rows.require(geos.add(geo))?;
    if row_kind == kind::EMPTY_MODULE {
        rows.require(count == 0 && counter == 0)?;
        words.push(tagged(geo, EMPTY_FLAG, 0));
        return Ok(());
    }
    rows.require((1..=32).contains(&count) && counter <= 0xffff)?;
    words.push(tagged(geo, HEADER_FLAG, count));
    let mut channels = ChannelSet::new();
    for _ in 0..count {
        let row = rows.take(kind::VALUE)?;
        rows.require(row[1] == geo && row[2] <= 31 && row[3] <= LARGEST_DATUM)?;
        rows.require(channels.add(row[2]))?;
        words.push(tagged(geo, DATA_FLAG, row[2] << 16 | row[3]));
    }
    words.push(tagged(geo, FOOTER_FLAG, counter));
    Ok(())
}
