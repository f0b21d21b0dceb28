//! Reading of dialect F (01, "Dialect F, longword by longword" and the refusal table; the datum as
//! 02, #106, has it).

use super::layout::{
    flag, geo, kind, DATA_FLAG, EMPTY_FLAG, FOOTER_FLAG, HEADER_FLAG, LARGEST_DATUM,
    PATTERN_FOOTER, PATTERN_GEO, PATTERN_HEADER, PATTERN_UPPER, SCALER_FOOTER, SCALER_GEO,
    STAMP_HEAD, STAMP_UPPER,
};
use crate::base::{refuse, ChannelSet, Order, Refusal, Row};

pub const SMALLEST_EVENT: usize = 7;
pub const LARGEST_EVENT: usize = 1062;

/// The rows of an event, or its refusal; every refusal but 12. F has no stamp order.
pub fn rows_of(words: &[u32], _: Order) -> Result<Vec<Row>, Refusal> {
    if words.len() < SMALLEST_EVENT || words.len() > LARGEST_EVENT {
        return refuse(1, 0);
    }
    let mut rows = Vec::new();
    put_stamp(words, &mut rows)?;
    let mut at = put_scaler(words, 4, &mut rows)?;
    // A word with GEO 5 right after the scaler is judged as a pattern unit.
    if at < words.len() && geo(words[at]) == PATTERN_GEO {
        at = put_pattern_unit(words, at, &mut rows)?;
    }
    let mut geos = ChannelSet::new();
    while at < words.len() {
        at = put_module(words, at, &mut geos, &mut rows)?;
    }
    Ok(rows)
}

fn put_stamp(words: &[u32], rows: &mut Vec<Row>) -> Result<(), Refusal> {
    if words[0] != STAMP_HEAD {
        return refuse(10, 0);
    }
    for index in 1..4 {
        if words[index] >> 16 != STAMP_UPPER[index - 1] {
            return refuse(10, index);
        }
    }
    rows.push([kind::STAMP, words[1] & 0xffff, words[2] & 0xffff, words[3] & 0xffff]);
    Ok(())
}

/// The count of a header longword: flag 2, bits 23-6 zero, count 1 to 32.
fn header_count(word: u32) -> Option<usize> {
    let count = (word & 0x3f) as usize;
    let is_header = flag(word) == HEADER_FLAG && word & 0x00ff_ffc0 == 0;
    if is_header && (1..=32).contains(&count) {
        Some(count)
    } else {
        None
    }
}

fn put_scaler(words: &[u32], at: usize, rows: &mut Vec<Row>) -> Result<usize, Refusal> {
    let header = words[at];
    let count = match header_count(header) {
        Some(count) if geo(header) == SCALER_GEO => count,
        _ => return refuse(6, at),
    };
    if count + 2 > words.len() - at {
        return refuse(5, at);
    }
    rows.push([kind::SCALER_BLOCK, SCALER_GEO, count as u32, 0]);
    for index in 0..count {
        rows.push([kind::SCALER, SCALER_GEO, index as u32, words[at + 1 + index]]);
    }
    let footer = at + 1 + count;
    if words[footer] != SCALER_FOOTER {
        return refuse(9, footer);
    }
    Ok(footer + 1)
}

fn put_pattern_unit(words: &[u32], at: usize, rows: &mut Vec<Row>) -> Result<usize, Refusal> {
    if words[at] != PATTERN_HEADER {
        return refuse(6, at);
    }
    if words.len() - at < 4 {
        return refuse(5, at);
    }
    for index in 0..2 {
        if words[at + 1 + index] >> 16 != PATTERN_UPPER[index] {
            return refuse(10, at + 1 + index);
        }
    }
    if words[at + 3] != PATTERN_FOOTER {
        return refuse(9, at + 3);
    }
    let (register, multiplicity) = (words[at + 1] & 0xffff, words[at + 2] & 0xffff);
    rows.push([kind::PATTERN_UNIT, PATTERN_GEO, multiplicity, register]);
    Ok(at + 4)
}

/// One module: refusals 6, 11, 5, then its words.
fn put_module(
    words: &[u32],
    at: usize,
    geos: &mut ChannelSet,
    rows: &mut Vec<Row>,
) -> Result<usize, Refusal> {
    let header = words[at];
    let module_geo = geo(header);
    let is_empty = flag(header) == EMPTY_FLAG && header & 0x00ff_ffff == 0;
    let count = header_count(header);
    if module_geo == PATTERN_GEO || module_geo == SCALER_GEO || (!is_empty && count.is_none()) {
        return refuse(6, at);
    }
    if !geos.add(module_geo) {
        return refuse(11, at);
    }
    let Some(count) = count else {
        rows.push([kind::EMPTY_MODULE, module_geo, 0, 0]);
        return Ok(at + 1);
    };
    if count + 2 > words.len() - at {
        return refuse(5, at);
    }
    put_module_words(&words[at..at + count + 2], at, rows)?;
    Ok(at + count + 2)
}

/// The data longwords and the footer of a module that fits.
fn put_module_words(block: &[u32], at: usize, rows: &mut Vec<Row>) -> Result<(), Refusal> {
    let module_geo = geo(block[0]);
    let last = block.len() - 1;
    let counter = block[last] & 0xffff;
    rows.push([kind::MODULE, module_geo, (last - 1) as u32, counter]);
    let mut channels = ChannelSet::new();
    for index in 1..last {
        let word = block[index];
        // Bits 23-21 and bit 15.
        let reserved = word & 0x00e0_8000;
        if geo(word) != module_geo || flag(word) != DATA_FLAG || reserved != 0 {
            return refuse(10, at + index);
        }
        let channel = word >> 16 & 0x1f;
        if !channels.add(channel) {
            return refuse(11, at + index);
        }
        rows.push([kind::VALUE, module_geo, channel, word & LARGEST_DATUM]);
    }
    let footer = block[last];
    if geo(footer) != module_geo || flag(footer) != FOOTER_FLAG || footer & 0x00ff_0000 != 0 {
        return refuse(9, at + last);
    }
    Ok(())
}
