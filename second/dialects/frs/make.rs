//! Acceptable events of dialect F, kept as blocks so that damage can repair counts.

use super::layout::{
    tagged, DATA_FLAG, EMPTY_FLAG, FOOTER_FLAG, HEADER_FLAG, LARGEST_DATUM, PATTERN_FOOTER,
    PATTERN_HEADER, PATTERN_UPPER, SCALER_FOOTER, SCALER_GEO, STAMP_HEAD, STAMP_UPPER,
};
use crate::rng::Rng;

/// The longwords of a block: the stamp, the scaler, the pattern unit or one module.
pub type Block = Vec<u32>;

const MOST_MODULES: usize = 30;

pub fn event_of(blocks: &[Block]) -> Vec<u32> {
    blocks.concat()
}

/// A random event of 7 longwords.
pub fn smallest(rng: &mut Rng) -> Vec<Block> {
    vec![stamp(rng), scaler(rng, 1)]
}

/// A random event of 1,062 longwords.
pub fn largest(rng: &mut Rng) -> Vec<Block> {
    let mut blocks = vec![stamp(rng), scaler(rng, 32), pattern_unit(rng)];
    for geo in module_geos() {
        blocks.push(module(rng, geo, 32));
    }
    blocks
}

/// A random event: most are small, some have all modules with all channels.
pub fn mixed(rng: &mut Rng) -> Vec<Block> {
    let is_largest = rng.below(500) == 0;
    let mut blocks = vec![stamp(rng)];
    let scalers = if is_largest { 32 } else { rng.count(1, 32) };
    blocks.push(scaler(rng, scalers));
    if is_largest || rng.chance(40) {
        blocks.push(pattern_unit(rng));
    }
    let modules = match rng.below(60) {
        _ if is_largest => MOST_MODULES,
        0 => MOST_MODULES,
        1 => rng.below(MOST_MODULES),
        _ => rng.below(5),
    };
    for geo in rng.distinct(&module_geos(), modules) {
        if is_largest {
            blocks.push(module(rng, geo, 32));
        } else if rng.chance(30) {
            blocks.push(vec![tagged(geo, EMPTY_FLAG, 0)]);
        } else {
            let count = rng.count(1, 32);
            blocks.push(module(rng, geo, count));
        }
    }
    blocks
}

/// Any GEO but 5 and 6.
pub fn module_geos() -> Vec<u32> {
    (0..32).filter(|&geo| geo != 5 && geo != 6).collect()
}

fn stamp(rng: &mut Rng) -> Block {
    let mut words = vec![STAMP_HEAD];
    for upper in STAMP_UPPER {
        words.push(upper << 16 | rng.number(16));
    }
    words
}

fn scaler(rng: &mut Rng, count: usize) -> Block {
    let mut words = vec![tagged(SCALER_GEO, HEADER_FLAG, count as u32)];
    words.extend((0..count).map(|_| rng.number(32)));
    words.push(SCALER_FOOTER);
    words
}

pub fn pattern_unit(rng: &mut Rng) -> Block {
    let register = PATTERN_UPPER[0] << 16 | rng.number(16);
    let multiplicity = PATTERN_UPPER[1] << 16 | rng.number(16);
    vec![PATTERN_HEADER, register, multiplicity, PATTERN_FOOTER]
}

fn module(rng: &mut Rng, geo: u32, count: usize) -> Block {
    let mut words = vec![tagged(geo, HEADER_FLAG, count as u32)];
    let all: Vec<u32> = (0..32).collect();
    for channel in rng.distinct(&all, count) {
        words.push(tagged(geo, DATA_FLAG, channel << 16 | datum(rng)));
    }
    words.push(tagged(geo, FOOTER_FLAG, rng.number(16)));
    words
}

/// A datum, often 0 or the largest. Three random bits above it choose, about one time in eleven, the
/// last datum without bit 14 or the first with it.
fn datum(rng: &mut Rng) -> u32 {
    let number = rng.number(18);
    match number >> 15 {
        1 => 0x3fff + (number & 1),
        _ => number & LARGEST_DATUM,
    }
}
