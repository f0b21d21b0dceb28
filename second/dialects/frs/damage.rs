//! Damage to the longwords of dialect F. Counts are often repaired afterwards.

use super::layout::{
    flag, geo, tagged, DATA_FLAG, EMPTY_FLAG, FOOTER_FLAG, HEADER_FLAG, PATTERN_GEO, SCALER_GEO,
};
use super::make::{self, Block};
use crate::rng::Rng;

/// The longwords of an event of these blocks, damaged in one to three ways.
pub fn damaged(rng: &mut Rng, mut blocks: Vec<Block>) -> Vec<u32> {
    for _ in 0..rng.pick(&[1, 1, 1, 1, 2, 3]) {
        if rng.chance(25) {
            damage_blocks(rng, &mut blocks);
        } else {
            damage_one(rng, &mut blocks);
        }
    }
    let mut words = make::event_of(&blocks);
    if rng.chance(15) && !words.is_empty() {
        damage_event(rng, &mut words);
    }
    words
}

/// The event cut or filled with equal longwords to a size about the smallest or the largest.
pub fn resized(rng: &mut Rng, good: &[u32]) -> Vec<u32> {
    let size = rng.pick(&[0, 5, 6, 7, 1061, 1062, 1063, 1064, 2275]);
    let mut words = good.to_vec();
    words.resize(size, rng.number(32));
    words
}

/// Blocks lost, doubled, swapped, put in, added unfinished, or given another GEO throughout.
fn damage_blocks(rng: &mut Rng, blocks: &mut Vec<Block>) {
    if blocks.is_empty() {
        return;
    }
    let (one, other) = (rng.below(blocks.len()), rng.below(blocks.len()));
    match rng.below(7) {
        0 => drop(blocks.remove(one)),
        1 => blocks.insert(other, blocks[one].clone()),
        2 => blocks.swap(one, other),
        3 => blocks.insert(one, make::pattern_unit(rng)),
        4 => {
            let unit = rng.below(32) as u32;
            blocks.push(vec![tagged(unit, EMPTY_FLAG, 0)]);
        }
        5 => add_unfinished(rng, blocks),
        _ => {
            let unit = rng.pick(&[5, 6, first_geo(blocks, other)]);
            for word in &mut blocks[one] {
                *word = *word & 0x07ff_ffff | unit << 27;
            }
        }
    }
}

/// At the end a module of a GEO seen whose longwords are too few.
fn add_unfinished(rng: &mut Rng, blocks: &mut Vec<Block>) {
    let heads = blocks.iter().skip(2).filter_map(|block| block.first());
    let mut seen: Vec<u32> = heads.map(|&word| geo(word)).collect();
    seen.retain(|&unit| unit != SCALER_GEO && unit != PATTERN_GEO);
    if seen.is_empty() {
        seen.push(rng.pick(&make::module_geos()));
        blocks.push(vec![tagged(seen[0], EMPTY_FLAG, 0)]);
    }
    let (unit, count) = (rng.pick(&seen), rng.within(1, 32));
    let mut block = vec![tagged(unit, HEADER_FLAG, count as u32)];
    for channel in 0..rng.below(count.min(3) + 1) as u32 {
        block.push(tagged(unit, DATA_FLAG, channel << 16 | rng.number(16)));
    }
    blocks.push(block);
}

/// The GEO of a block's first longword.
fn first_geo(blocks: &[Block], index: usize) -> u32 {
    blocks[index].first().map_or(0, |&word| geo(word))
}

/// One block damaged, mostly one after the stamp.
fn damage_one(rng: &mut Rng, blocks: &mut [Block]) {
    if blocks.is_empty() {
        return;
    }
    let from = if rng.chance(85) { 1.min(blocks.len() - 1) } else { 0 };
    let index = rng.within(from, blocks.len() - 1);
    let block = &mut blocks[index];
    if block.is_empty() {
        return;
    }
    match rng.below(4) {
        0 => damage_count(rng, block),
        1 => damage_ends(rng, block),
        _ => damage_word(rng, block),
    }
    if rng.chance(60) && block.len() >= 3 && flag(block[0]) == HEADER_FLAG {
        block[0] = block[0] & 0xffff_ffc0 | (block.len() as u32 - 2 & 0x3f);
    }
}

/// Longwords lost, added or doubled; the count off by one or any.
fn damage_count(rng: &mut Rng, block: &mut Block) {
    let at = rng.below(block.len());
    match rng.below(6) {
        0 => drop(block.remove(at)),
        1 => block.insert(at, rng.next() as u32),
        2 => block.insert(at, block[at]),
        3 => block[0] = block[0].wrapping_add(1),
        4 => block[0] = block[0].wrapping_sub(1),
        _ => block[0] = block[0] & 0xffff_ffc0 | rng.pick(&[0, 1, 31, 32, 33, 63]),
    }
}

/// The header or the footer: flag, GEO, reserved bits.
fn damage_ends(rng: &mut Rng, block: &mut Block) {
    let last = block.len() - 1;
    let index = if rng.chance(50) { 0 } else { last };
    let word = block[index];
    block[index] = match rng.below(4) {
        0 => word & 0xf8ff_ffff | (rng.below(8) as u32) << 24,
        1 => word & 0x07ff_ffff | (rng.below(32) as u32) << 27,
        2 => word ^ 1 << rng.within(6, 23),
        _ => tagged(geo(word), rng.pick(&[HEADER_FLAG, FOOTER_FLAG, EMPTY_FLAG]), 0),
    };
}

/// One longword after the first, if there is one: bits, GEO, flag, channel, reserved bits, of which
/// bit 15, next to the datum, is as frequent as two others.
fn damage_word(rng: &mut Rng, block: &mut Block) {
    let one = rng.within(1.min(block.len() - 1), block.len() - 1);
    let other = rng.below(block.len());
    let word = block[one];
    match rng.below(9) {
        0 => block[one] ^= 1 << rng.below(32),
        1 | 6 | 7 => block[one] = word & 0xffe0_ffff | block[other] & 0x001f_0000,
        2 => block[one] = word ^ rng.pick(&[1 << 15, 1 << 15, 1 << 21, 1 << 22, 1 << 23]),
        3 => block[one] = word & 0x07ff_ffff | (rng.below(32) as u32) << 27,
        4 => block[one] = word & 0xf8ff_ffff | (rng.below(8) as u32) << 24,
        5 => block.swap(one, other),
        _ => block[one] = rng.number(32),
    }
}

/// The event as a run of longwords: losses, additions, truncation and padding.
fn damage_event(rng: &mut Rng, words: &mut Vec<u32>) {
    let at = rng.below(words.len());
    match rng.below(6) {
        0 => drop(words.remove(at)),
        1 => words.insert(at, rng.next() as u32),
        2 => words.truncate(at),
        3 => words.push(0),
        4 => words.resize(words.len() + rng.within(1, 40), 0),
        _ => words[at] = words[at].rotate_left(16),
    }
}
