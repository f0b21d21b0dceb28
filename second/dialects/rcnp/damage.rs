//! Damage to the words of dialect R. Sizes are often repaired afterwards; the sum is left to the
//! mending.

use super::layout::{
    header, id_of, size_of, CHECK_SUM, DRIFT_CHAMBER, MODULE, OPAQUE, REFUSED, SCALER, SUM_HEADER,
};
use super::make::{self, Region};
use crate::rng::Rng;

/// The words of an event of these regions, damaged in one to three ways.
pub fn damaged(rng: &mut Rng, mut regions: Vec<Region>) -> Vec<u16> {
    for _ in 0..rng.pick(&[1, 1, 1, 1, 2, 3]) {
        if rng.chance(30) {
            damage_regions(rng, &mut regions);
        } else {
            damage_one(rng, &mut regions);
        }
    }
    let mut words = make::event_of(&regions);
    if rng.chance(15) && !words.is_empty() {
        damage_event(rng, &mut words);
    }
    words
}

/// The event cut, or filled with an opaque region before the sum, to a size about the smallest or
/// the largest.
pub fn resized(rng: &mut Rng, good: &[u16]) -> Vec<u16> {
    let size = rng.pick(&[0, 1, 2, 3, 4094, 4095, 4096, 4097, 4098, 9000]);
    let (before, sum) = good.split_at(good.len() - 2);
    let mut words = before.to_vec();
    if size > good.len() {
        let filling = vec![rng.number(16) as u16; (size - good.len() - 1).min(4095)];
        words.extend(make::region(rng.pick(&OPAQUE), &filling));
    }
    words.extend_from_slice(sum);
    words.resize(size, 0);
    words
}

/// Regions lost, doubled, swapped, put in, added behind the sum, or the sum's lost.
fn damage_regions(rng: &mut Rng, regions: &mut Vec<Region>) {
    if regions.is_empty() {
        return;
    }
    let (one, other) = (rng.below(regions.len()), rng.below(regions.len()));
    match rng.below(8) {
        0 => drop(regions.remove(one)),
        1 => regions.insert(other, regions[one].clone()),
        2 => regions.swap(one, other),
        3 => regions.insert(one, any_region(rng)),
        4 => regions.push(any_region(rng)),
        5 => regions.insert(one, make::region(rng.pick(&REFUSED), &[])),
        6 => regions.push(make::region(CHECK_SUM, &[rng.number(16) as u16])),
        _ => drop(regions.pop()),
    }
}

/// A region of any id, refused or not, and a few words of any kind.
fn any_region(rng: &mut Rng) -> Region {
    let content: Vec<u16> = (0..rng.below(6)).map(|_| rng.number(16) as u16).collect();
    make::region(rng.below(16) as u32, &content)
}

/// One region damaged, its size often repaired.
fn damage_one(rng: &mut Rng, regions: &mut [Region]) {
    if regions.is_empty() {
        return;
    }
    let index = rng.below(regions.len());
    let region = &mut regions[index];
    if region.is_empty() {
        return;
    }
    match rng.below(5) {
        0 => damage_header(rng, region),
        1 => damage_count(rng, region),
        _ => damage_word(rng, region),
    }
    if rng.chance(70) && !region.is_empty() {
        region[0] = header(id_of(region[0]), region.len() as u32 - 1);
    }
}

/// The id, or the size: off by one, or at a limit.
fn damage_header(rng: &mut Rng, region: &mut Region) {
    let (id, size) = (id_of(region[0]), size_of(region[0]));
    region[0] = match rng.below(5) {
        0 | 1 => header(rng.below(16) as u32, size),
        2 => header(id, size.wrapping_add(1)),
        3 => header(id, size.wrapping_sub(1)),
        _ => header(id, rng.pick(&[0, 1, 2, 3, 4, 0x7ff, 0x800, 0xffe, 0xfff])),
    };
}

/// Words lost, added or doubled.
fn damage_count(rng: &mut Rng, region: &mut Region) {
    let at = rng.below(region.len());
    match rng.below(5) {
        0 => drop(region.remove(at)),
        1 => region.insert(at, rng.number(16) as u16),
        2 => region.insert(at, region[at]),
        3 => region.push(rng.number(16) as u16),
        _ => region.truncate(at + 1),
    }
}

/// One word behind the header: bits that its layout wants zero or set, any bit, any word.
fn damage_word(rng: &mut Rng, region: &mut Region) {
    let id = id_of(region[0]);
    if region.len() < 2 {
        return;
    }
    let one = rng.within(1, region.len() - 1);
    let other = rng.within(1, region.len() - 1);
    match (rng.below(8), id) {
        (0..=1, SCALER) => region[one] |= 1 << rng.within(8, 15),
        (0, DRIFT_CHAMBER) => region[one] |= 0xc000,
        (1, DRIFT_CHAMBER) => region[1] &= !MODULE,
        (2, DRIFT_CHAMBER) => region[one] ^= MODULE,
        (3, _) => region.swap(one, other),
        (4, _) => region[one] = region[one].wrapping_add(rng.pick(&[1, 0xffff, 0x100, 0x8000])),
        (5, _) => region[one] = rng.number(16) as u16,
        _ => region[one] ^= 1 << rng.below(16),
    }
}

/// The event as a run of words: flips, losses, additions, truncation and padding.
fn damage_event(rng: &mut Rng, words: &mut Vec<u16>) {
    let at = rng.below(words.len());
    match rng.below(7) {
        0 => words[at] ^= 1 << rng.below(16),
        1 => drop(words.remove(at)),
        2 => words.insert(at, rng.next() as u16),
        3 => words.truncate(at),
        4 => words.push(rng.number(16) as u16),
        5 => words.resize(words.len() + rng.within(1, 20), 0),
        _ => words.extend([SUM_HEADER, 0]),
    }
}
