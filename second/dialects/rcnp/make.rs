//! Acceptable events of dialect R, kept as regions so that damage can repair sizes.

use super::layout::{
    header, sum_of, CHECK_SUM, DRIFT_CHAMBER, INPUT_REGISTER, MODULE, OPAQUE, SCALER, SUM_HEADER,
};
use super::read::{LARGEST_EVENT, SMALLEST_EVENT};
use crate::dialects::OPAQUE_WORDS;
use crate::rng::Rng;

/// A region's words, its header first.
pub type Region = Vec<u16>;

pub fn region(id: u32, content: &[u16]) -> Region {
    let mut words = vec![header(id, content.len() as u32)];
    words.extend_from_slice(content);
    words
}

pub fn event_of(regions: &[Region]) -> Vec<u16> {
    regions.concat()
}

/// The regions with the one that holds the sum behind them.
pub fn summed(mut regions: Vec<Region>) -> Vec<Region> {
    let sum = regions.iter().fold(SUM_HEADER, |sum, words| sum.wrapping_add(sum_of(words)));
    regions.push(region(CHECK_SUM, &[sum.wrapping_neg()]));
    regions
}

/// The event of 2 words; there is only one.
pub fn smallest(_: &mut Rng) -> Vec<Region> {
    summed(vec![])
}

/// As in document 003's data block, but more of each: both registers, FERA, FERET, the drift
/// chambers' modules, MWPC, scalers.
pub fn large(rng: &mut Rng) -> Vec<Region> {
    let sizes = [
        (INPUT_REGISTER, 1),
        (OPAQUE[5], 17),
        (OPAQUE[5], 17),
        (OPAQUE[6], 17),
        (OPAQUE[6], 17),
        (INPUT_REGISTER, 1),
        (DRIFT_CHAMBER, 320),
        (OPAQUE[2], 60),
        (SCALER, 64),
    ];
    summed(sizes.iter().map(|&(id, size)| sized(rng, id, size)).collect())
}

/// All but 16 words are opaque; the others are of every other kind.
pub fn opaque(rng: &mut Rng) -> Vec<Region> {
    let sizes = [(INPUT_REGISTER, 1), (SCALER, 6), (DRIFT_CHAMBER, 3), (OPAQUE[0], OPAQUE_WORDS)];
    summed(sizes.iter().map(|&(id, size)| sized(rng, id, size)).collect())
}

/// A random event: most are small, about one in three hundred is filled up to a large size.
pub fn mixed(rng: &mut Rng) -> Vec<Region> {
    let mut regions = Vec::new();
    if rng.below(300) == 0 {
        fill_up(rng, &mut regions);
        return summed(regions);
    }
    for _ in 0..rng.pick(&[0, 1, 1, 1, 2, 2, 3, 4, 6]) {
        let id = any_id(rng);
        let again = rng.chance(15);
        regions.push(region_of(rng, id));
        if again {
            regions.push(region_of(rng, id));
        }
    }
    summed(regions)
}

/// An id before region 15; opaque ones, which refuse little, come less often.
fn any_id(rng: &mut Rng) -> u32 {
    match rng.below(10) {
        0 => INPUT_REGISTER,
        1..=3 => SCALER,
        4..=6 => DRIFT_CHAMBER,
        _ => rng.pick(&OPAQUE),
    }
}

/// Regions up to the largest event or a size near it, at times a single one.
fn fill_up(rng: &mut Rng, regions: &mut Vec<Region>) {
    let size = rng.pick(&[LARGEST_EVENT, LARGEST_EVENT, LARGEST_EVENT - 1, 1024, 2048]);
    let mut free = size - SMALLEST_EVENT;
    if rng.chance(40) {
        while free > 600 {
            let id = any_id(rng);
            let next = region_of(rng, id);
            free -= next.len();
            regions.push(next);
        }
    }
    let opaque = rng.pick(&OPAQUE);
    let id = rng.pick(&[SCALER, DRIFT_CHAMBER, opaque]);
    if id == SCALER && free % 2 == 0 {
        regions.push(region(opaque, &[]));
        free -= 1;
    }
    regions.push(sized(rng, id, free - 1));
}

/// A random acceptable region of an id.
fn region_of(rng: &mut Rng, id: u32) -> Region {
    let size = match id {
        INPUT_REGISTER => 1,
        SCALER => 2 * rng.count(0, 16),
        _ => rng.count(0, 40),
    };
    sized(rng, id, size)
}

/// A random acceptable region of an id and a size that it allows.
fn sized(rng: &mut Rng, id: u32, size: usize) -> Region {
    let content: Vec<u16> = match id {
        SCALER => {
            (0..size / 2).flat_map(|_| [rng.number(16) as u16, rng.number(8) as u16]).collect()
        }
        DRIFT_CHAMBER => (0..size).map(|index| module_word(rng, index == 0)).collect(),
        _ => (0..size).map(|_| rng.number(16) as u16).collect(),
    };
    region(id, &content)
}

/// A module header, as the first word of a region must be, or a data word.
fn module_word(rng: &mut Rng, is_first: bool) -> u16 {
    if is_first || rng.chance(25) {
        MODULE | (rng.number(3) << 11 | rng.number(3) << 8 | rng.number(8)) as u16
    } else {
        (rng.number(5) << 10 | rng.number(10)) as u16
    }
}
