//! Data at either side of bit 14, at their largest and beyond it, with the answers of reading and
//! writing as worked out from 02, #106, and from 01's refusals: the datum is bits 14-0, and of bits 15
//! and 14 only bit 15 must be zero.

use super::edges::with;
use super::layout::{tagged, DATA_FLAG, FOOTER_FLAG, HEADER_FLAG};
use super::make::module_geos;
use crate::base::{Refusal, Row};
use crate::dialects::Answered;

/// The last datum without bit 14, the first with it, and the largest.
const ALLOWED: [u32; 3] = [16_383, 16_384, 32_767];
/// Bit 15 alone, with bit 14, and with all below it.
const BIT_15: [u32; 3] = [32_768, 0xc000, 0xffff];
/// Beyond the largest datum, within 16 bits and just beyond them.
const TOO_LARGE: [u32; 4] = [32_768, 0xc000, 0xffff, 0x1_0000];

/// Where the values of a module behind the smallest event begin: in its words, and in its rows.
const FIRST_WORD: usize = 8;
const FIRST_ROW: usize = 4;

/// The rows of the smallest event, spoken case 10.
pub const BEFORE: [Row; 3] = [[16, 0x17ff, 0x38e1, 0x0563], [17, 6, 1, 0], [18, 6, 0, 0x2a]];

/// A value of a module that has two more, in channels 4 and 5, one without bit 14 and one with it.
struct Tried {
    geo: u32,
    /// Among the three values of the module.
    index: usize,
    channel: u32,
    datum: u32,
}

impl Tried {
    fn words(&self) -> Vec<u32> {
        let data = |lower| tagged(self.geo, DATA_FLAG, lower);
        let mut values = vec![data(0x0004_0061), data(0x0005_404b)];
        values.insert(self.index, data(self.channel << 16 | self.datum));
        let [header, footer] = [(HEADER_FLAG, 3), (FOOTER_FLAG, 5)]
            .map(|(flag, lower)| vec![tagged(self.geo, flag, lower)]);
        with(&[header, values, footer])
    }

    fn rows(&self) -> Vec<Row> {
        let value = |channel, datum| [22, self.geo, channel, datum];
        let mut values = vec![value(4, 97), value(5, 16_459)];
        values.insert(self.index, value(self.channel, self.datum));
        [&BEFORE[..], &[[21, self.geo, 3, 5]], &values].concat()
    }
}

/// Each datum in the first and in the last channel of GEO 13, as the first and as the last value.
fn tried(data: &[u32]) -> Vec<Tried> {
    let mut all = Vec::new();
    for &datum in data {
        for channel in [0, 31] {
            all.extend([0, 2].map(|index| Tried { geo: 13, index, channel, datum }));
        }
    }
    all
}

/// Bit 15 alone as the first value, in each channel once, the GEOs by turns. (In channels 4 and 5 the
/// channel comes twice, too, at a later value.)
fn bit_15_everywhere() -> Vec<Tried> {
    let places = (0..32).zip(module_geos().into_iter().cycle());
    places.map(|(channel, geo)| Tried { geo, index: 0, channel, datum: 32_768 }).collect()
}

fn refusal(number: u32, place: usize) -> Refusal {
    Refusal { number, place: place as u32 }
}

pub fn answered() -> Vec<Answered<u32>> {
    let mut events = vec![thirteenth()];
    events.extend(tried(&ALLOWED).iter().map(|value| (Ok(value.rows()), value.words())));
    events.extend(tried(&BIT_15).iter().chain(&bit_15_everywhere()).map(|value| {
        let refusal = refusal(10, FIRST_WORD + value.index);
        (Err(refusal), value.words())
    }));
    events
}

/// Spoken case 13.
fn thirteenth() -> Answered<u32> {
    let rows = [&BEFORE[..], &[[21, 13, 1, 5], [22, 13, 4, 16_459]]].concat();
    (Ok(rows), with(&[vec![0x6a00_0001, 0x6804_404b, 0x6c00_0005]]))
}

/// Rows with the refusal of their writing.
pub fn writings() -> Vec<(Refusal, Vec<Row>)> {
    let refused = |value: &Tried| (refusal(22, FIRST_ROW + value.index), value.rows());
    tried(&TOO_LARGE).iter().chain(&bit_15_everywhere()).map(refused).collect()
}

/// The row elements of the accepted events and of the refused rows.
pub fn row_lists() -> Vec<Vec<u32>> {
    let accepted = answered().into_iter().filter_map(|(answer, _)| answer.ok());
    let refused = writings().into_iter().map(|(_, rows)| rows);
    accepted.chain(refused).map(|rows| rows.concat()).collect()
}
