//! The first subevent of source document 004's listing (its GOOREAD print): all its data have bit 14
//! set (02, #106).

use super::datum_edges::BEFORE;
use super::edges::stamp;
use crate::base::{Refusal, Row};
use crate::dialects::Answered;

/// "Original data, 76 values", two for each longword, the lower half first.
const ORIGINAL: [i16; 76] = [
    14, 12800, 1397, 11926, -15265, 204, 1160, 0, 28466, 277, 12978, 157, -27118, 1, 11310, 161,
    -24266, 158, -11629, 42, -27743, 42, 641, 548, 2239, 1634, -21979, 36, 0, 0, 0, 13312, 0,
    17920, 7, 27136, 16459, 26624, 16493, 26625, 16486, 26626, 16502, 26627, 16481, 26628, 16481,
    26629, 16497, 26630, -30676, 27850, 10, 23040, 16442, 22528, 16471, 22529, 16514, 22530, 16457,
    22531, 16563, 22532, 16497, 22533, 16448, 22534, 16456, 22535, 16613, 22536, 16484, 22537,
    -16289, 23756,
];

/// "Scaler 1 data 1397 11926" and so on.
const SCALERS: [i16; 28] = [
    1397, 11926, -15265, 204, 1160, 0, 28466, 277, 12978, 157, -27118, 1, 11310, 161, -24266, 158,
    -11629, 42, -27743, 42, 641, 548, 2239, 1634, -21979, 36, 0, 0,
];
/// "ADC Data of GEO 13, Channel 0 = 16459" and so on, then those of GEO 11.
const GEO_13: [u32; 7] = [16459, 16493, 16486, 16502, 16481, 16481, 16497];
const GEO_11: [u32; 10] = [16442, 16471, 16514, 16457, 16563, 16497, 16448, 16456, 16613, 16484];

/// The places of the two footers behind the stamp.
const FOOTERS: [usize; 2] = [29, 41];

/// The listing behind the stamp of document 004's Note 2. Its footers have bits in 23-16, where 01
/// wants zeros: as printed it is refused, and without these bits accepted.
pub fn answered() -> Vec<Answered<u32>> {
    let printed = [stamp(), longwords(&ORIGINAL)].concat();
    let mut cleared = printed.clone();
    FOOTERS.iter().for_each(|&place| cleared[place] &= 0xff00_ffff);
    let refusal = Refusal { number: 9, place: FOOTERS[0] as u32 };
    vec![(Err(refusal), printed), (Ok(rows()), cleared)]
}

fn longwords(halves: &[i16]) -> Vec<u32> {
    let joined = |pair: &[i16]| u32::from(pair[1] as u16) << 16 | u32::from(pair[0] as u16);
    halves.chunks(2).map(joined).collect()
}

fn rows() -> Vec<Row> {
    let mut rows = vec![BEFORE[0], [17, 6, 14, 0]];
    rows.extend((0..).zip(longwords(&SCALERS)).map(|(index, value)| [18, 6, index, value]));
    rows.extend([[20, 8, 0, 0], [21, 13, 7, 0x882c]]);
    rows.extend((0..).zip(GEO_13).map(|(channel, datum)| [22, 13, channel, datum]));
    rows.push([21, 11, 10, 0xc05f]);
    rows.extend((0..).zip(GEO_11).map(|(channel, datum)| [22, 11, channel, datum]));
    rows
}
