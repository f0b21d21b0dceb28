//! Events that break two rules at once: which refusal comes first (01, "Order in F"). Bit 14 of a datum
//! beside one fault is no second one (02, #106).

use super::edges::{empty, module, stamp, with};
use super::layout::{PATTERN_FOOTER, PATTERN_HEADER};
use crate::base::Refusal;

pub fn events() -> Vec<(Refusal, Vec<u32>)> {
    let after_8 = |block: &[u32]| with(&[empty(8), block.to_vec()]);
    let events = [
        // A GEO seen and a block that does not fit, or whose data or footer is wrong.
        (11, 8, after_8(&[0x4200_0001])),
        (11, 8, after_8(&[0x4200_0001, 0x4000_0000])),
        (11, 8, after_8(&[0x4200_0020, 0x4800_0000, 0x4400_0000])),
        (11, 8, after_8(&[0x4200_0001, 0x4800_0000, 0x4400_0000])),
        (11, 8, after_8(&[0x4200_0001, 0x4000_0000, 0x4c00_0000])),
        (11, 10, with(&[module(8, 1), vec![0x4200_0001]])),
        // A GEO seen and not a header: count 0 or 33, reserved bits, a wrong flag.
        (6, 8, after_8(&[0x4200_0000])),
        (6, 8, after_8(&[0x4200_0021])),
        (6, 8, after_8(&[0x4200_0041])),
        (6, 8, after_8(&[0x4600_0001])),
        (6, 8, after_8(&[0x4400_0000])),
        // A block that does not fit, one longword of it wrong as well.
        (5, 7, with(&[vec![PATTERN_HEADER, 0x2900_0000]])),
        (5, 7, with(&[vec![PATTERN_HEADER, 0x2801_0000, PATTERN_FOOTER]])),
        (5, 7, with(&[vec![PATTERN_HEADER, 0x2800_ffff, 0x2800_0001]])),
        (5, 7, with(&[vec![0x4200_0002, 0x4800_0000, 0x4400_0000]])),
        (5, 7, with(&[vec![0x4200_0002, 0x4000_0000, 0x4000_0000]])),
        (5, 4, [stamp(), vec![0x3200_0002, 0, 0]].concat()),
        // Bit 15 of a datum with a GEO seen, in a block that does not fit, with a channel twice in
        // its longword and in one before or behind it, and with a wrong footer.
        (11, 8, after_8(&[0x4200_0001, 0x4000_8000, 0x4400_0000])),
        (5, 7, with(&[vec![0x4200_0002, 0x4000_8000, 0x4400_0000]])),
        (10, 9, with(&[vec![0x4200_0002, 0x4000_0000, 0x4000_8000, 0x4400_0000]])),
        (11, 9, with(&[vec![0x4200_0003, 0x4000_0000, 0x4000_0001, 0x4001_8000, 0x4400_0000]])),
        (10, 8, with(&[vec![0x4200_0003, 0x4001_8000, 0x4000_0000, 0x4000_0001, 0x4400_0000]])),
        (10, 8, with(&[vec![0x4200_0001, 0x4000_8000, 0x4401_0000]])),
        // Bit 14 is no fault (02, #106) beside a channel twice or a wrong footer.
        (11, 9, with(&[vec![0x4200_0002, 0x4000_0000, 0x4000_4000, 0x4400_0000]])),
        (9, 9, with(&[vec![0x4200_0001, 0x4000_4000, 0x4401_0000]])),
    ];
    events.map(|(number, place, words)| (Refusal { number, place }, words)).to_vec()
}
