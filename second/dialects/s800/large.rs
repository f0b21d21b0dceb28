//! Stored calls of dialect S that read or write about 14 and about 4,096 words.

use super::tags::{self, kind};
use super::{edges, make, read, DIALECT};
use crate::base::{Order, Row};
use crate::dialects::widened;
use crate::vectors::Vector;

pub fn readings() -> Vec<Vector> {
    let mut vectors = Vec::new();
    let opaque = |length: usize| make::packet(tags::OPAQUE[5], &vec![0; length - 2]);
    let filled = |length: usize| edges::with(&[opaque(length)]);
    for words in [edges::smallest(), filled(4082), filled(4083), filled(4081)] {
        for order in [Order::Crossed, Order::Rising] {
            let needed = 4 * read::rows_of(&words, order).map_or(8, |rows| rows.len());
            for room in [needed - 4, needed - 1, needed, needed + 3, needed + 4, 0] {
                vectors.push(Vector::reading(&DIALECT, order, room, widened(&words)));
            }
        }
    }
    // 4,096 words with 4,079 rows. Each line of the vector's text holds one group of four words, so
    // that it is short.
    let groups = edges::crdc(0, &[0x8952, 0x012c, 0x052c, 0x092c].repeat(1018));
    for (order, room) in [(Order::Crossed, 4 * 4079), (Order::Rising, 4 * 4079 - 1)] {
        let words = widened(&edges::with(&[groups.clone()]));
        vectors.push(Vector::reading(&DIALECT, order, room, words));
    }
    vectors
}

pub fn writings() -> Vec<Vector> {
    let mut vectors = Vec::new();
    let rows = read::rows_of(&edges::smallest(), Order::Crossed).expect("acceptable");
    let head: Row = [kind::PACKET, u32::from(tags::OPAQUE[0]), 0, 0];
    for words in [14, 16, 4095, 4096, 4097, 4098, 4198] {
        let opaque = if words > 14 { words - 16 } else { 0 };
        let mut elements = rows.concat();
        elements.extend_from_slice(if words > 14 { &head } else { &[] });
        elements.extend([kind::OPAQUE, 0, 0, 0xffff].repeat(opaque));
        for room in [0, words - 1, words, words + 1, 4096, 16_800] {
            let order = if room % 2 == 0 { Order::Crossed } else { Order::Rising };
            vectors.push(Vector::writing(&DIALECT, order, room, elements.clone()));
        }
        elements.extend([kind::TIME, 0, 4, 0]);
        vectors.push(Vector::writing(&DIALECT, Order::Crossed, words, elements));
    }
    vectors
}
