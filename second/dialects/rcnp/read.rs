//! Reading of dialect R (02, #101).

use super::layout::{
    id_allowed, id_of, kind, size_allowed, size_of, sum_of, CHECK_SUM, DOUBLE_WORDS, DRIFT_CHAMBER,
    MODULE, SCALER,
};
use crate::base::{refuse, Order, Refusal, Row};

pub const SMALLEST_EVENT: usize = 2;
pub const LARGEST_EVENT: usize = 4096;

/// The rows of an event, or its refusal; every refusal but 12. R has no stamp order.
pub fn rows_of(words: &[u16], _: Order) -> Result<Vec<Row>, Refusal> {
    if words.len() < SMALLEST_EVENT || words.len() > LARGEST_EVENT {
        return refuse(1, 0);
    }
    let mut rows = Vec::new();
    let mut at = 0;
    let mut has_ended = false;
    while at < words.len() {
        let region = Region::open(words, at, has_ended)?;
        region.put_rows(&mut rows)?;
        at += 1 + region.content.len();
        has_ended = region.id == CHECK_SUM;
    }
    if !has_ended {
        return refuse(6, words.len());
    }
    if sum_of(words) != 0 {
        return refuse(13, words.len() - 1);
    }
    Ok(rows)
}

/// A region whose id and size are found good.
struct Region<'a> {
    id: u32,
    /// The words behind its header, and the place of the first of them.
    content: &'a [u16],
    at: usize,
}

impl<'a> Region<'a> {
    /// Refusals 6, 5, 7 at the header; after region 15 no word is one.
    fn open(event: &'a [u16], at: usize, has_ended: bool) -> Result<Region<'a>, Refusal> {
        let (id, size) = (id_of(event[at]), size_of(event[at]));
        let rest = &event[at + 1..];
        if has_ended || !id_allowed(id) {
            return refuse(6, at);
        }
        if size as usize > rest.len() {
            return refuse(5, at);
        }
        if !size_allowed(id, size) {
            return refuse(7, at);
        }
        Ok(Region { id, content: &rest[..size as usize], at: at + 1 })
    }

    fn put_rows(&self, rows: &mut Vec<Row>) -> Result<(), Refusal> {
        rows.push([kind::REGION, self.id, self.content.len() as u32, 0]);
        match self.id {
            SCALER => self.put_scalers(rows),
            DRIFT_CHAMBER => self.put_modules(rows),
            _ => {
                rows.extend(self.content.iter().map(|&word| [kind::WORD, 0, 0, u32::from(word)]));
                Ok(())
            }
        }
    }

    /// For each scaler the low 16 bits, then the upper 8 bits with zero above.
    fn put_scalers(&self, rows: &mut Vec<Row>) -> Result<(), Refusal> {
        for (index, pair) in self.content.chunks_exact(2).enumerate() {
            let (low, upper) = (u32::from(pair[0]), u32::from(pair[1]));
            if upper > 0xff {
                return refuse(10, self.at + 2 * index + 1);
            }
            rows.push([kind::SCALER, 0, index as u32, upper << 16 | low]);
        }
        Ok(())
    }

    /// Module headers and their data words, a header first.
    fn put_modules(&self, rows: &mut Vec<Row>) -> Result<(), Refusal> {
        for (index, &word) in self.content.iter().enumerate() {
            let number = u32::from(word);
            let is_header = word & MODULE != 0;
            if is_header && word & DOUBLE_WORDS != 0 || !is_header && index == 0 {
                return refuse(10, self.at + index);
            }
            rows.push(if is_header {
                [kind::MODULE, number & 0xff, number >> 11 & 7, number >> 8 & 7]
            } else {
                [kind::TIME, 0, number >> 10 & 0x1f, number & 0x3ff]
            });
        }
        Ok(())
    }
}
