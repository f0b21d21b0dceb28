//! The groups of packet 0x5840 (02, #103; source document 001, "Samples sub-packets"): a head, then
//! one to four data words with rising connectors.

use super::tags::kind;
use crate::base::Row;

/// Among the groups a word with bit 15 is a head, any other one a data word.
pub const HEAD: u16 = 0x8000;

pub fn is_head(word: u16) -> bool {
    word & HEAD != 0
}

/// The pad of a channel from 0 to 63 and a connector from 0 to 3.
pub fn pad(channel: u32, connector: u32) -> u32 {
    channel + 64 * connector
}

/// What the last head said, and the lowest connector that may follow.
struct Group {
    sample: u32,
    channel: u32,
    next_connector: u32,
}

/// Puts the rows of the words from the threshold to the end of the inner packet; else gives the
/// index of the first of these words that breaks the layout. No word is looked at beyond them: the
/// anode's length word is not a data word.
pub fn put_rows(words: &[u16], rows: &mut Vec<Row>) -> Result<(), usize> {
    let mut group = None;
    for (index, &word) in words.iter().enumerate() {
        let number = u32::from(word);
        if is_head(word) {
            if words.get(index + 1).is_none_or(|&next| is_head(next)) {
                return Err(index);
            }
            let (sample, channel) = (number >> 6 & 0x1ff, number & 0x3f);
            rows.push([kind::GROUP_HEAD, sample, channel, 0]);
            group = Some(Group { sample, channel, next_connector: 0 });
            continue;
        }
        let Some(Group { sample, channel, next_connector }) = &mut group else {
            return Err(index);
        };
        let connector = number >> 10 & 3;
        if number & 0x7000 != 0 || connector < *next_connector {
            return Err(index);
        }
        *next_connector = connector + 1;
        rows.push([kind::DATA_WORD, *sample, pad(*channel, connector), number & 0x3ff]);
    }
    Ok(())
}
