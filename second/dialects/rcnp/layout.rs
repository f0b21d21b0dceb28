//! Regions and row kinds of dialect R, by the names of source document 003 and 02, #101.

pub const INPUT_REGISTER: u32 = 2;
pub const SCALER: u32 = 6;
pub const DRIFT_CHAMBER: u32 = 7;
pub const CHECK_SUM: u32 = 15;
/// ADC, TDC, MWPC, ADC-LAS, TDC-LAS, FERA and FERET.
pub const OPAQUE: [u32; 7] = [3, 4, 10, 11, 12, 13, 14];
pub const REFUSED: [u32; 5] = [0, 1, 5, 8, 9];

/// The most words behind a header, by its 12 bits.
pub const LARGEST_SIZE: u32 = 0xfff;
pub const SUM_HEADER: u16 = 0xf001;

/// Bit 15 of a word of region 7: a module header; bit 14 of one must be zero.
pub const MODULE: u16 = 0x8000;
pub const DOUBLE_WORDS: u16 = 0x4000;

pub fn id_of(header: u16) -> u32 {
    u32::from(header >> 12)
}

pub fn size_of(header: u16) -> u32 {
    u32::from(header) & LARGEST_SIZE
}

pub fn header(id: u32, size: u32) -> u16 {
    (id << 12 | size & LARGEST_SIZE) as u16
}

/// May a region have this id?
pub fn id_allowed(id: u32) -> bool {
    id <= 15 && !REFUSED.contains(&id)
}

/// May a region of this id have this size?
pub fn size_allowed(id: u32, size: u32) -> bool {
    match id {
        INPUT_REGISTER | CHECK_SUM => size == 1,
        SCALER => size <= LARGEST_SIZE && size % 2 == 0,
        _ => size <= LARGEST_SIZE,
    }
}

/// The sum of words modulo 65,536, which is 0 for a whole event.
pub fn sum_of(words: &[u16]) -> u16 {
    words.iter().fold(0, |sum, &word| sum.wrapping_add(word))
}

pub mod kind {
    pub const REGION: u32 = 32;
    pub const WORD: u32 = 33;
    pub const SCALER: u32 = 34;
    pub const MODULE: u32 = 35;
    pub const TIME: u32 = 36;
}
