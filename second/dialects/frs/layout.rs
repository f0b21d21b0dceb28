//! Longwords and row kinds of dialect F, by the names of source document 004 and 01, "Rows".

pub const STAMP_HEAD: u32 = 0x0000_0200;
/// The upper halves of stamp longwords 1 to 3.
pub const STAMP_UPPER: [u32; 3] = [0x00f7, 0x01f7, 0x02f7];
pub const SCALER_GEO: u32 = 6;
pub const SCALER_FOOTER: u32 = 0x3400_0000;
pub const PATTERN_GEO: u32 = 5;
pub const PATTERN_HEADER: u32 = 0x2a00_0002;
pub const PATTERN_FOOTER: u32 = 0x2c00_0000;
/// The upper halves over the register and over the multiplicity.
pub const PATTERN_UPPER: [u32; 2] = [0x2800, 0x2801];
pub const DATA_FLAG: u32 = 0;
pub const HEADER_FLAG: u32 = 2;
pub const FOOTER_FLAG: u32 = 4;
pub const EMPTY_FLAG: u32 = 6;
/// The datum of a data longword is bits 14-0 (02, #106).
pub const LARGEST_DATUM: u32 = 0x7fff;

pub fn geo(word: u32) -> u32 {
    word >> 27
}

pub fn flag(word: u32) -> u32 {
    word >> 24 & 7
}

/// A longword with a GEO and a flag over its lower 24 bits.
pub fn tagged(geo: u32, flag: u32, lower: u32) -> u32 {
    geo << 27 | flag << 24 | lower
}

pub mod kind {
    pub const STAMP: u32 = 16;
    pub const SCALER_BLOCK: u32 = 17;
    pub const SCALER: u32 = 18;
    pub const PATTERN_UNIT: u32 = 19;
    pub const EMPTY_MODULE: u32 = 20;
    pub const MODULE: u32 = 21;
    pub const VALUE: u32 = 22;
}
