//! Tags, packet lengths and row kinds of dialect S, by the names of source document 000, of 01,
//! "Rows", and of 02, #103.

pub const EVENT: u16 = 0x5800;
pub const VERSION: u16 = 0x0005;
pub const TRIGGER: u16 = 0x5801;
pub const TIME_OF_FLIGHT: u16 = 0x5802;
pub const STAMP: u16 = 0x5803;
pub const EVENT_NUMBER: u16 = 0x5804;
pub const SCINTILLATOR: u16 = 0x5810;
pub const ION_CHAMBER: u16 = 0x5820;
pub const ION_CHAMBER_ENERGIES: u16 = 0x5821;
pub const CRDC: u16 = 0x5840;
pub const CRDC_RAW: u16 = 0x5841;
pub const CRDC_ANODE: u16 = 0x5845;
pub const PIN: u16 = 0x58a0;
pub const HODOSCOPE: u16 = 0x58b0;
pub const ADC: u16 = 0x58c0;
pub const OPAQUE: [u16; 6] = [0x5830, 0x5850, 0x5860, 0x5870, 0x5880, 0x5890];

/// The tags that may stand in the third packet and after it, any number of times.
pub const LATER: [u16; 14] = [
    TRIGGER,
    TIME_OF_FLIGHT,
    SCINTILLATOR,
    ION_CHAMBER,
    CRDC,
    PIN,
    HODOSCOPE,
    ADC,
    OPAQUE[0],
    OPAQUE[1],
    OPAQUE[2],
    OPAQUE[3],
    OPAQUE[4],
    OPAQUE[5],
];

/// First comes 0x5803, second 0x5804; neither comes again.
pub fn may_stand(tag: u32, packet_index: usize) -> bool {
    match packet_index {
        0 => tag == u32::from(STAMP),
        1 => tag == u32::from(EVENT_NUMBER),
        _ => LATER.iter().any(|&later| tag == u32::from(later)),
    }
}

/// The largest id of a tag whose packets have one; the smallest is 0.
pub fn largest_id(tag: u16) -> Option<u16> {
    match tag {
        CRDC => Some(1),
        HODOSCOPE => Some(2),
        ADC => Some(3),
        _ => None,
    }
}

/// The lengths of each tag; for a hodoscope those of any of its ids.
pub fn length_allowed(tag: u16, length: usize) -> bool {
    match tag {
        STAMP => length == 6,
        EVENT_NUMBER => length == 5,
        TRIGGER => (3..=7).contains(&length),
        TIME_OF_FLIGHT => (2..=10).contains(&length),
        SCINTILLATOR => (2..=14).contains(&length) && length % 2 == 0,
        ION_CHAMBER => (4..=20).contains(&length),
        CRDC => length >= 10,
        HODOSCOPE => (3..=19).contains(&length),
        PIN => length == 3,
        ADC => (3..=11).contains(&length),
        _ => length >= 2,
    }
}

pub mod kind {
    pub const PACKET: u32 = 1;
    pub const STAMP: u32 = 2;
    pub const EVENT_NUMBER: u32 = 3;
    pub const PATTERN: u32 = 4;
    pub const TIME: u32 = 5;
    pub const ENERGY: u32 = 6;
    pub const THRESHOLD: u32 = 7;
    pub const GROUP_HEAD: u32 = 8;
    pub const ANODE: u32 = 9;
    pub const HITS: u32 = 10;
    pub const OPAQUE: u32 = 11;
    pub const DATA_WORD: u32 = 12;
}
