//! The host call: 31 first, then an odd byte count, then the reading's answer.

use super::ensure;
use crate::host::{packed, HostCall, FUNCTIONS};

pub fn run() -> Result<(), String> {
    let smallest = (FUNCTIONS.edges)().smallest;
    let bytes: Vec<u8> = smallest.iter().flat_map(|word| word.to_le_bytes()).collect();
    let answer = |order, bytes: &[u8]| packed(HostCall { order, bytes: bytes.to_vec() }.answer());
    ensure(answer(0, &bytes) == 4 && answer(1, &bytes) == 4, "the host call of M")?;
    ensure(answer(2, &bytes[1..]) == 31 << 32, "31 before an odd byte count")?;
    ensure(answer(u32::MAX, &bytes) == 31 << 32, "order 2^32 - 1")?;
    ensure(answer(1, &bytes[1..]) == 1 << 32 && answer(0, &[]) == 1 << 32, "1 at 0")?;
    let mut case_4 = bytes;
    case_4[6] = 0x0b;
    ensure(answer(0, &case_4) == 7 << 32 | 3, "case 4 by the host call")
}
