//! The proved calls that are timed, by C's calling convention. Each answers the count, or the place of a refusal.

extern "C" {
    fn bench_read(
        dialect: u32,
        words: *const u16,
        length: usize,
        longwords: *const u32,
        long_length: usize,
        rows: *mut u32,
        room: usize,
    ) -> usize;
    fn bench_write(
        dialect: u32,
        rows: *const u32,
        length: usize,
        words: *mut u16,
        room: usize,
        longwords: *mut u32,
        long_room: usize,
    ) -> usize;
    fn s800_check(bytes: *const u8, length: usize, order: u32) -> u64;
}

/// A word of an event, with the proved reading and writing of a dialect, by its number, that has such words.
pub trait Word: Copy + Default + PartialEq {
    fn read(dialect: u32, words: &[Self], rows: &mut [u32]) -> usize;
    fn write(dialect: u32, rows: &[u32], words: &mut [Self]) -> usize;
}

impl Word for u16 {
    fn read(dialect: u32, words: &[u16], rows: &mut [u32]) -> usize {
        read(dialect, words, &[], rows)
    }

    fn write(dialect: u32, rows: &[u32], words: &mut [u16]) -> usize {
        write(dialect, rows, words, &mut [])
    }
}

impl Word for u32 {
    fn read(dialect: u32, words: &[u32], rows: &mut [u32]) -> usize {
        read(dialect, &[], words, rows)
    }

    fn write(dialect: u32, rows: &[u32], words: &mut [u32]) -> usize {
        write(dialect, rows, &mut [], words)
    }
}

// Each call reads so many elements behind its pointers, and writes no more behind those that it may write: its contract.
// The buffer of the other width is empty.

fn read(dialect: u32, words: &[u16], longwords: &[u32], rows: &mut [u32]) -> usize {
    unsafe {
        bench_read(
            dialect,
            words.as_ptr(),
            words.len(),
            longwords.as_ptr(),
            longwords.len(),
            rows.as_mut_ptr(),
            rows.len(),
        )
    }
}

fn write(dialect: u32, rows: &[u32], words: &mut [u16], longwords: &mut [u32]) -> usize {
    unsafe {
        bench_write(
            dialect,
            rows.as_ptr(),
            rows.len(),
            words.as_mut_ptr(),
            words.len(),
            longwords.as_mut_ptr(),
            longwords.len(),
        )
    }
}

/// The host call in crossed order.
pub fn host(bytes: &[u8]) -> u64 {
    unsafe { s800_check(bytes.as_ptr(), bytes.len(), 0) }
}
