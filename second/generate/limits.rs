//! Inputs of the listing at its limits: the most lines, the longest line, and a byte count at
//! which a program may well end one read and begin another.

use crate::dialects::DIALECTS;
use crate::lines::{line_of, most_words, LONGEST_LINE, MOST_LINES};

const READ_END: usize = 262_144;

/// Takes what an input is and the input itself.
pub type Judge<'a> = dyn FnMut(&str, Vec<u8>) -> Result<(), String> + 'a;

pub fn each(judge: &mut Judge) -> Result<(), String> {
    most_lines(judge)?;
    read_ends(judge)
}

/// Lines `S` up to the most or one less, then a line of some length, then more or nothing.
fn most_lines(judge: &mut Judge) -> Result<(), String> {
    let long = LONGEST_LINE + 1;
    let cases: [(usize, usize, &[u8]); 12] = [
        (MOST_LINES - 1, 0, b"\n"),
        (MOST_LINES - 1, 1, b""),
        (MOST_LINES - 1, long - 1, b""),
        (MOST_LINES - 1, long, b""),
        (MOST_LINES - 1, long, b"\n"),
        (MOST_LINES - 1, long, b"\nS\n"),
        (MOST_LINES, 0, b""),
        (MOST_LINES, 0, b"\n"),
        (MOST_LINES, 1, b""),
        (MOST_LINES, 1, b"\nS\n"),
        (MOST_LINES, long, b""),
        (MOST_LINES, long, b"\nS\n"),
    ];
    for (count, length, after) in cases {
        let shown = after.escape_ascii();
        let what = format!("{count} lines 'S', then {length} characters 'S', then '{shown}'");
        judge(&what, [&b"S\n".repeat(count), &vec![b'S'; length], after].concat())?;
    }
    Ok(())
}

/// Lines whose line feed is just before, at and after the read's end, and, for a good line, at
/// every place that lets the line straddle it. The line feed may be lacking.
pub fn read_ends(judge: &mut Judge) -> Result<(), String> {
    let dialect = DIALECTS[0];
    let good = line_of(dialect, &dialect.edges().smallest);
    let longest = line_of(dialect, &vec![0x5800; most_words(dialect)]);
    let too_long = vec![b'S'; LONGEST_LINE + 1];
    let after_good = [b"\n", &good[..], b"\nS 0001\n"].concat();
    for (line, straddled) in [(&good, good.len()), (&longest, 3), (&too_long, 3)] {
        for feed_at in READ_END - 3..=READ_END + straddled {
            for after in [&b""[..], b"\n", &after_good] {
                let (length, more) = (line.len(), after.len());
                let what = format!("a line of {length} bytes to byte {feed_at}, {more} after it");
                judge(&what, [&filling(feed_at - length), &line[..], after].concat())?;
            }
        }
    }
    Ok(())
}

/// Lines, line feeds included, of so many bytes together.
fn filling(bytes: usize) -> Vec<u8> {
    let mut text = vec![b'S'; bytes];
    for index in (LONGEST_LINE..bytes).step_by(LONGEST_LINE + 1) {
        text[index] = b'\n';
    }
    if let Some(last) = text.last_mut() {
        *last = b'\n';
    }
    text
}
