//! Document 01's listing and the rules of the lines.

use super::ensure;
use crate::base::{Order, Refusal};
use crate::dialects::DIALECTS;
use crate::lines::{self, LONGEST_LINE, MOST_LINES};

/// 01's two lines, the last line feed lacking.
pub const LISTED: &str = "S 000e 5800 0005 0006 5803 1234 0000 0001 0000 0005 5804 0007 0000 0000
S 0001";

pub fn run() -> Result<(), String> {
    check_listing()?;
    check_ends()?;
    check_words()
}

/// 01's listing, with and without the last line feed: by default with the stamp row of 02, #105, and
/// in crossed order as 01 prints it.
fn check_listing() -> Result<(), String> {
    let stamps = [(Order::DEFAULT, "00000001 00001234"), (Order::Crossed, "00000000 00011234")];
    for (order, stamp) in stamps {
        let listing = format!(
            "event 00000001 rows 00000004
00000001 00005803 00000000 00000000
00000002 00000000 {stamp}
00000001 00005804 00000000 00000000
00000003 00000000 00000000 00000007
event 00000002 refused 00000001 place 00000000
end events 00000001 refused 00000001
"
        );
        for end in ["\n", ""] {
            let came = listing_of(format!("{LISTED}{end}").as_bytes(), order);
            ensure(came == listing, &format!("01's listing, {order:?}, the input's end {end:?}"))?;
        }
    }
    Ok(())
}

pub fn listing_of(input: &[u8], order: Order) -> String {
    let mut output = Vec::new();
    lines::list(input, order, &mut output, &mut |_, _| {});
    String::from_utf8_lossy(&output).into_owned()
}

/// The last line of the listing, for few lines, many lines and long lines.
fn check_ends() -> Result<(), String> {
    let last_line =
        |input: &[u8]| listing_of(input, Order::DEFAULT).lines().last().unwrap_or("").to_string();
    ensure(last_line(b"") == "end events 00000000 refused 00000000", "no lines")?;
    ensure(last_line(b"\n") == "end events 00000000 refused 00000001", "an empty line")?;
    ensure(last_line(b"S") == "end events 00000000 refused 00000001", "a letter alone")?;
    let longest = [vec![b'S'; LONGEST_LINE], b"\nS\n".to_vec()].concat();
    ensure(last_line(&longest) == "end events 00000000 refused 00000002", "the longest line")?;
    let too_long = [vec![b'S'; LONGEST_LINE + 1], b"\nS\n".to_vec()].concat();
    ensure(last_line(&too_long) == "cut events 00000000 refused 00000001", "a line too long")?;
    ensure(last_line(&too_long[..LONGEST_LINE + 1]).starts_with("cut"), "the last line too long")?;
    let most = b"S\n".repeat(MOST_LINES);
    ensure(last_line(&most) == "end events 00000000 refused 000f4240", "the most lines")?;
    let more = [most, b"\n".to_vec()].concat();
    ensure(last_line(&more) == "cut events 00000000 refused 000f4240", "one line more")
}

/// Each letter alone is a line of no words, each dialect's largest event has a line, and what is
/// not a line is refused by 30.
fn check_words() -> Result<(), String> {
    let is_30 = |line: &str| {
        let refusal = lines::words_of_line(line.as_bytes()).err();
        ensure(refusal == Some(Refusal { number: 30, place: 0 }), &format!("30 for {line:?}"))
    };
    for line in ["", "s", "S ", "S 000A", "S 0001 ", "S\t0001"] {
        is_30(line)?;
    }
    for dialect in DIALECTS {
        let letter = dialect.letter.to_string();
        let words = lines::words_of_line(letter.as_bytes());
        let is_empty =
            words.is_ok_and(|came| came.dialect.letter == dialect.letter && came.words.is_empty());
        ensure(is_empty, &format!("{letter} alone is a line of no words"))?;
        is_30(&format!("{letter} {}", "0".repeat(dialect.digits() - 1)))?;
        is_30(&format!("{letter} {}", "0".repeat(dialect.digits() + 1)))?;
        let largest = lines::line_of(dialect, &vec![0; dialect.largest_event]);
        ensure(
            largest.len() <= LONGEST_LINE,
            &format!("the largest event of {letter} has a line"),
        )?;
    }
    Ok(())
}
