//! What show_page prints, worked out by hand from 02, #107, and the readings of it.

use super::ensure;
use super::page::{M, PAD_146};
use crate::dialects::s800::DIALECT;
use crate::dialects::widened;
use crate::lines::{line_of, LONGEST_LINE, MOST_LINES};
use crate::page::print::Shown;

const AXIS: &str = "channel   0       8       10      18      20      28      30      38\n";

pub fn run() -> Result<(), String> {
    check_empty()?;
    check_two()?;
    check_heights()?;
    check_lines()?;
    check_leaving()?;
    check_cuts()
}

fn print_of(input: &[u8]) -> String {
    String::from_utf8_lossy(&Shown::of(input).print()).into_owned()
}

fn last_line(input: &[u8]) -> String {
    print_of(input).lines().last().unwrap_or("").to_string()
}

fn line(words: &[u16]) -> String {
    String::from_utf8_lossy(&line_of(&DIALECT, &widened(words))).into_owned() + "\n"
}

fn ensure_print(input: &str, print: &str) -> Result<(), String> {
    let came = print_of(input.as_bytes());
    ensure(came.len() == 5956, "a print has 5,956 characters")?;
    ensure(came == print, &format!("the print of {input:?} is\n{print}and not\n{came}"))
}

/// The rows of a picture from the highest: the least counts, and what is shown.
fn picture(connector: u32, rows: [(u32, &str); 8]) -> String {
    let row = |(least, shown): (u32, &str)| format!("{least:08x} |{shown:<64}|\n");
    let rows: String = rows.into_iter().map(row).collect();
    format!("connector {connector:08x}\n{rows}{AXIS}")
}

/// The lines of counts, all 0 but for some: their connector, channel and count.
fn counts(hits: &[(u32, u32, u32)]) -> String {
    let count = |connector, channel| {
        let is_there = |hit: &&(u32, u32, u32)| (hit.0, hit.1) == (connector, channel);
        hits.iter().find(is_there).map_or(0, |hit| hit.2)
    };
    let mut text = String::new();
    for connector in 0..4 {
        for channel in (0..64).step_by(8) {
            text += &format!("count {connector:08x} {channel:08x}");
            (channel..channel + 8).for_each(|c| text += &format!(" {:08x}", count(connector, c)));
            text += "\n";
        }
    }
    text
}

/// No event: every row shows counts from 1, and there are none.
fn check_empty() -> Result<(), String> {
    let pictures: String = (0..4).map(|connector| picture(connector, [(1, ""); 8])).collect();
    let head = "page events 00000000 hits 00000000 most 00000000\n";
    let end = "end added 00000000 refused 00000000 other 00000000\n";
    ensure_print("", &format!("{head}{pictures}{}{end}", counts(&[])))?;
    let head = "page events 00000001 hits 00000000 most 00000000\n";
    let end = "end added 00000001 refused 00000000 other 00000000\n";
    ensure_print(&line(&M), &format!("{head}{pictures}{}{end}", counts(&[])))
}

/// Pad 146 (connector 2, channel 18) twice, and once all four connectors of channel 63: the most is
/// 2, so the upper four rows show counts from 2 and the lower four counts from 1.
fn check_two() -> Result<(), String> {
    let samples = [0x8952, 0x092c, 0x803f, 0, 0x0400, 0x0800, 0x0c00];
    let crdc = [&[17, 0x5840, 0, 10, 0x5841, 0][..], &samples, &[4, 0x5845, 0, 0]].concat();
    let more = [&[31], &M[1..], &crdc].concat();
    let last = " ".repeat(63) + "#";
    let one = [(2, ""), (2, ""), (2, ""), (2, ""), (1, &last), (1, &last), (1, &last), (1, &last)];
    let twice = " ".repeat(18) + "#";
    let both = twice.clone() + &" ".repeat(44) + "#";
    let rows = [&twice, &twice, &twice, &twice, &both, &both, &both, &both];
    let two = [2, 2, 2, 2, 1, 1, 1, 1].map(|least| (least, ""));
    let two = std::array::from_fn(|row| (two[row].0, rows[row].as_str()));
    let pictures = [picture(0, one), picture(1, one), picture(2, two), picture(3, one)].concat();
    let hits = [(0, 63, 1), (1, 63, 1), (2, 18, 2), (2, 63, 1), (3, 63, 1)];
    let head = "page events 00000002 hits 00000006 most 00000002\n";
    let end = "end added 00000002 refused 00000000 other 00000000\n";
    let print = format!("{head}{pictures}{}{end}", counts(&hits));
    ensure_print(&(line(&PAD_146) + &line(&more)), &print)
}

/// The least counts of the rows for the most of 5, 8 and 20 hits, and how many rows pad 146 has.
fn check_heights() -> Result<(), String> {
    let leasts = [
        (5, [5, 4, 4, 3, 2, 2, 1, 1]),
        (8, [8, 7, 6, 5, 4, 3, 2, 1]),
        (20, [18, 16, 13, 11, 8, 6, 3, 1]),
    ];
    for (events, leasts) in leasts {
        let print = print_of(line(&PAD_146).repeat(events).as_bytes());
        let column = " ".repeat(18) + "#" + &" ".repeat(45);
        let rows = leasts.map(|least| format!("{least:08x} |{column}|\n")).concat();
        let picture = format!("connector 00000002\n{rows}{AXIS}connector 00000003\n");
        ensure(print.contains(&picture), &format!("the rows of {events} hits:\n{print}"))?;
    }
    Ok(())
}

/// Lines that are passed over, refused and added; the last line feed may lack.
fn check_lines() -> Result<(), String> {
    let m = line(&M);
    let cases = [
        ("F\nR\nFR 0001\nF 00\nR \u{e9}\n", "end added 00000000 refused 00000000 other 00000005"),
        ("\n\n", "end added 00000000 refused 00000002 other 00000000"),
        ("f\nr\nW\n F\n\r\nS\nS 0001", "end added 00000000 refused 00000007 other 00000000"),
        (&m, "end added 00000001 refused 00000000 other 00000000"),
        (m.trim_end(), "end added 00000001 refused 00000000 other 00000000"),
        (&m.replace('\n', "\r\n"), "end added 00000000 refused 00000001 other 00000000"),
        (&(m.clone() + "F\n" + &m), "end added 00000002 refused 00000000 other 00000001"),
    ];
    for (input, end) in cases {
        let came = last_line(input.as_bytes());
        ensure(came == end, &format!("the last line of {input:?}: {end}, not {came}"))?;
    }
    Ok(())
}

/// With more than 64 events the oldest leave, refused lines and others do not count for that; an
/// event of 1,025 words is refused.
fn check_leaving() -> Result<(), String> {
    let (m, pad) = (line(&M), line(&PAD_146));
    let opaque = [vec![1025 - 14, 0x5830], vec![0; 1025 - 16]].concat();
    let too_long = line(&[&[1025], &M[1..], &opaque].concat());
    let input = [pad.repeat(3), m.repeat(30), too_long, "F\n".into(), m.repeat(33)].concat();
    let print = print_of(input.as_bytes());
    ensure(print.starts_with("page events 00000040 hits 00000001 most 00000001\n"), &print)?;
    ensure(print.ends_with("end added 00000042 refused 00000001 other 00000001\n"), &print)?;
    let print = print_of((input + &m).as_bytes());
    ensure(print.starts_with("page events 00000040 hits 00000000 most 00000000\n"), &print)
}

/// A line too long, whatever its letter, and a character behind the most lines.
fn check_cuts() -> Result<(), String> {
    let m = line(&M).into_bytes();
    for letter in [b'S', b'F', b'R', b' '] {
        let long = vec![letter; LONGEST_LINE + 1];
        let cut = "cut added 00000001 refused 00000001 other 00000000";
        for behind in [&b""[..], b"\n", &[b"\n", &m[..]].concat()] {
            let input = [&m[..], &long, behind].concat();
            ensure(last_line(&input) == cut, &format!("a line too long, letter {letter}"))?;
        }
        let end = match letter {
            b'F' | b'R' => "end added 00000002 refused 00000000 other 00000001",
            _ => "end added 00000002 refused 00000001 other 00000000",
        };
        let input = [&m[..], &long[1..], b"\n", &m].concat();
        ensure(last_line(&input) == end, &format!("the longest line, letter {letter}"))?;
    }
    let most = b"F\n".repeat(MOST_LINES);
    let end = "end added 00000000 refused 00000000 other 000f4240";
    ensure(last_line(&most) == end, "the most lines")?;
    for behind in [b"\n".to_vec(), b"S".to_vec(), m, vec![b'S'; LONGEST_LINE + 1]] {
        let cut = "cut added 00000000 refused 00000000 other 000f4240";
        ensure(last_line(&[&most[..], &behind].concat()) == cut, "more behind the most lines")?;
    }
    Ok(())
}
