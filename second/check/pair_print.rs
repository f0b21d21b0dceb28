//! What compare_events prints, worked out by hand from 02, #104, and the readings of it.

use super::ensure;
use crate::base::Order;
use crate::lines::LONGEST_LINE;
use crate::pairs::print::Given;

/// The first line of 01's listing, and the same with its length and with its stamp changed.
const M: &str = "S 000e 5800 0005 0006 5803 1234 0000 0001 0000 0005 5804 0007 0000 0000";
const WRONG_LENGTH: &str =
    "S 000d 5800 0005 0006 5803 1234 0000 0001 0000 0005 5804 0007 0000 0000";
const OTHER_STAMP: &str = "S 000e 5800 0005 0006 5803 1234 0000 0002 0000 0005 5804 0007 0000 0000";
/// M with an opaque packet.
const LONGER: &str =
    "S 0011 5800 0005 0006 5803 1234 0000 0001 0000 0005 5804 0007 0000 0000 0003 5830 00ab";
/// Spoken case 10.
const CASE_10: &str = "F 00000200 00f717ff 01f738e1 02f70563 32000001 0000002a 34000000";
/// Region 15 alone, and behind an input register of 1: both sums are right.
const SUM_ALONE: &str = "R f001 0fff";
const REGISTER: &str = "R 2001 0001 f001 effd";

const GOOD_30: &str = "first  rows 00000004
second refused 0000001e place 00000000
cut words 00000000 tail 00000000 rows 00000000
";
const BOTH_30: &str = "first  refused 0000001e place 00000000
second refused 0000001e place 00000000
cut words 00000000 tail 00000000 rows 00000000
";

pub fn run() -> Result<(), String> {
    check_s()?;
    check_tails()?;
    check_refused()?;
    check_others()?;
    check_datum()?;
    check_30()?;
    check_lengths()
}

fn print_of(input: &str, order: Order) -> String {
    String::from_utf8_lossy(&Given::of(input.as_bytes()).print(order)).into_owned()
}

fn ensure_print(input: &str, print: &str) -> Result<(), String> {
    let came = print_of(input, Order::DEFAULT);
    ensure(came == print, &format!("the print of {input:?} is\n{print}and not\n{came}"))
}

/// M with itself and with another stamp, in both orders and by default.
fn check_s() -> Result<(), String> {
    let itself = "first  rows 00000004
second rows 00000004
end words 00000000 tail 00000000 rows 00000000
";
    ensure_print(&format!("{M}\n{M}\n"), itself)?;
    let stamps = |first: &str, second: &str| {
        format!(
            "first  rows 00000004
second rows 00000004
word 00000007 first 00000001 second 00000002
row 00000001 first  00000002 00000000 {first}
row 00000001 second 00000002 00000000 {second}
end words 00000001 tail 00000000 rows 00000001
"
        )
    };
    let input = format!("{M}\n{OTHER_STAMP}\n");
    let crossed = stamps("00000000 00011234", "00000000 00021234");
    let rising = stamps("00000001 00001234", "00000002 00001234");
    ensure(print_of(&input, Order::Crossed) == crossed, "the print of two stamps, crossed")?;
    ensure(print_of(&input, Order::Rising) == rising, "the print of two stamps, rising")?;
    ensure_print(&input, &rising)
}

/// A packet more in the second event, and in the first; no words at all.
fn check_tails() -> Result<(), String> {
    let second_longer = "first  rows 00000004
second rows 00000006
word 00000000 first 0000000e second 00000011
tail 0000000e second 00000003
tail 0000000f second 00005830
tail 00000010 second 000000ab
end words 00000001 tail 00000003 rows 00000000
";
    ensure_print(&format!("{M}\n{LONGER}\n"), second_longer)?;
    let first_longer = "first  rows 00000006
second rows 00000004
word 00000000 first 00000011 second 0000000e
tail 0000000e first 00000003
tail 0000000f first 00005830
tail 00000010 first 000000ab
end words 00000001 tail 00000003 rows 00000000
";
    ensure_print(&format!("{LONGER}\n{M}"), first_longer)?;
    let no_words = "first  refused 00000001 place 00000000
second refused 00000001 place 00000000
tail 00000000 second 0000000e
end words 00000000 tail 00000001 rows 00000000
";
    ensure_print("S\nS 000e", no_words)
}

/// Spoken cases 3 and 6: their words are compared, their rows are not.
fn check_refused() -> Result<(), String> {
    let case_3 = "first  refused 00000002 place 00000000
second rows 00000004
word 00000000 first 0000000d second 0000000e
word 00000007 first 00000001 second 00000002
end words 00000002 tail 00000000 rows 00000000
";
    ensure_print(&format!("{WRONG_LENGTH}\n{OTHER_STAMP}\n"), case_3)?;
    let case_6 = "first  rows 00000004
second refused 00000005 place 0000000e
word 00000000 first 0000000e second 0000000f
tail 0000000e second 00000000
end words 00000001 tail 00000001 rows 00000000
";
    ensure_print(&format!("{M}\n{} 0000\n", M.replacen("000e", "000f", 1)), case_6)
}

/// Spoken case 10 with 11 and with another scaler value; two events of R, of which each word and row
/// differs.
fn check_others() -> Result<(), String> {
    let case_11 = "first  rows 00000003
second rows 00000005
word 00000003 first 02f70563 second 02f70564
word 00000005 first 0000002a second 0000002b
tail 00000007 second 6a000001
tail 00000008 second 68040061
tail 00000009 second 6c000005
row 00000000 first  00000010 000017ff 000038e1 00000563
row 00000000 second 00000010 000017ff 000038e1 00000564
row 00000002 first  00000012 00000006 00000000 0000002a
row 00000002 second 00000012 00000006 00000000 0000002b
end words 00000002 tail 00000003 rows 00000002
";
    let changed = CASE_10.replace("0563", "0564").replace("2a", "2b");
    ensure_print(&format!("{CASE_10}\n{changed} 6a000001 68040061 6c000005\n"), case_11)?;
    let regions = "first  rows 00000002
second rows 00000004
word 00000000 first 0000f001 second 00002001
word 00000001 first 00000fff second 00000001
tail 00000002 second 0000f001
tail 00000003 second 0000effd
row 00000000 first  00000020 0000000f 00000001 00000000
row 00000000 second 00000020 00000002 00000001 00000000
row 00000001 first  00000021 00000000 00000000 00000fff
row 00000001 second 00000021 00000000 00000000 00000001
end words 00000002 tail 00000002 rows 00000002
";
    ensure_print(&format!("{SUM_ALONE}\n{REGISTER}\n"), regions)
}

/// Spoken case 11 with the thirteenth of 02, #106, whose bit 14 is of the datum; with bit 15 in its
/// place there are no rows.
fn check_datum() -> Result<(), String> {
    let module = |data: &str| format!("{CASE_10} 6a000001 {data} 6c000005\n");
    let case_13 = "first  rows 00000005
second rows 00000005
word 00000008 first 68040061 second 6804404b
row 00000004 first  00000016 0000000d 00000004 00000061
row 00000004 second 00000016 0000000d 00000004 0000404b
end words 00000001 tail 00000000 rows 00000001
";
    ensure_print(&[module("68040061"), module("6804404b")].concat(), case_13)?;
    let bit_15 = "first  rows 00000005
second refused 0000000a place 00000008
word 00000008 first 6804404b second 6804804b
end words 00000001 tail 00000000 rows 00000000
";
    ensure_print(&[module("6804404b"), module("6804804b")].concat(), bit_15)
}

/// Lines that are missing, empty, malformed or of another dialect than the first.
fn check_30() -> Result<(), String> {
    for second in ["", "\n", "\n\n", "\n\r\n", "\nS 000E\n", "\nS \n", "\nF\n", "\nR\n", "\nQ\n"] {
        ensure_print(&format!("{M}{second}"), GOOD_30)?;
    }
    ensure_print(&format!("{M}\n{CASE_10}\n"), GOOD_30)?;
    ensure_print(&format!("{M}\n\n{M}\n"), GOOD_30)?;
    for input in ["", "\n", "\n\n", "S \n", "Q\nF\n", "\nR f001 0fff", "F 0001\nS\n", "S0\nR\n"] {
        ensure_print(input, BOTH_30)?;
    }
    ensure_print(&format!("F\n{M}"), &one_refused_30("first  refused 00000001 place 00000000"))?;
    let second_good = |rows: &str| {
        format!(
            "first  refused 0000001e place 00000000
second rows {rows}
cut words 00000000 tail 00000000 rows 00000000
"
        )
    };
    for first in ["", "S \r", "Q", "s", " S", "S 1"] {
        ensure_print(&format!("{first}\n{M}\n"), &second_good("00000004"))?;
    }
    ensure_print(&format!("F 1\n{CASE_10}\n"), &second_good("00000003"))?;
    ensure_print(&format!("R 1\n{SUM_ALONE}"), &second_good("00000002"))?;
    ensure_print(&format!("{M}\n{M}\r\n"), GOOD_30)
}

fn one_refused_30(first: &str) -> String {
    GOOD_30.replacen("first  rows 00000004", first, 1)
}

/// The longest line, and one too long, before a good one and behind it; what follows two lines is
/// not looked at.
fn check_lengths() -> Result<(), String> {
    let longest = format!("S{}", " 0000".repeat(4096));
    ensure(longest.len() == LONGEST_LINE, "4,096 words are the longest line")?;
    let same = "first  refused 00000002 place 00000000
second refused 00000002 place 00000000
end words 00000000 tail 00000000 rows 00000000
";
    for behind in ["", "\n", "\n\n", "\nS 0001\n"] {
        ensure_print(&format!("{longest}\n{longest}{behind}"), same)?;
    }
    ensure_print(&format!("{M}\n{longest}0\n"), GOOD_30)?;
    ensure_print(&format!("{longest}0\n{M}\n"), BOTH_30)?;
    ensure_print(&format!("{longest} 0000\n{M}\n"), BOTH_30)?;
    for count in [40_963, 40_964, 40_965] {
        ensure_print(&"S".repeat(count), BOTH_30)?;
    }
    let second_30 = one_refused_30("first  refused 00000002 place 00000000");
    ensure_print(&format!("{longest}\n{longest}0"), &second_30)
}
