//! Finding and showing the first difference between two outputs.

use super::child::Outcome;
use crate::lines::LONGEST_LINE;

/// How many lines of each output the report shows at most, from the event's first line on or from
/// half as many lines before the one that differs.
const MOST_SHOWN: usize = 200;
const KEPT_INPUT: &str = "target/second/difference.input";

fn split(output: &[u8]) -> Vec<&[u8]> {
    output.split_inclusive(|&byte| byte == b'\n').collect()
}

/// The index of the first line in which two outputs differ.
fn first_line(expected: &[u8], came: &[u8]) -> Option<usize> {
    let (expected, came) = (split(expected), split(came));
    let shorter = expected.len().min(came.len());
    let differing = (0..shorter).find(|&index| expected[index] != came[index]);
    differing.or(if expected.len() == came.len() { None } else { Some(shorter) })
}

/// Does an output line begin the answer to a line, a vector or a call?
fn begins_answer(line: &[u8]) -> bool {
    [&b"event "[..], b"accepted ", b"refused ", b"answer"].iter().any(|head| line.starts_with(head))
}

/// How many answers begin before an output line or at it.
fn answers_to(expected: &[u8], line: usize) -> usize {
    split(expected).iter().take(line + 1).filter(|line| begins_answer(line)).count()
}

/// The input line, counted from 0, that an output line of a listing belongs to, and its text.
pub fn line_of_output(input: &[u8], expected: &[u8], line: usize) -> (usize, String) {
    let index = answers_to(expected, line).saturating_sub(1);
    let text = split(input).get(index).map_or(String::new(), |text| {
        text[..text.len().min(LONGEST_LINE + 100)].escape_ascii().to_string()
    });
    (index, text)
}

/// The vector or the call, counted from 0, that an output line belongs to.
pub fn call_of_output(expected: &[u8], line: usize) -> usize {
    answers_to(expected, line).saturating_sub(1)
}

/// Both outputs from the beginning of the answer that differs.
fn around(expected: &[u8], came: &[u8], line: usize) -> String {
    let (expected, came) = (split(expected), split(came));
    let known = &expected[..expected.len().min(line + 1)];
    let start = known.iter().rposition(|line| begins_answer(line)).unwrap_or(0);
    let start = start.max(line.saturating_sub(MOST_SHOWN / 2));
    let show = |lines: &[&[u8]]| -> String {
        let mut text = String::new();
        for (index, shown) in lines.iter().enumerate().skip(start).take(MOST_SHOWN) {
            if index > line && (begins_answer(shown) || shown.starts_with(b"end")) {
                break;
            }
            let mark = if index == line { "> " } else { "  " };
            text += &format!("{mark}{}\n", String::from_utf8_lossy(shown).trim_end_matches('\n'));
        }
        text
    };
    let (expected, came) = (show(&expected), show(&came));
    format!("first differing output line: {}\nexpected:\n{expected}came:\n{came}", line + 1)
}

/// Keeps the whole input of the run beside the program, for running it again.
fn keep_input(input: &[u8]) -> String {
    match std::fs::write(KEPT_INPUT, input) {
        Ok(()) => format!("the whole input is in {KEPT_INPUT}"),
        Err(error) => format!("the whole input could not be kept in {KEPT_INPUT}: {error}"),
    }
}

/// Compares an outcome with what was expected; `describe` tells of the input of an output line.
pub fn judge(
    program: &str,
    input: &[u8],
    expected: &[u8],
    outcome: &Outcome,
    describe: impl Fn(usize) -> String,
) -> Result<(), String> {
    if outcome.output == expected && outcome.trouble.is_none() {
        return Ok(());
    }
    let kept = keep_input(input);
    let trouble = outcome.trouble.as_deref().unwrap_or("its output differs");
    let Some(line) = first_line(expected, &outcome.output) else {
        return Err(format!("{program}: {trouble}; its output is as expected\n{kept}"));
    };
    let around = around(expected, &outcome.output, line);
    Err(format!("{program}: {trouble}\n{}\n{around}\n{kept}", describe(line)))
}
