//! The line program, the second reader's, and a plain copy of the lines and the listing.

use crate::timing::{rounds, ROUNDS};
use second::dialects::DIALECTS;
use second::lines::line_of;
use second::rng::Rng;
use std::fs::File;
use std::io::{BufWriter, Write};
use std::process::{Command, Stdio};

const LINES: &str = "target/bench/lines.txt";
const LISTING: &str = "target/bench/listing.txt";
const PROVED: [&str; 1] = ["target/bin/list_events"];
const SECOND: [&str; 2] = ["target/second/second", "list"];
const COPY: [&str; 3] = ["cat", LINES, LISTING];

/// The lines of so many events, the dialects by turns, up to so many bytes; answers the lines and the bytes.
fn make_lines(most_lines: usize, most_bytes: usize) -> (usize, usize) {
    let mut rng = Rng::new(7);
    let mut file = BufWriter::new(File::create(LINES).expect("target/bench is there"));
    let (mut count, mut bytes) = (0, 0);
    while count < most_lines && bytes < most_bytes {
        let dialect = DIALECTS[count % DIALECTS.len()];
        let mut line = line_of(dialect, &dialect.mixed(&mut rng));
        line.push(b'\n');
        file.write_all(&line).expect("the lines are written");
        count += 1;
        bytes += line.len();
    }
    file.flush().expect("the lines are written");
    (count, bytes)
}

fn run(program: &[&str], output: Stdio) {
    let input = File::open(LINES).expect("the lines are there");
    let status = Command::new(program[0]).args(&program[1..]).stdin(input).stdout(output).status();
    assert!(status.expect("the program starts").success(), "{program:?}");
}

/// Runs a program and keeps its output.
fn output_of(program: &[&str]) -> Vec<u8> {
    run(program, File::create(LISTING).expect("target/bench is there").into());
    std::fs::read(LISTING).expect("the listing is there")
}

pub fn table_row(most_lines: usize, most_bytes: usize) {
    let (count, bytes) = make_lines(most_lines, most_bytes);
    let second = output_of(&SECOND);
    assert!(output_of(&PROVED) == second, "the listings are the same");
    let programs: [&[&str]; 3] = [&PROVED, &SECOND, &COPY];
    let measured = rounds(ROUNDS, 3, |which| run(programs[which], Stdio::null()));
    println!(
        "| {count} | {bytes} | {} | {:.1} | {:.2} | {:.2} | {:.2} |",
        second.len(),
        measured.of(0) / 1e6,
        measured.of(0) / bytes as f64,
        measured.ratio(0, 1),
        measured.ratio(0, 2)
    );
    for file in [LINES, LISTING] {
        std::fs::remove_file(file).expect("it is there");
    }
}
