//! Times the proved readers and writers, the host call and the line program, the second reader's, and a plain copy of the same words and rows, in one run.
//! What it prints is the tables of docs/PERFORMANCE.md.

mod calls;
mod events;
mod host_call;
mod library;
mod line_program;
mod timing;

use calls::Word;
use events::{Events, MakeUp, MAKE_UPS};
use library::Comparison;
use second::dialects::{Dialect, Functions, Native, DIALECTS};
use second::host;

/// Bytes of words that fit the second level cache with their rows, and 100 MB of them.
const CACHED: usize = 64 << 10;
const LARGE: usize = 100_000_000;
const CACHED_TIMES: usize = 100;
const MANY: usize = 1_000_000;

fn main() {
    library_tables();
    growth_tables();
    host_table();
    line_tables();
}

fn library_tables() {
    println!("\n## Reading and writing\n");
    println!("| set | events | words | rows | check | fill | read | write | copy | check/second | read/second | write/second | read/copy | write/copy |");
    println!("|---|---|---|---|---|---|---|---|---|---|---|---|---|---|");
    for (bytes, times) in [(CACHED, CACHED_TIMES), (LARGE, 1)] {
        for dialect in DIALECTS {
            match dialect.native {
                Native::Bits16(functions) => library_rows(dialect, functions, bytes, times),
                Native::Bits32(functions) => library_rows(dialect, functions, bytes, times),
            }
        }
    }
}

fn library_rows<W: Word>(
    dialect: &'static Dialect,
    functions: &'static Functions<W>,
    bytes: usize,
    times: usize,
) {
    for make_up in MAKE_UPS {
        let most_words = bytes / size_of::<W>();
        let Some(events) = Events::made(functions, make_up, usize::MAX, most_words) else {
            continue;
        };
        let comparison = Comparison::new(dialect, functions);
        comparison.agree(&events);
        let name = format!("{} {make_up:?}, {}", dialect.letter, size(bytes));
        comparison.table_row(&name, &events, times);
    }
}

fn size(bytes: usize) -> &'static str {
    if bytes == CACHED {
        "64 KiB"
    } else {
        "100 MB"
    }
}

fn growth_tables() {
    println!("\n## Growth: one pass over so many mixed events\n");
    println!("| dialect | events | check | fill | read | write | copy | check/second | read/second | write/second | read/copy | write/copy |");
    println!("|---|---|---|---|---|---|---|---|---|---|---|---|");
    for dialect in DIALECTS {
        match dialect.native {
            Native::Bits16(functions) => growth_rows(dialect, functions),
            Native::Bits32(functions) => growth_rows(dialect, functions),
        }
    }
}

fn growth_rows<W: Word>(dialect: &'static Dialect, functions: &'static Functions<W>) {
    let events = Events::made(functions, MakeUp::Mixed, MANY, usize::MAX);
    let events = events.expect("every dialect has mixed events");
    for count in [1_000, 10_000, 100_000, MANY] {
        Comparison::new(dialect, functions).growth_row(&dialect.letter.to_string(), &events, count);
    }
}

fn host_table() {
    println!("\n## The host call\n");
    println!("| set | events | ns a call | ns a word | host/second |");
    println!("|---|---|---|---|---|");
    for make_up in MAKE_UPS {
        let most_words = CACHED / size_of::<u16>();
        let Some(events) = Events::made(&host::FUNCTIONS, make_up, usize::MAX, most_words) else {
            continue;
        };
        let name = format!("{} {make_up:?}, 64 KiB", host::DIALECT.letter);
        host_call::table_row(&name, &events, CACHED_TIMES);
    }
}

fn line_tables() {
    println!("\n## The line program\n");
    println!("| lines | bytes | bytes listed | ms | ns a byte | program/second | program/copy |");
    println!("|---|---|---|---|---|---|---|");
    line_program::table_row(usize::MAX, LARGE);
    for count in [1_000, 10_000, 100_000, MANY] {
        line_program::table_row(count, usize::MAX);
    }
}
