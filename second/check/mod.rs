//! `check`: the spoken cases, the line rules, the host call, the comparison of two events, the page of
//! recent events, the stored inputs, the generators.

mod host;
mod lines;
mod made;
mod page;
mod page_calls;
mod page_print;
mod pair_print;
mod pairs;
mod stored;

use crate::base::{Order, Refusal, Row};
use crate::dialects::{Dialect, DIALECTS};
use crate::lines::words_of_line;

pub fn run() -> Result<(), String> {
    lines::run()?;
    for dialect in DIALECTS {
        (dialect.check_cases)()?;
    }
    check_answered()?;
    host::run()?;
    pairs::run()?;
    pair_print::run()?;
    page::run()?;
    page_calls::run()?;
    page_print::run()?;
    stored::run()?;
    made::run()?;
    println!("all checks hold");
    Ok(())
}

pub fn ensure(holds: bool, message: &str) -> Result<(), String> {
    if holds {
        Ok(())
    } else {
        Err(format!("check failed: {message}"))
    }
}

/// The rows of a line, or its refusal.
pub type Outcome = Result<Vec<Row>, Refusal>;

pub fn outcome(line: &str, order: Order) -> Outcome {
    words_of_line(line.as_bytes())?.rows(order)
}

/// Writing refuses these rows as the documents do.
pub fn ensure_refused(dialect: &Dialect, lists: Vec<(Refusal, Vec<Row>)>) -> Result<(), String> {
    let mut room = vec![0; dialect.largest_event];
    for (refusal, rows) in lists {
        let came = dialect.write(&rows.concat(), Order::Crossed, &mut room);
        ensure(came == Err(refusal), &format!("{refusal:?}, not {came:?}, for rows {rows:?}"))?;
    }
    Ok(())
}

/// Reading gives each answer that the documents give, and writing gives the words back.
fn check_answered() -> Result<(), String> {
    for dialect in DIALECTS {
        for (answer, words) in dialect.edges().answered {
            let came = dialect.rows_of(&words, Order::Crossed);
            ensure(came == answer, &format!("{answer:?}, not {came:?}, for {words:x?}"))?;
            let Ok(rows) = answer else { continue };
            let mut written = vec![0; words.len()];
            let count = dialect.write(&rows.concat(), Order::Crossed, &mut written);
            let is_same = count == Ok(words.len() as u32) && written == words;
            ensure(is_same, &format!("{count:?}, {written:x?}, not {words:x?}, for {rows:?}"))?;
        }
    }
    Ok(())
}
