//! Checks of the generators and of reading against writing on what they make.

use super::ensure;
use crate::base::{Order, Row};
use crate::dialects::{marks, Dialect, Marks, DIALECTS, OPAQUE_EVENT};
use crate::lines::line_of;
use crate::rng::Rng;

const EVENTS: usize = 30_000;
const SEED: u64 = 800;

pub fn run() -> Result<(), String> {
    let mut rng = Rng::new(SEED);
    let mut met = DIALECTS.map(|_| Marks::new());
    for _ in 0..EVENTS {
        for (dialect, met) in DIALECTS.iter().zip(&mut met) {
            let words = dialect.mixed(&mut rng);
            check_round_trip(dialect, &words, Order::Rising)?;
            let rows = check_round_trip(dialect, &words, Order::Crossed)?;
            check_mended(dialect, &words, &rows)?;
            met.extend(marks("words", [words.len() as u32]));
            (dialect.wanted.add_marks)(&words, &rows, met);
        }
    }
    for (dialect, met) in DIALECTS.iter().zip(met) {
        let sizes = [dialect.smallest_event, dialect.largest_event];
        let wanted = marks("words", sizes.map(|size| size as u32)).into_iter();
        for mark in wanted.chain((dialect.wanted.marks)()) {
            let message =
                format!("the generator of {} makes {} {}", dialect.letter, mark.0, mark.1);
            ensure(met.contains(&mark), &message)?;
        }
    }
    check_opaque(&mut rng)
}

/// Reading accepts, writing gives the words back, and reading these gives the rows again.
fn check_round_trip(dialect: &Dialect, words: &[u32], order: Order) -> Result<Vec<Row>, String> {
    let line = || String::from_utf8_lossy(&line_of(dialect, words)).into_owned();
    let show = |refusal| format!("{refusal:?} on {}", line());
    let mut room = vec![0; 4 * words.len()];
    let count = dialect.read(words, order, &mut room).map_err(show)?;
    let elements = &room[..4 * count as usize];
    let mut written = vec![0; words.len()];
    let count = dialect.write(elements, order, &mut written).map_err(show)?;
    let is_same = count as usize == words.len() && written == words;
    ensure(is_same, &format!("round trip of {}", line()))?;
    let rows = dialect.rows_of(&written, order).map_err(show)?;
    ensure(rows.concat() == elements, &format!("rows of {}", line()))?;
    Ok(rows)
}

/// There is nothing to mend in an acceptable event.
fn check_mended(dialect: &Dialect, words: &[u32], rows: &[Row]) -> Result<(), String> {
    let Some(mend) = &dialect.mend else { return Ok(()) };
    let (mut mended_words, mut mended_rows) = (words.to_vec(), rows.concat());
    (mend.words)(&mut mended_words);
    (mend.rows)(&mut mended_rows);
    let is_same = mended_words == words && mended_rows == rows.concat();
    let line = line_of(dialect, words);
    ensure(is_same, &format!("mending leaves {} as it is", String::from_utf8_lossy(&line)))
}

/// The events that are almost all opaque have the same size in each dialect that has them.
fn check_opaque(rng: &mut Rng) -> Result<(), String> {
    for dialect in DIALECTS {
        let Some(words) = dialect.opaque(rng) else { continue };
        check_round_trip(dialect, &words, Order::DEFAULT)?;
        let message = format!("the opaque events of {} have {OPAQUE_EVENT} words", dialect.letter);
        ensure(words.len() == OPAQUE_EVENT, &message)?;
    }
    Ok(())
}
