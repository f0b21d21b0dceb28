//! `stored lines` and `stored vectors`: the stored inputs of the line programs and of run_vectors, made
//! with a fixed seed. `stored pads`: what list_pads prints, which has no input. `stored pair`: the input
//! of compare_events. `stored page`: that of show_page.

use crate::base::Order;
use crate::dialects::s800::{self, make};
use crate::dialects::{widened, Dialect, Words, DIALECTS};
use crate::generate::{cases, damage_line, line_edges, page_shape, probes};
use crate::lines::{line_of, push_numbers, LONGEST_LINE};
use crate::rng::Rng;
use crate::vectors::Vector;

const SEED: u64 = 5803;
const RANDOM_LINES: usize = 600;
/// Where the edges of all dialects have more bytes, some lines, or writings of changed rows, are
/// left out.
const LINE_EDGE_BYTES: usize = 600_000;
const VECTOR_EDGE_BYTES: usize = 930_000;
/// Random vectors follow the edges up to so many bytes.
const VECTOR_BYTES: usize = 990_000;

/// 01's two lines, every edge, random lines, and a line too long at the end.
pub fn lines() -> Vec<u8> {
    let mut rng = Rng::new(SEED);
    let mut text = Vec::new();
    let mut put = |line: &[u8]| text.extend([line, b"\n"].concat());
    put(&line_of(DIALECTS[0], &DIALECTS[0].edges().smallest));
    put(b"S 0001");
    let events = thinned(event_lines(), LINE_EDGE_BYTES);
    for line in events.into_iter().chain(answered_lines()).chain(line_edges::all()) {
        put(&line);
    }
    let mut left = RANDOM_LINES;
    while left > 0 {
        let line = cases::random(&mut rng).line;
        // Few large lines, so that the stored input stays small.
        if line.len() < 4000 {
            put(&line);
            left -= 1;
        }
    }
    put(&damage_line::longest(&mut rng));
    put(&vec![b'S'; LONGEST_LINE + 1]);
    put(b"S 0001");
    text
}

/// The lines of all edges but those whose answers are given.
fn event_lines() -> Vec<Vec<u8>> {
    let mut lines = Vec::new();
    for dialect in DIALECTS {
        let edges = dialect.edges();
        let events = [edges.layouts, edges.headers, probes::flips(dialect)].concat();
        lines.extend(events.iter().map(|words| line_of(dialect, words)));
    }
    lines
}

/// The lines of the events whose answers are given.
fn answered_lines() -> Vec<Vec<u8>> {
    let of_dialect = |dialect: &'static Dialect| {
        let events = dialect.edges().answered.into_iter();
        events.map(move |(_, words)| line_of(dialect, &words))
    };
    DIALECTS.iter().flat_map(|dialect| of_dialect(dialect)).collect()
}

/// Every edge, as lines.
pub fn edge_lines() -> Vec<Vec<u8>> {
    [event_lines(), answered_lines(), line_edges::all()].concat()
}

/// Every edge, as calls.
pub fn edge_calls() -> Vec<Vector> {
    let mut rng = Rng::new(SEED);
    let writings = [changed_writings(&mut rng), list_writings(&mut rng)];
    let edges = writings.into_iter().flatten().chain(edge_readings(&mut rng));
    large_calls().into_iter().chain(edges).collect()
}

/// Edges for all calls in both orders, then random calls.
pub fn vectors() -> Vec<u8> {
    let mut rng = Rng::new(SEED);
    let texts = |vectors: Vec<Vector>| vectors.iter().map(Vector::text).collect::<Vec<_>>();
    let mut text = texts(large_calls()).concat();
    let changed = texts(changed_writings(&mut rng));
    let lists = texts(list_writings(&mut rng)).concat();
    let readings = texts(edge_readings(&mut rng)).concat();
    let left = VECTOR_EDGE_BYTES.saturating_sub(text.len() + lists.len() + readings.len());
    text.extend(thinned(changed, left).concat());
    text.extend(lists);
    text.extend(readings);
    while text.len() < VECTOR_BYTES {
        for vector in cases::random(&mut rng).vectors {
            if vector.elements.len() < 400 {
                text.extend(vector.text());
            }
        }
    }
    text
}

/// Connectors 0 to 3, within each channels 0 to 63: a line of channel, connector and pad.
pub fn pads() -> Vec<u8> {
    let mut text = Vec::new();
    for connector in 0..4 {
        for channel in 0..64 {
            push_numbers(&mut text, &[channel, connector, s800::pad(channel, connector)]);
        }
    }
    text
}

/// Two lines of S: an event with a packet of each form, and the same with the last word of every
/// second packet changed and with a packet more.
pub fn pair() -> Vec<u8> {
    let packets = s800::every_form();
    let mut others = packets.clone();
    for packet in others.iter_mut().step_by(2) {
        *packet.last_mut().expect("a packet has words") ^= 1;
    }
    others.push(make::packet(0x5830, &[0x1234, 0xffff]));
    let events = [packets, others].map(|packets| widened(&make::event_of(&packets)));
    let lines = events.map(|words| [&line_of(&s800::DIALECT, &words)[..], b"\n"].concat());
    lines.concat()
}

/// Events with a peak of hits in each connector, and lines that are refused or passed over.
pub fn page() -> Vec<u8> {
    page_shape::text()
}

fn large_calls() -> Vec<Vector> {
    let readings = DIALECTS.iter().flat_map(|dialect| (dialect.large_readings)());
    let writings = DIALECTS.iter().flat_map(|dialect| (dialect.large_writings)());
    readings.chain(writings).collect()
}

/// Writings of the rows of small events, changed in one place.
fn changed_writings(rng: &mut Rng) -> Vec<Vector> {
    writings(rng, probes::changed_rows)
}

/// Writings of lists at edges that concern several rows.
fn list_writings(rng: &mut Rng) -> Vec<Vector> {
    writings(rng, |dialect| (dialect.rows.lists)())
}

/// Writings of the lists of each dialect, in both orders by turns.
fn writings(rng: &mut Rng, lists_of: fn(&Dialect) -> Vec<Vec<u32>>) -> Vec<Vector> {
    let mut vectors = Vec::new();
    for dialect in DIALECTS {
        for elements in lists_of(dialect) {
            let room = rng.within(40, 60);
            let order = [Order::Rising, Order::Crossed][vectors.len() % 2];
            vectors.push(Vector::writing(dialect, order, room, elements));
        }
    }
    vectors
}

/// Readings of some small edges, some flips, and all events whose answers are given.
fn edge_readings(rng: &mut Rng) -> Vec<Vector> {
    let (mut layouts, mut flips, mut answered) = (vec![], vec![], vec![]);
    for dialect in DIALECTS {
        let edges = dialect.edges();
        let given = |words: Vec<u32>| Words { dialect, words };
        let small = edges.layouts.into_iter().filter(|words| words.len() < 100);
        layouts.extend(small.map(given));
        flips.extend(probes::flips(dialect).into_iter().map(given));
        answered.extend(edges.answered.into_iter().map(|(_, words)| given(words)));
    }
    let some = layouts.into_iter().step_by(3).chain(flips.into_iter().step_by(11));
    some.chain(answered).map(|words| cases::reading(rng, words)).collect()
}

/// All of the texts, or as many of them, evenly taken, as have no more bytes together. (What is
/// left out here, `compare` still runs.)
pub fn thinned(texts: Vec<Vec<u8>>, most_bytes: usize) -> Vec<Vec<u8>> {
    let count = texts.len();
    let is_kept = |index: usize, kept: usize| (index + 1) * kept / count > index * kept / count;
    let fits = |&kept: &usize| {
        let indices = (0..count).filter(|&index| is_kept(index, kept));
        indices.map(|index| texts[index].len()).sum::<usize>() <= most_bytes
    };
    let kept = (0..=count).rev().find(fits).unwrap_or(0);
    let all = texts.into_iter().enumerate();
    all.filter(|&(index, _)| is_kept(index, kept)).map(|(_, text)| text).collect()
}
