//! The events that are read and written: one run of words, with the rows as the second reader gives them.

use second::base::Order;
use second::dialects::Functions;
use second::rng::Rng;

const SEED: u64 = 7;

/// The stamp order of the readings and writings that are timed: the proved ones are given none.
pub const ORDER: Order = Order::DEFAULT;

/// Words of one event after another, and their rows, four elements each.
pub struct Events<W> {
    pub words: Vec<W>,
    pub rows: Vec<u32>,
    /// Where each event ends, in words and in elements of rows.
    ends: Vec<(usize, usize)>,
}

/// What events a set has, by the dialect's functions of these names.
#[derive(Clone, Copy, Debug)]
pub enum MakeUp {
    Mixed,
    Large,
    Smallest,
    Opaque,
}

pub const MAKE_UPS: [MakeUp; 4] = [MakeUp::Mixed, MakeUp::Large, MakeUp::Smallest, MakeUp::Opaque];

/// Makes the parts of an event.
type Make<W> = fn(&mut Rng) -> Vec<Vec<W>>;

impl MakeUp {
    /// None where the dialect has no opaque words.
    fn function_of<W>(self, functions: &Functions<W>) -> Option<Make<W>> {
        match self {
            MakeUp::Mixed => Some(functions.mixed),
            MakeUp::Large => Some(functions.large),
            MakeUp::Smallest => Some(functions.smallest),
            MakeUp::Opaque => functions.opaque,
        }
    }
}

impl<W: Copy> Events<W> {
    /// Events until there are so many of them, or so many words; none where the dialect has no such events.
    pub fn made(
        functions: &Functions<W>,
        make_up: MakeUp,
        most_events: usize,
        most_words: usize,
    ) -> Option<Events<W>> {
        let make = make_up.function_of(functions)?;
        let mut rng = Rng::new(SEED);
        let mut events = Events { words: vec![], rows: vec![], ends: vec![] };
        while events.ends.len() < most_events && events.words.len() < most_words {
            let words = (functions.event_of)(&make(&mut rng));
            let rows = (functions.rows_of)(&words, ORDER);
            events.rows.extend(rows.expect("made events are acceptable").iter().flatten());
            events.words.extend_from_slice(&words);
            events.ends.push((events.words.len(), events.rows.len()));
        }
        Some(events)
    }

    pub fn count(&self) -> usize {
        self.ends.len()
    }

    /// Calls `each` with the words and the rows of so many events, from one on; answers the number of words.
    pub fn for_each(
        &self,
        first: usize,
        count: usize,
        mut each: impl FnMut(&[W], &[u32]),
    ) -> usize {
        let (mut word, mut row) = if first == 0 { (0, 0) } else { self.ends[first - 1] };
        let began = word;
        for &(word_end, row_end) in &self.ends[first..first + count] {
            each(&self.words[word..word_end], &self.rows[row..row_end]);
            (word, row) = (word_end, row_end);
        }
        word - began
    }
}
