//! Row by row access for the writings, with refusals 20, 21 and 22.

use crate::base::{refuse, Refusal, Row};

pub struct Cursor<'a> {
    elements: &'a [u32],
    /// The index of the next row.
    at: usize,
}

impl<'a> Cursor<'a> {
    pub fn new(elements: &'a [u32]) -> Result<Cursor<'a>, Refusal> {
        if elements.len() % 4 != 0 {
            return refuse(20, 0);
        }
        Ok(Cursor { elements, at: 0 })
    }

    fn row(&self) -> Option<Row> {
        let row = self.elements.get(4 * self.at..4 * self.at + 4)?;
        Some([row[0], row[1], row[2], row[3]])
    }

    pub fn is_done(&self) -> bool {
        self.row().is_none()
    }

    pub fn next_is(&self, kind: u32) -> bool {
        self.row().is_some_and(|row| row[0] == kind)
    }

    // Out of line, `take` and `take_if` make a writing of many rows up to 2.9 times slower.

    /// The next row, which must be of this kind. Else 21; where the rows have ended the place
    /// is the row count, which is the index of the next row as well.
    #[inline]
    pub fn take(&mut self, kind: u32) -> Result<Row, Refusal> {
        self.take_if(|row| row[0] == kind)
    }

    /// The next row, of whose kind and tag the test says whether they may stand there.
    #[inline]
    pub fn take_if(&mut self, may_stand: impl Fn(&Row) -> bool) -> Result<Row, Refusal> {
        match self.row() {
            Some(row) if may_stand(&row) => {
                self.at += 1;
                Ok(row)
            }
            _ => refuse(21, self.at),
        }
    }

    /// 21 at the next row, where no row may stand any more.
    pub fn finish(&self) -> Result<(), Refusal> {
        if self.is_done() {
            Ok(())
        } else {
            refuse(21, self.at)
        }
    }

    /// 22 at the row last taken unless the test of its fields holds.
    pub fn require(&self, holds: bool) -> Result<(), Refusal> {
        if holds {
            Ok(())
        } else {
            refuse(22, self.at - 1)
        }
    }
}
