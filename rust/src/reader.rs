//! Reading in pieces.

use crate::error::{refusal, verdict};
use crate::{ffi, Record, Refusal, Verdict};

/// A reader of one shard, which comes in pieces of any length.
#[derive(Clone, Debug)]
pub struct Reader {
    state: ffi::Reader,
}

/// What one call of [`Reader::step`] gives.
#[derive(Clone, Copy, Debug, PartialEq, Eq)]
pub struct Step {
    /// The bytes taken from the start of the piece; offer the rest again.
    pub taken: usize,
    /// What the reader says.
    pub said: Said,
}

/// What the reader says.
#[derive(Clone, Copy, Debug, PartialEq, Eq)]
pub enum Said {
    /// No record is complete yet.
    Nothing,
    /// A record is complete, and good.
    Record(Record),
    /// The reader has refused, now or before.
    Refused(Refusal),
}

/// A table of so many rows is never full with a piece of 4,096 bytes: so one call takes the whole piece.
const ROWS: usize = (4096 + 200) / 48 + 1;

impl Reader {
    /// A fresh reader. With a tag that is not 32 bytes it has refused with 2.
    pub fn new(tag: &[u8]) -> Self {
        let state = ffi::reader_new(tag);
        Reader { state }
    }

    /// One call: takes the smaller of the piece's length and the bytes missing from the record due, and hands out at most
    /// one record. After a refusal every call takes nothing and repeats it.
    #[inline]
    pub fn step(&mut self, piece: &[u8]) -> Step {
        let answer = ffi::reader_step(&mut self.state, piece);
        Step {
            taken: answer.taken as usize,
            said: match answer.said {
                ffi::NOTHING => Said::Nothing,
                ffi::FOUND => Said::Record(answer.found.into()),
                _ => Said::Refused(refusal(answer.number, answer.at)),
            },
        }
    }

    /// Takes a whole piece, and hands each record that it completes to `visit`, in order.
    ///
    /// # Errors
    ///
    /// The refusal, if the reader refuses this piece or has refused before. The good records before it were handed out.
    pub fn read(&mut self, piece: &[u8], mut visit: impl FnMut(Record)) -> Result<(), Refusal> {
        let mut table = [const { ffi::no_row() }; ROWS];
        let mut left = piece;
        loop {
            let (answer, rows) = ffi::reader_read(&mut self.state, left, &mut table);
            left = &left[answer.taken as usize..];
            for row in rows {
                visit(row.into());
            }
            match answer.said {
                ffi::NOTHING => return Ok(()),
                ffi::FOUND => (),
                _ => return Err(refusal(answer.number, answer.at)),
            }
        }
    }

    /// The summary after the end, the refusal if there was one, else 1 at the record due, which is only a report: reading
    /// may go on. Asking changes nothing.
    ///
    /// # Errors
    ///
    /// As said.
    pub fn verdict(&self) -> Verdict {
        verdict(ffi::reader_verdict(&self.state))
    }
}
