//! Refusals, and what an accepted shard adds up to.

use crate::{ffi, Position};
use std::error::Error;
use std::fmt;

/// Why a shard, a tag, an offer, a join, a plan, an audit or an entry of a blob file was refused, and where.
#[derive(Clone, Copy, Debug, PartialEq, Eq, Hash)]
pub struct Refusal {
    /// The number: 1 to 18, 22, 24 to 30 or 255. This crate begins every reader and every writer, so 255 can't come from it.
    pub number: u32,
    /// Where the record or the entry starts that is at fault or missing; of 14 the first byte too many, of 15 and 16 where the
    /// writer stands. Of accepted shards that can't be joined, or planned from as asked, and of an entry that can't be written, it
    /// is 0.
    pub position: Position,
}

impl Refusal {
    /// What the number means, in plain words.
    pub fn sentence(&self) -> &'static str {
        match self.number {
            1 => "the shard ends inside or before a record that is still due",
            2 => "the tag given is not 32 bytes long",
            3 => "the header has another tag",
            4 => "the header's version is not 2",
            5 => "the header's footer size is neither 0 nor 200",
            6 => "a head declares more records than a shard of 16,777,216 bytes holds, or a joined shard would be longer",
            7 => "a reserved byte, or a flag bit without a meaning, is not 0",
            8 => "a hash of all ones stands at a head that is no bookend",
            9 => "some files have verifications and others have none",
            10 => "a segment's chunk start is not below its chunk end",
            11 => "the chunks of a xorb do not follow each other, or do not add up to the bytes its head declares",
            12 => "the footer's version is not 1",
            13 => "an offset in the footer is wrong",
            14 => "something follows the end of the shard",
            15 => "the buffer is shorter than the record, the joined shard or the entry, or the table has fewer rows than the plan",
            16 => "this kind of record is not due now",
            17 => "the shard has no file of that number",
            18 => "the range is empty or runs backwards, or goes past the end of the file",
            22 => "a segment does not agree with the chunks of the xorb that it names, which the shard lists",
            24 => "fewer bytes are left than the 110 that an entry has before its data",
            25 => "the entry does not begin with MSHB",
            26 => "the entry's version is not 1",
            27 => "the entry's hash is not 64 hex digits",
            28 => "a reserved byte of the entry is not 0",
            29 => "the entry's data go past the end of the buffer",
            30 => "a shard to be joined has a footer",
            255 => "the reader or writer is in a state that no call gave out",
            _ => "the refusal has no known number",
        }
    }
}

impl fmt::Display for Refusal {
    fn fmt(&self, f: &mut fmt::Formatter<'_>) -> fmt::Result {
        let (number, at) = (self.number, self.position);
        write!(f, "refused {number} at {at}: {}", self.sentence())
    }
}

impl Error for Refusal {}

/// How many there are of each, and the sum of the segments' bytes.
#[derive(Clone, Copy, Debug, Default, PartialEq, Eq)]
pub struct Totals {
    /// The files.
    pub files: u64,
    /// The segments of all files.
    pub segments: u64,
    /// The xorbs.
    pub xorbs: u64,
    /// The chunks of all xorbs.
    pub chunks: u64,
    /// The sum of all segments' unpacked bytes.
    pub bytes: u64,
}

/// What there is to say of an accepted shard. Its `Display` is the seven lines of the program.
#[derive(Clone, Copy, Debug, Default, PartialEq, Eq)]
pub struct Summary {
    /// The length in bytes.
    pub length: u64,
    /// The counts.
    pub totals: Totals,
    /// Whether there is a footer.
    pub footer: bool,
}

impl fmt::Display for Summary {
    fn fmt(&self, f: &mut fmt::Formatter<'_>) -> fmt::Result {
        let totals = self.totals;
        writeln!(f, "files {}", totals.files)?;
        writeln!(f, "segments {}", totals.segments)?;
        writeln!(f, "xorbs {}", totals.xorbs)?;
        writeln!(f, "chunks {}", totals.chunks)?;
        writeln!(f, "bytes {}", totals.bytes)?;
        writeln!(f, "footer {}", if self.footer { "yes" } else { "no" })?;
        write!(f, "ok {}", self.length)
    }
}

/// The summary of an accepted shard, or the refusal.
pub type Verdict = Result<Summary, Refusal>;

pub(crate) fn refusal(number: u32, at: u64) -> Refusal {
    let position = Position(at);
    Refusal { number, position }
}

pub(crate) fn verdict(from: ffi::Verdict) -> Verdict {
    if from.number != 0 {
        return Err(refusal(from.number, from.at));
    }
    let ffi::Totals {
        files,
        segments,
        xorbs,
        chunks,
        bytes,
    } = from.totals;
    Ok(Summary {
        length: from.length,
        totals: Totals {
            files,
            segments,
            xorbs,
            chunks,
            bytes,
        },
        footer: from.footer != 0,
    })
}
