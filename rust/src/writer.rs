//! Writing record by record.

use crate::error::{refusal, verdict};
use crate::{ffi, ChunkIndex, Hash, Record, Refusal, Verdict};

/// A writer of one shard. It makes tag, versions, reserved bytes, bookends and footer offsets itself.
#[derive(Clone, Debug)]
pub struct Writer {
    state: ffi::Writer,
}

/// A record as it is offered to a writer.
#[derive(Clone, Copy, Debug, PartialEq, Eq)]
pub enum Offer {
    /// The header.
    Header {
        /// The size of the footer to come: 0 for none, or 200.
        footer_size: u64,
    },
    /// The start of a file block.
    FileHead {
        /// The file's hash.
        hash: Hash,
        /// Bit 31: verifications follow the segments; bit 30: metadata ends the block.
        flags: u32,
        /// How many segments follow.
        entries: u32,
    },
    /// A stretch of chunks of one xorb.
    Segment {
        /// The xorb's hash.
        hash: Hash,
        /// The flags, to be 0.
        flags: u32,
        /// The unpacked bytes.
        bytes: u32,
        /// The first chunk.
        start: ChunkIndex,
        /// The chunk after the last.
        end: ChunkIndex,
    },
    /// The verification of a segment.
    Verification {
        /// The hash.
        hash: Hash,
    },
    /// The metadata of a file.
    Metadata {
        /// The SHA-256 value.
        hash: Hash,
    },
    /// The start of a xorb block.
    XorbHead {
        /// The xorb's hash.
        hash: Hash,
        /// The flags, to be 0.
        flags: u32,
        /// How many chunks follow.
        entries: u32,
        /// The bytes in the xorb.
        bytes: u32,
        /// The bytes on disk.
        on_disk: u32,
    },
    /// A chunk of a xorb.
    Chunk {
        /// The chunk's hash.
        hash: Hash,
        /// The byte of the xorb where the chunk starts.
        start: u32,
        /// The unpacked bytes.
        bytes: u32,
    },
    /// The end of the section of files, or of xorbs.
    SectionEnd,
    /// The footer.
    Footer {
        /// The key.
        key: Hash,
        /// The time of creation.
        created: u64,
        /// The time of expiry.
        expiry: u64,
    },
}

impl Offer {
    /// The offer that makes a writer write a record that was read. What a writer makes itself is not in it, so of a good record
    /// nothing is lost.
    pub fn of(record: &Record) -> Self {
        ffi::offer_of(record.into()).into()
    }
}

impl From<Record> for Offer {
    /// As [`Offer::of`].
    fn from(record: Record) -> Self {
        Offer::of(&record)
    }
}

impl From<ffi::Offer> for Offer {
    fn from(from: ffi::Offer) -> Self {
        let ffi::Offer {
            x, y, a, b, c, d, ..
        } = from;
        let hash = Hash(from.hash);
        match from.kind {
            0 => Offer::Header { footer_size: x },
            1 => Offer::FileHead {
                hash,
                flags: a,
                entries: b,
            },
            2 => Offer::Segment {
                hash,
                flags: a,
                bytes: b,
                start: ChunkIndex(c),
                end: ChunkIndex(d),
            },
            3 => Offer::Verification { hash },
            4 => Offer::Metadata { hash },
            5 => Offer::XorbHead {
                hash,
                flags: a,
                entries: b,
                bytes: c,
                on_disk: d,
            },
            6 => Offer::Chunk {
                hash,
                start: a,
                bytes: b,
            },
            7 => Offer::SectionEnd,
            8 => Offer::Footer {
                key: hash,
                created: x,
                expiry: y,
            },
            kind => unreachable!("a record has one of the kinds 0 to 8, not {kind}"),
        }
    }
}

/// An offer of a hash and the numbers behind it.
fn entry(kind: u32, hash: Hash, [a, b, c, d]: [u32; 4]) -> ffi::Offer {
    ffi::Offer {
        hash: hash.0,
        kind,
        a,
        b,
        c,
        d,
        ..Default::default()
    }
}

/// An offer with two wide numbers.
fn wide(kind: u32, key: Hash, x: u64, y: u64) -> ffi::Offer {
    ffi::Offer {
        hash: key.0,
        kind,
        x,
        y,
        ..Default::default()
    }
}

impl From<&Offer> for ffi::Offer {
    #[inline]
    fn from(offer: &Offer) -> Self {
        match *offer {
            Offer::Header { footer_size } => wide(0, Hash::default(), footer_size, 0),
            Offer::FileHead {
                hash,
                flags,
                entries,
            } => entry(1, hash, [flags, entries, 0, 0]),
            Offer::Segment {
                hash,
                flags,
                bytes,
                start,
                end,
            } => entry(2, hash, [flags, bytes, start.0, end.0]),
            Offer::Verification { hash } => entry(3, hash, [0; 4]),
            Offer::Metadata { hash } => entry(4, hash, [0; 4]),
            Offer::XorbHead {
                hash,
                flags,
                entries,
                bytes,
                on_disk,
            } => entry(5, hash, [flags, entries, bytes, on_disk]),
            Offer::Chunk { hash, start, bytes } => entry(6, hash, [start, bytes, 0, 0]),
            Offer::SectionEnd => entry(7, Hash::default(), [0; 4]),
            Offer::Footer {
                key,
                created,
                expiry,
            } => wide(8, key, created, expiry),
        }
    }
}

impl Writer {
    /// A fresh writer. With a tag that is not 32 bytes it answers 2 to everything.
    pub fn new(tag: &[u8]) -> Self {
        let state = ffi::writer_new(tag);
        Writer { state }
    }

    /// Puts one record at the start of the buffer and answers its size, 48 or 200. Only the record's own bytes change.
    ///
    /// # Errors
    ///
    /// The refusal; then no byte has changed, and the writer stands where it stood.
    #[inline]
    pub fn put(&mut self, offer: &Offer, buffer: &mut [u8]) -> Result<usize, Refusal> {
        let answer = ffi::writer_put(&mut self.state, offer.into(), buffer);
        match answer.number {
            0 => Ok(answer.wrote as usize),
            number => Err(refusal(number, answer.at)),
        }
    }

    /// The summary after the last record, else 1 at the record due; 2 if the tag was not 32 bytes. Asking changes nothing.
    ///
    /// # Errors
    ///
    /// As said.
    pub fn verdict(&self) -> Verdict {
        verdict(ffi::writer_verdict(&self.state))
    }
}
