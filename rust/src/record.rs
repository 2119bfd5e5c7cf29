//! Records as they are handed out, and the kinds of number in them.

use crate::ffi;
use std::fmt;

/// A byte position in a shard, or in a blob file.
#[derive(Clone, Copy, Debug, Default, PartialEq, Eq, PartialOrd, Ord, Hash)]
pub struct Position(pub u64);

/// The number of a file in a shard, from 0.
#[derive(Clone, Copy, Debug, Default, PartialEq, Eq, PartialOrd, Ord, Hash)]
pub struct FileNumber(pub u32);

/// The number of a xorb block in a shard, from 0.
#[derive(Clone, Copy, Debug, Default, PartialEq, Eq, PartialOrd, Ord, Hash)]
pub struct BlockNumber(pub u32);

/// The index of a chunk in its xorb, from 0.
#[derive(Clone, Copy, Debug, Default, PartialEq, Eq, PartialOrd, Ord, Hash)]
#[repr(transparent)]
pub struct ChunkIndex(pub u32);

/// A hash as stored: 32 bytes as four little-endian numbers. Its `Display` is these bytes in their order.
#[derive(Clone, Copy, Debug, Default, PartialEq, Eq, PartialOrd, Ord, Hash)]
#[repr(transparent)]
pub struct Hash(pub [u64; 4]);

impl fmt::Display for Position {
    fn fmt(&self, f: &mut fmt::Formatter<'_>) -> fmt::Result {
        self.0.fmt(f)
    }
}

impl fmt::Display for Hash {
    fn fmt(&self, f: &mut fmt::Formatter<'_>) -> fmt::Result {
        self.0
            .iter()
            .try_for_each(|word| write!(f, "{:016x}", word.swap_bytes()))
    }
}

impl From<[u8; 32]> for Hash {
    #[inline]
    fn from(bytes: [u8; 32]) -> Self {
        let (words, _) = bytes.as_chunks::<8>();
        Hash([0, 1, 2, 3].map(|i| u64::from_le_bytes(words[i])))
    }
}

impl From<Hash> for [u8; 32] {
    #[inline]
    fn from(hash: Hash) -> Self {
        let mut bytes = [0; 32];
        for (part, word) in bytes.chunks_exact_mut(8).zip(hash.0) {
            part.copy_from_slice(&word.to_le_bytes());
        }
        bytes
    }
}

/// A good record: where it starts, and its fields. Reserved bytes are left out, being 0.
#[derive(Clone, Copy, Debug, PartialEq, Eq)]
pub enum Record {
    /// The first record.
    Header {
        /// Where it starts, 0.
        position: Position,
        /// The tag, the 32 bytes as a hash.
        tag: Hash,
        /// The version, 2.
        version: u64,
        /// The size of the footer: 0 if there is none, else 200.
        footer_size: u64,
    },
    /// The start of a file block.
    FileHead {
        /// Where it starts.
        position: Position,
        /// The file's hash.
        hash: Hash,
        /// Bit 31: verifications follow the segments; bit 30: metadata ends the block; the others are 0.
        flags: u32,
        /// How many segments there are.
        entries: u32,
    },
    /// A stretch of chunks of one xorb.
    Segment {
        /// Where it starts.
        position: Position,
        /// The xorb's hash.
        hash: Hash,
        /// The flags, 0.
        flags: u32,
        /// The unpacked bytes.
        bytes: u32,
        /// The first chunk.
        start: ChunkIndex,
        /// The chunk after the last.
        end: ChunkIndex,
    },
    /// The verification of a segment.
    Verification {
        /// Where it starts.
        position: Position,
        /// The hash.
        hash: Hash,
    },
    /// The metadata of a file.
    Metadata {
        /// Where it starts.
        position: Position,
        /// The SHA-256 value.
        hash: Hash,
    },
    /// The start of a xorb block.
    XorbHead {
        /// Where it starts.
        position: Position,
        /// The xorb's hash.
        hash: Hash,
        /// The flags, 0.
        flags: u32,
        /// How many chunks there are.
        entries: u32,
        /// The bytes in the xorb.
        bytes: u32,
        /// The bytes on disk.
        on_disk: u32,
    },
    /// A chunk of a xorb.
    Chunk {
        /// Where it starts.
        position: Position,
        /// The chunk's hash.
        hash: Hash,
        /// The byte of the xorb where the chunk starts.
        start: u32,
        /// The unpacked bytes.
        bytes: u32,
    },
    /// The end of a section.
    Bookend {
        /// Where it starts.
        position: Position,
    },
    /// The last record, if the header announces it. Its version is 1, its file offset 48, its footer offset its position.
    Footer {
        /// Where it starts.
        position: Position,
        /// The byte after the first bookend.
        xorb_offset: Position,
        /// The key.
        key: Hash,
        /// The time of creation.
        created: u64,
        /// The time of expiry.
        expiry: u64,
    },
}

impl Record {
    /// Where the record starts.
    pub fn position(&self) -> Position {
        match *self {
            Record::Header { position, .. }
            | Record::FileHead { position, .. }
            | Record::Segment { position, .. }
            | Record::Verification { position, .. }
            | Record::Metadata { position, .. }
            | Record::XorbHead { position, .. }
            | Record::Chunk { position, .. }
            | Record::Bookend { position }
            | Record::Footer { position, .. } => position,
        }
    }

    /// The name of its kind.
    pub fn kind(&self) -> &'static str {
        match self {
            Record::Header { .. } => "header",
            Record::FileHead { .. } => "file head",
            Record::Segment { .. } => "segment",
            Record::Verification { .. } => "verification",
            Record::Metadata { .. } => "metadata",
            Record::XorbHead { .. } => "xorb head",
            Record::Chunk { .. } => "chunk",
            Record::Bookend { .. } => "bookend",
            Record::Footer { .. } => "footer",
        }
    }
}

const fn joined(low: u32, high: u32) -> u64 {
    low as u64 | (high as u64) << 32
}

impl From<ffi::Record> for Record {
    #[inline]
    fn from(from: ffi::Record) -> Self {
        let (position, hash) = (Position(from.at), Hash(from.hash));
        let ffi::Record { a, b, c, d, .. } = from;
        match from.kind {
            0 => Record::Header {
                position,
                tag: hash,
                version: joined(a, b),
                footer_size: joined(c, d),
            },
            1 => Record::FileHead {
                position,
                hash,
                flags: a,
                entries: b,
            },
            2 => Record::Segment {
                position,
                hash,
                flags: a,
                bytes: b,
                start: ChunkIndex(c),
                end: ChunkIndex(d),
            },
            3 => Record::Verification { position, hash },
            4 => Record::Metadata { position, hash },
            5 => Record::XorbHead {
                position,
                hash,
                flags: a,
                entries: b,
                bytes: c,
                on_disk: d,
            },
            6 => Record::Chunk {
                position,
                hash,
                start: a,
                bytes: b,
            },
            7 => Record::Bookend { position },
            8 => Record::Footer {
                position,
                xorb_offset: Position(from.offset),
                key: hash,
                created: joined(a, b),
                expiry: joined(c, d),
            },
            kind => unreachable!("the library hands out the kinds 0 to 8, not {kind}"),
        }
    }
}

/// Two wide numbers as four.
const fn halves(x: u64, y: u64) -> [u32; 4] {
    [x as u32, (x >> 32) as u32, y as u32, (y >> 32) as u32]
}

impl From<&Record> for ffi::Record {
    fn from(from: &Record) -> Self {
        let (kind, hash, [a, b, c, d], offset) = match *from {
            Record::Header {
                tag,
                version,
                footer_size,
                ..
            } => (0, tag, halves(version, footer_size), 0),
            Record::FileHead {
                hash,
                flags,
                entries,
                ..
            } => (1, hash, [flags, entries, 0, 0], 0),
            Record::Segment {
                hash,
                flags,
                bytes,
                start,
                end,
                ..
            } => (2, hash, [flags, bytes, start.0, end.0], 0),
            Record::Verification { hash, .. } => (3, hash, [0; 4], 0),
            Record::Metadata { hash, .. } => (4, hash, [0; 4], 0),
            Record::XorbHead {
                hash,
                flags,
                entries,
                bytes,
                on_disk,
                ..
            } => (5, hash, [flags, entries, bytes, on_disk], 0),
            Record::Chunk {
                hash, start, bytes, ..
            } => (6, hash, [start, bytes, 0, 0], 0),
            Record::Bookend { .. } => (7, Hash([u64::MAX; 4]), [0; 4], 0),
            Record::Footer {
                xorb_offset,
                key,
                created,
                expiry,
                ..
            } => (8, key, halves(created, expiry), xorb_offset.0),
        };
        let (hash, at) = (hash.0, from.position().0);
        ffi::Record {
            hash,
            at,
            offset,
            kind,
            a,
            b,
            c,
            d,
        }
    }
}

impl From<&ffi::Row> for Record {
    #[inline]
    fn from(row: &ffi::Row) -> Self {
        let &[kind, at, offset, h0, h1, h2, h3, ab, cd] = row;
        let [a, b, c, d] = halves(ab, cd);
        let (hash, kind) = ([h0, h1, h2, h3], kind as u32);
        Record::from(ffi::Record {
            hash,
            at,
            offset,
            kind,
            a,
            b,
            c,
            d,
        })
    }
}
