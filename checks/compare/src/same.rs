//! The product's answers in the words of the independent reader.

use checks::audit::Audited;
use checks::blobs::{Entry, Tally};
use checks::plan::Row;
use checks::reader as own;
use melagbosun as product;

fn position(at: product::Position) -> own::Position {
    own::Position(at.0)
}

fn index(at: product::ChunkIndex) -> own::ChunkIndex {
    own::ChunkIndex(at.0.into())
}

pub fn refusal(from: product::Refusal) -> own::Refusal {
    let number = u8::try_from(from.number).expect("a small number");
    own::Refusal::new(number, from.position.0)
}

pub fn verdict(from: product::Verdict) -> own::Verdict {
    from.map_err(refusal).map(|sum| own::Summary {
        length: sum.length,
        files: sum.totals.files,
        segments: sum.totals.segments,
        xorbs: sum.totals.xorbs,
        chunks: sum.totals.chunks,
        bytes: sum.totals.bytes,
        footer: sum.footer,
    })
}

/// Flags that have to be 0 are not in the independent reader's fields.
fn zero(flags: u32) {
    assert_eq!(flags, 0, "flags of a good record");
}

pub fn record(from: product::Record) -> own::Record {
    use product::Record as R;
    let fields = match from {
        R::Header {
            tag,
            version,
            footer_size,
            ..
        } => own::Fields::Header {
            tag: tag.into(),
            version,
            footer_size,
        },
        R::FileHead {
            hash,
            flags,
            entries,
            ..
        } => own::Fields::FileHead {
            hash: hash.0,
            flags,
            entries,
        },
        R::Segment {
            hash,
            flags,
            bytes,
            start,
            end,
            ..
        } => {
            zero(flags);
            own::Fields::Segment {
                hash: hash.0,
                bytes,
                start: index(start),
                end: index(end),
            }
        }
        R::Verification { hash, .. } => own::Fields::Verification { hash: hash.0 },
        R::Metadata { hash, .. } => own::Fields::Metadata { hash: hash.0 },
        R::XorbHead {
            hash,
            flags,
            entries,
            bytes,
            on_disk,
            ..
        } => {
            zero(flags);
            own::Fields::XorbHead {
                hash: hash.0,
                entries,
                bytes,
                on_disk,
            }
        }
        R::Chunk {
            hash, start, bytes, ..
        } => own::Fields::Chunk {
            hash: hash.0,
            start,
            bytes,
        },
        R::Bookend { .. } => own::Fields::Bookend,
        R::Footer {
            position: at,
            xorb_offset,
            key,
            created,
            expiry,
        } => own::Fields::Footer {
            version: 1,
            file_offset: own::Position(48),
            xorb_offset: position(xorb_offset),
            key: key.0,
            created,
            expiry,
            footer_offset: position(at),
        },
    };
    own::Record {
        kind: fields.kind(),
        position: position(from.position()),
        fields,
    }
}

pub fn fed(from: product::Step) -> own::Fed {
    own::Fed {
        taken: from.taken,
        answer: match from.said {
            product::Said::Nothing => own::Answer::Nothing,
            product::Said::Record(one) => own::Answer::Record(record(one)),
            product::Said::Refused(one) => own::Answer::Refused(refusal(one)),
        },
    }
}

pub fn chunk(from: product::FoundChunk) -> own::ChunkFound {
    own::ChunkFound {
        block: from.block.0.into(),
        index: index(from.index),
        position: position(from.position),
    }
}

pub fn file(from: product::FoundFile) -> own::FileFound {
    own::FileFound {
        number: own::FileNumber(from.file.0.into()),
        position: position(from.position),
    }
}

pub fn rows(from: &[product::FetchRow]) -> Vec<Row> {
    let row = |one: &product::FetchRow| Row {
        xorb: one.xorb.0,
        start: index(one.start),
        end: index(one.end),
        skip: one.skip.into(),
        take: one.take.into(),
    };
    from.iter().map(row).collect()
}

pub fn audited(from: product::Audited) -> Audited {
    Audited {
        listed: from.listed,
        unlisted: from.unlisted,
    }
}

pub fn entry(from: product::blobs::Entry<'_>) -> Entry<'_> {
    Entry {
        digits: from.digits,
        data: from.data,
        next: from.next.0,
    }
}

pub fn tally(from: product::blobs::Tally) -> Tally {
    Tally {
        entries: from.entries,
        bytes: from.bytes,
    }
}
