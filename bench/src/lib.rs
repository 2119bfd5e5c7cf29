//! What is timed: the inputs, an ordinary reader, plan and audit, ordinary blob files, and the consumer of the records.

pub mod inputs;
pub mod measured;
pub mod ordinary;
pub mod ordinary_audit;
pub mod ordinary_blobs;
pub mod ordinary_plan;

use melagbosun::Record;

/// Folds every field of a record into a sum. Both readers are consumed by this.
#[inline(always)]
pub fn fold(sum: &mut u64, record: &Record) {
    let at = record.position().0;
    let pair = |a: u32, b: u32| u64::from(a) ^ u64::from(b).rotate_left(29);
    let (kind, hash, x, y) = match *record {
        Record::Header {
            tag,
            version,
            footer_size,
            ..
        } => (0, tag, version, footer_size),
        Record::FileHead {
            hash,
            flags,
            entries,
            ..
        } => (1, hash, pair(flags, entries), 0),
        Record::Segment {
            hash,
            flags,
            bytes,
            start,
            end,
            ..
        } => (2, hash, pair(flags, bytes), pair(start.0, end.0)),
        Record::Verification { hash, .. } => (3, hash, 0, 0),
        Record::Metadata { hash, .. } => (4, hash, 0, 0),
        Record::XorbHead {
            hash,
            flags,
            entries,
            bytes,
            on_disk,
            ..
        } => (5, hash, pair(flags, entries), pair(bytes, on_disk)),
        Record::Chunk {
            hash, start, bytes, ..
        } => (6, hash, pair(start, bytes), 0),
        Record::Bookend { .. } => (7, Default::default(), 0, 0),
        Record::Footer {
            xorb_offset,
            key,
            created,
            expiry,
            ..
        } => (8 + xorb_offset.0, key, created, expiry),
    };
    let [a, b, c, d] = hash.0;
    let words = a ^ b.rotate_left(13) ^ c.rotate_left(29) ^ d.rotate_left(43);
    let numbers = kind ^ at << 8 ^ x.rotate_left(17) ^ y.rotate_left(31);
    *sum = sum.rotate_left(5).wrapping_add(words ^ numbers);
}
