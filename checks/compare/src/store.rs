//! A store that makes up the bytes of every piece, so that a file can be put together in two ways.

use checks::generate::{Rng, SegmentPlan};
use checks::plan::Row;
use checks::reader::Hash;

/// Files with longer segments are not made.
pub const MOST: u32 = 4_096;

/// The first bytes of these chunks of a xorb, unpacked.
fn piece(xorb: Hash, start: u64, end: u64, length: u64) -> Vec<u8> {
    let words = xorb.into_iter().chain([start, end]);
    let seed = words.fold(0, |seed: u64, word| {
        (seed ^ word)
            .wrapping_mul(0xD134_2543_DE82_EF95)
            .rotate_left(29)
    });
    let mut rng = Rng::new(seed);
    (0..length).map(|_| (rng.word() >> 32) as u8).collect()
}

/// All bytes of the file with these segments.
pub fn file(segments: &[SegmentPlan]) -> Vec<u8> {
    let bytes = segments.iter().map(|one| {
        let (start, end) = (one.start.into(), one.end.into());
        piece(one.hash, start, end, one.bytes.into())
    });
    bytes.collect::<Vec<_>>().concat()
}

/// What these rows take, one after the other.
pub fn fetch(rows: &[Row]) -> Vec<u8> {
    let bytes = rows.iter().map(|row| {
        let mut bytes = piece(row.xorb, row.start.0, row.end.0, row.skip + row.take);
        bytes.split_off(row.skip as usize)
    });
    bytes.collect::<Vec<_>>().concat()
}
