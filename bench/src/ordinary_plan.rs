//! A plan as one would write it in Rust, of a shard that is known to be accepted: by the heads to the file, once over its segments
//! to see whether the stretch and the rows fit, and once more to fill the table.

use melagbosun::{ChunkIndex, FetchRow, Hash};
use std::ops::Range;

const ENTRY: usize = 48;

fn u32_at(record: &[u8], at: usize) -> u32 {
    u32::from_le_bytes(record[at..at + 4].try_into().expect("four bytes"))
}

fn hash(record: &[u8]) -> Hash {
    Hash::from(<[u8; 32]>::try_from(&record[..32]).expect("32 bytes"))
}

/// The segments of a file, if there is one of that number.
fn segments(shard: &[u8], file: u32) -> Option<&[u8]> {
    let mut at = ENTRY;
    for left in (0..=file).rev() {
        let head = &shard[at..at + ENTRY];
        if hash(head) == Hash([u64::MAX; 4]) {
            return None;
        }
        let (flags, entries) = (u32_at(head, 32), u32_at(head, 36) as usize);
        at += ENTRY;
        if left == 0 {
            return Some(&shard[at..at + ENTRY * entries]);
        }
        let verified = if flags >> 31 == 1 { entries } else { 0 };
        at += ENTRY * (entries + verified + (flags >> 30 & 1) as usize);
    }
    None
}

/// What a segment behind so many bytes of its file shares with a range: the bytes to skip and those to take, if there are any, and
/// the bytes of the file up to its end.
#[inline]
fn share(record: &[u8; ENTRY], before: u64, range: &Range<u64>) -> (Option<(u32, u32)>, u64) {
    let end = before + u64::from(u32_at(record, 36));
    let (from, to) = (before.max(range.start), end.min(range.end));
    let share = (from < to).then(|| ((from - before) as u32, (to - from) as u32));
    (share, end)
}

/// How many rows there are, and how many bytes they take.
fn measure(segments: &[[u8; ENTRY]], range: &Range<u64>) -> (usize, u64) {
    let (mut rows, mut bytes, mut before) = (0, 0, 0);
    for record in segments {
        if range.end <= before {
            break;
        }
        let (share, end) = share(record, before, range);
        if let Some((_, take)) = share {
            rows += 1;
            bytes += u64::from(take);
        }
        before = end;
    }
    (rows, bytes)
}

/// Fills the table with the rows of a stretch, and answers how many there are; or nothing, and no row has changed.
pub fn plan(shard: &[u8], file: u32, range: &Range<u64>, table: &mut [FetchRow]) -> Option<usize> {
    let (segments, _) = segments(shard, file)?.as_chunks::<ENTRY>();
    let (rows, bytes) = measure(segments, range);
    if range.is_empty() || bytes < range.end - range.start || table.len() < rows {
        return None;
    }
    let table = &mut table[..rows];
    let (mut filled, mut before) = (0, 0);
    for record in segments {
        if filled == table.len() {
            break;
        }
        let (share, end) = share(record, before, range);
        if let Some((skip, take)) = share {
            table[filled] = FetchRow {
                xorb: hash(record),
                start: ChunkIndex(u32_at(record, 40)),
                end: ChunkIndex(u32_at(record, 44)),
                skip,
                take,
            };
            filled += 1;
        }
        before = end;
    }
    Some(rows)
}
