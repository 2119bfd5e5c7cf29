//! A stretch of one file: which pieces to fetch for it.

use crate::error::refusal;
use crate::{ffi, ChunkIndex, FileNumber, Hash, Refusal, ENTRY_SIZE, LIMIT};
use std::ops::Range;

/// One piece to fetch: the chunks of a xorb from `start` up to but not including `end`. Of their bytes, unpacked, `skip` are passed
/// over and the next `take` are wanted.
#[derive(Clone, Copy, Debug, Default, PartialEq, Eq, Hash)]
#[repr(C)]
pub struct FetchRow {
    /// The hash of the xorb.
    pub xorb: Hash,
    /// The first chunk.
    pub start: ChunkIndex,
    /// The chunk behind the last.
    pub end: ChunkIndex,
    /// Bytes to skip.
    pub skip: u32,
    /// Bytes to take, at least one.
    pub take: u32,
}

/// Plans the bytes of a file from `range.start` up to but not including `range.end`: fills a lent table from its start, and answers
/// how many rows there are. They come in file order, one for each segment that shares at least one byte with the range; what is
/// taken for them, one after the other, is the stretch asked for. Rows of the table behind them stay as they were.
///
/// A table of as many rows as the file has segments is always long enough.
///
/// # Errors
///
/// The shard's refusal, 17 if it has no file of that number, 18 if the range has no byte or goes past the end of the file, 15 if
/// the table is too short; these three at position 0. Then no row has changed.
pub fn plan_into(
    tag: &[u8],
    shard: &[u8],
    file: FileNumber,
    range: Range<u64>,
    table: &mut [FetchRow],
) -> Result<usize, Refusal> {
    let answer = ffi::plan(tag, shard, file.0, range.start, range.end, table);
    match answer.number {
        0 => Ok(answer.rows as usize),
        number => Err(refusal(number, answer.at)),
    }
}

/// Plans the bytes of a file from `range.start` up to but not including `range.end`: the pieces to fetch, in file order. What is
/// taken for them, one after the other, is the stretch asked for.
///
/// ```
/// use melagbosun::{plan, ChunkIndex, FileNumber, Hash, Offer, Writer};
///
/// // A file of two segments: 100 bytes of one xorb, then 50 of another.
/// let tag = [7; 32];
/// let hash = |n| Hash([n, 0, 0, 0]);
/// let segment = |n, bytes| Offer::Segment {
///     hash: hash(n),
///     flags: 0,
///     bytes,
///     start: ChunkIndex(0),
///     end: ChunkIndex(2),
/// };
/// let mut writer = Writer::new(&tag);
/// let mut shard = vec![0; 288];
/// let mut at = 0;
/// for offer in [
///     Offer::Header { footer_size: 0 },
///     Offer::FileHead { hash: hash(1), flags: 0, entries: 2 },
///     segment(2, 100),
///     segment(3, 50),
///     Offer::SectionEnd,
///     Offer::SectionEnd,
/// ] {
///     at += writer.put(&offer, &mut shard[at..])?;
/// }
///
/// let rows = plan(&tag, &shard, FileNumber(0), 90..120)?;
/// assert_eq!((rows[0].xorb, rows[0].skip, rows[0].take), (hash(2), 90, 10));
/// assert_eq!((rows[1].xorb, rows[1].skip, rows[1].take), (hash(3), 0, 20));
/// assert_eq!(rows.len(), 2);
/// # Ok::<(), melagbosun::Refusal>(())
/// ```
///
/// The table that it makes has a row for each byte of the range or for each record of the shard, whichever is less, so that no
/// plan is too long for it.
///
/// # Errors
///
/// As [`plan_into`] says, but for 15.
pub fn plan(
    tag: &[u8],
    shard: &[u8],
    file: FileNumber,
    range: Range<u64>,
) -> Result<Vec<FetchRow>, Refusal> {
    let mut table = vec![FetchRow::default(); most_rows(shard, &range)];
    let rows = plan_into(tag, shard, file, range, &mut table)?;
    table.truncate(rows);
    Ok(table)
}

/// No plan has more rows: each takes a byte of the range, and its segment is a record of the shard.
fn most_rows(shard: &[u8], range: &Range<u64>) -> usize {
    let records = shard.len().min(LIMIT) / ENTRY_SIZE;
    let bytes = range.end.saturating_sub(range.start);
    records.min(usize::try_from(bytes).unwrap_or(records))
}
