//! Planning a stretch of one file, written from the request T-01: the file's
//! segments are laid side by side, and each gives what the range has of it.

use crate::join::refuse_if;
use crate::reader::{walk, ChunkIndex, Fields, Hash, Refusal};

/// One piece to fetch.
#[derive(Clone, Copy, Debug, PartialEq, Eq)]
pub struct Row {
    /// The xorb hash.
    pub xorb: Hash,
    /// The first chunk.
    pub start: ChunkIndex,
    /// The chunk after the last.
    pub end: ChunkIndex,
    /// The bytes to skip in the segment.
    pub skip: u64,
    /// The bytes to take.
    pub take: u64,
}

/// A segment, and where its bytes lie in the file, `to` being the byte after
/// the last. A shard has less than 2^19 segments, so no sum passes 2^51.
struct Part {
    whole: Row,
    from: u64,
    to: u64,
}

impl Part {
    /// What the range has of it, if that is a byte or more.
    fn shared(&self, a: u64, b: u64) -> Option<Row> {
        let (from, to) = (self.from.max(a), self.to.min(b));
        (from < to).then(|| Row {
            skip: from - self.from,
            take: to - from,
            ..self.whole
        })
    }
}

/// Writes the pieces that hold the bytes of a file from `a` up to but not
/// including `b` to the start of `table`, in file order, and answers their
/// number. No other row changes, and none at all if it is refused.
pub fn plan(
    tag: &[u8],
    shard: &[u8],
    file: u32,
    a: u64,
    b: u64,
    table: &mut [Row],
) -> Result<usize, Refusal> {
    let files = take_apart(tag, shard)?;
    let parts = files.get(file as usize).ok_or(Refusal::new(17, 0))?;
    refuse_if(a >= b || b > total(parts), 18)?;
    let rows: Vec<Row> = parts.iter().filter_map(|part| part.shared(a, b)).collect();
    refuse_if(rows.len() > table.len(), 15)?;
    table[..rows.len()].copy_from_slice(&rows);
    Ok(rows.len())
}

/// The segments of each file side by side, or the shard's refusal.
fn take_apart(tag: &[u8], shard: &[u8]) -> Result<Vec<Vec<Part>>, Refusal> {
    let mut files: Vec<Vec<Part>> = Vec::new();
    walk(tag, shard, |record| match record.fields {
        Fields::FileHead { .. } => files.push(Vec::new()),
        Fields::Segment {
            hash: xorb,
            bytes,
            start,
            end,
        } => {
            let take = u64::from(bytes);
            let whole = Row {
                xorb,
                start,
                end,
                skip: 0,
                take,
            };
            let parts = files.last_mut().expect("a head comes before its segments");
            let from = total(parts);
            let to = from + take;
            parts.push(Part { whole, from, to });
        }
        _ => (),
    })?;
    Ok(files)
}

/// The bytes of these segments.
fn total(parts: &[Part]) -> u64 {
    parts.last().map_or(0, |part| part.to)
}
