//! Auditing a shard's segments against its own xorbs, written from the request
//! T-09: each segment is held against the first block of the hash it names.

use crate::reader::{walk, ChunkIndex, Fields, Hash, Position, Refusal};

/// What an audit counts.
#[derive(Clone, Copy, Debug, Default, PartialEq, Eq)]
pub struct Audited {
    /// The segments that name a xorb the shard lists; all are true.
    pub listed: u64,
    /// The segments that name another one.
    pub unlisted: u64,
}

/// A xorb block: its hash, and the lengths of its chunks.
struct Block {
    hash: Hash,
    lengths: Vec<u32>,
}

/// A segment, and where it starts.
struct Segment {
    hash: Hash,
    bytes: u32,
    start: ChunkIndex,
    end: ChunkIndex,
    position: Position,
}

impl Segment {
    /// Whether the block has all these chunks, and they have these bytes.
    fn is_true_of(&self, block: &Block) -> bool {
        let chunks = self.start.0 as usize..self.end.0 as usize;
        let sum = |lengths: &[u32]| lengths.iter().map(|&length| u64::from(length)).sum();
        block.lengths.get(chunks).map(sum) == Some(u64::from(self.bytes))
    }
}

/// Counts the segments that name a listed xorb and those that don't; a false
/// one is 22 at its position, the first of them deciding. A refused shard
/// gives its refusal.
pub fn audit(tag: &[u8], shard: &[u8]) -> Result<Audited, Refusal> {
    let (segments, blocks) = take_apart(tag, shard)?;
    let mut audited = Audited::default();
    for segment in segments {
        let mut blocks = blocks.iter();
        match blocks.find(|block| block.hash == segment.hash) {
            None => audited.unlisted += 1,
            Some(block) if segment.is_true_of(block) => audited.listed += 1,
            Some(_) => return Err(Refusal::new(22, segment.position.0)),
        }
    }
    Ok(audited)
}

/// The segments and the blocks of a shard, or its refusal.
fn take_apart(tag: &[u8], shard: &[u8]) -> Result<(Vec<Segment>, Vec<Block>), Refusal> {
    let (mut segments, mut blocks) = (Vec::new(), Vec::<Block>::new());
    walk(tag, shard, |record| match record.fields {
        Fields::Segment {
            hash,
            bytes,
            start,
            end,
        } => segments.push(Segment {
            hash,
            bytes,
            start,
            end,
            position: record.position,
        }),
        Fields::XorbHead { hash, .. } => {
            let lengths = Vec::new();
            blocks.push(Block { hash, lengths });
        }
        Fields::Chunk { bytes, .. } => {
            let block = blocks.last_mut().expect("a head comes before its chunks");
            block.lengths.push(bytes);
        }
        _ => (),
    })?;
    Ok((segments, blocks))
}
