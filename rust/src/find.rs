//! A whole shard in a buffer: judging it, and finding a hash in it.

use crate::error::{refusal, verdict};
use crate::{ffi, BlockNumber, ChunkIndex, FileNumber, Hash, Position, Refusal, Verdict};

/// Where a chunk stands.
#[derive(Clone, Copy, Debug, PartialEq, Eq)]
pub struct FoundChunk {
    /// The number of its xorb block.
    pub block: BlockNumber,
    /// Its index in the xorb.
    pub index: ChunkIndex,
    /// Where its record starts.
    pub position: Position,
}

/// Where a file stands.
#[derive(Clone, Copy, Debug, PartialEq, Eq)]
pub struct FoundFile {
    /// Its number.
    pub file: FileNumber,
    /// Where its head starts.
    pub position: Position,
}

/// Judges a whole shard.
///
/// # Errors
///
/// The refusal.
pub fn judge(tag: &[u8], shard: &[u8]) -> Verdict {
    verdict(ffi::judge(tag, shard))
}

/// The first chunk with this hash, or `None` if the shard has no such chunk.
///
/// # Errors
///
/// The refusal of a shard that is not accepted.
pub fn find_chunk(tag: &[u8], shard: &[u8], hash: Hash) -> Result<Option<FoundChunk>, Refusal> {
    let answer = ffi::find_chunk(tag, shard, ffi::Hash { hash: hash.0 });
    match answer.said {
        ffi::NOTHING => Ok(None),
        ffi::FOUND => Ok(Some(FoundChunk {
            block: BlockNumber(answer.block),
            index: ChunkIndex(answer.index),
            position: Position(answer.at),
        })),
        _ => Err(refusal(answer.number, answer.at)),
    }
}

/// The first file with this hash, or `None` if the shard has no such file.
///
/// # Errors
///
/// The refusal of a shard that is not accepted.
pub fn find_file(tag: &[u8], shard: &[u8], hash: Hash) -> Result<Option<FoundFile>, Refusal> {
    let answer = ffi::find_file(tag, shard, ffi::Hash { hash: hash.0 });
    match answer.said {
        ffi::NOTHING => Ok(None),
        ffi::FOUND => Ok(Some(FoundFile {
            file: FileNumber(answer.file),
            position: Position(answer.at),
        })),
        _ => Err(refusal(answer.number, answer.at)),
    }
}
