//! The segments of a shard against the xorbs that it lists: a verdict apart from the reader's.

use crate::error::refusal;
use crate::{ffi, Refusal};

/// How many segments of a shard name a xorb that it lists, and how many name another.
#[derive(Clone, Copy, Debug, Default, PartialEq, Eq)]
pub struct Audited {
    /// The listed segments: those that name a xorb which the shard lists. All of them are true.
    pub listed: u64,
    /// The unlisted segments: those that name another xorb. Nothing in the shard tells whether they are true.
    pub unlisted: u64,
}

/// Audits a shard: holds each segment against the xorb that it names, if the shard lists that xorb. The segment is true if its
/// chunk end does not pass the xorb's chunk count and its unpacked bytes are the sum of its chunks' lengths, else false. Of several
/// blocks with the xorb's hash the first is taken.
///
/// ```
/// use melagbosun::{audit, judge, Audited, ChunkIndex, Hash, Offer, Position, Writer};
///
/// // A file of both chunks of xorb 2, which the shard lists, and of one of xorb 3, which it doesn't.
/// let tag = [7; 32];
/// let hash = |n| Hash([n, 0, 0, 0]);
/// let segment = |n, bytes, end| Offer::Segment {
///     hash: hash(n),
///     flags: 0,
///     bytes,
///     start: ChunkIndex(0),
///     end: ChunkIndex(end),
/// };
/// let mut writer = Writer::new(&tag);
/// let mut shard = vec![0; 432];
/// let mut at = 0;
/// for offer in [
///     Offer::Header { footer_size: 0 },
///     Offer::FileHead { hash: hash(1), flags: 0, entries: 2 },
///     segment(2, 30, 2),
///     segment(3, 7, 1),
///     Offer::SectionEnd,
///     Offer::XorbHead { hash: hash(2), flags: 0, entries: 2, bytes: 30, on_disk: 30 },
///     Offer::Chunk { hash: hash(4), start: 0, bytes: 10 },
///     Offer::Chunk { hash: hash(5), start: 10, bytes: 20 },
///     Offer::SectionEnd,
/// ] {
///     at += writer.put(&offer, &mut shard[at..])?;
/// }
/// assert_eq!(audit(&tag, &shard)?, Audited { listed: 1, unlisted: 1 });
///
/// // The same, but the first segment says 31 bytes.
/// shard[96 + 36] = 31;
/// let refusal = audit(&tag, &shard).unwrap_err();
/// assert_eq!((refusal.number, refusal.position), (22, Position(96)));
/// assert!(judge(&tag, &shard).is_ok());
/// # Ok::<(), melagbosun::Refusal>(())
/// ```
///
/// [`judge`](crate::judge) and [`Reader`](crate::Reader) don't ask whether segments are true.
///
/// # Time
///
/// A shard has no table of its xorbs, so the heads of the xorb blocks are gone through for each segment: at worst, the time grows
/// with the number of segments times the number of blocks. On an Arm machine, compiled by an older kit, a full shard of 1,000 xorbs
/// and 100,000 listed segments took 0.4 s, and the worst, as many empty xorbs as unlisted segments up to the limit, 2 minutes.
///
/// # Errors
///
/// The shard's refusal, or 22 where the first false segment starts.
pub fn audit(tag: &[u8], shard: &[u8]) -> Result<Audited, Refusal> {
    let answer = ffi::audit(tag, shard);
    match answer.number {
        0 => Ok(Audited {
            listed: answer.listed,
            unlisted: answer.unlisted,
        }),
        number => Err(refusal(number, answer.at)),
    }
}
