//! Joining shards without footer: the files of all, then the xorbs of all, in the order of the shards, duplicates kept.

use crate::error::refusal;
use crate::{ffi, Offer, Refusal, Writer, LIMIT};
use std::borrow::Cow;

/// The length of a shard with nothing in it: a header and two section ends, which a joined shard has once.
const SMALLEST: usize = 144;

/// Joins two shards under one tag into a lent buffer, and answers the length of the joined one: the sum less 144. It stands at the
/// start of the buffer; no byte behind it changes.
///
/// # Errors
///
/// The first shard's refusal, the second's, 30 if one of them has a footer, 9 if both have files and only one's have
/// verifications, 6 if the joined shard would be longer than 16,777,216 bytes, 15 if the buffer is shorter than it; these four at
/// position 0. Then no byte has changed.
pub fn join_into(
    tag: &[u8],
    first: &[u8],
    second: &[u8],
    buffer: &mut [u8],
) -> Result<usize, Refusal> {
    let answer = ffi::join(tag, first, second, buffer);
    match answer.number {
        0 => Ok(answer.wrote as usize),
        number => Err(refusal(number, answer.at)),
    }
}

/// Joins shards, each behind those before it: two are joined, the third is joined to what they give, and so on. Where they are
/// accepted it makes no difference how they are grouped: the parts of a list, joined, and then what they give, are the whole list
/// joined. One shard gives itself, none the shard of 144 bytes.
///
/// ```
/// # let tag: Vec<u8> = (1..=32).collect();
/// let empty = melagbosun::join(&tag, &[])?;
/// assert_eq!(empty.len(), 144);
/// assert_eq!(melagbosun::join(&tag, &[&empty, &empty])?, empty);
/// # Ok::<(), melagbosun::Refusal>(())
/// ```
///
/// Each step judges and copies what the steps before it have joined, so a long list is joined faster in parts.
///
/// # Errors
///
/// That of the first step that is refused, as [`join_into`] says; 2 if the tag is not 32 bytes. One shard is joined with the one
/// of 144 bytes, so it gives 30 if it has a footer.
pub fn join(tag: &[u8], shards: &[&[u8]]) -> Result<Vec<u8>, Refusal> {
    let empty = smallest(tag)?;
    let (first, rest) = match *shards {
        [] => return Ok(empty),
        [only] => (only, &[&empty[..]][..]),
        [first, ref rest @ ..] => (first, rest),
    };
    let mut whole = Cow::Borrowed(first);
    for shard in rest {
        let sum = whole.len() + shard.len();
        let mut buffer = vec![0; sum.saturating_sub(SMALLEST).min(LIMIT)];
        let size = join_into(tag, &whole, shard, &mut buffer)?;
        buffer.truncate(size);
        whole = Cow::Owned(buffer);
    }
    Ok(whole.into_owned())
}

/// The shard with nothing in it.
fn smallest(tag: &[u8]) -> Result<Vec<u8>, Refusal> {
    let mut writer = Writer::new(tag);
    let mut shard = vec![0; SMALLEST];
    let header = Offer::Header { footer_size: 0 };
    let mut at = 0;
    for offer in [header, Offer::SectionEnd, Offer::SectionEnd] {
        at += writer.put(&offer, &mut shard[at..])?;
    }
    Ok(shard)
}
