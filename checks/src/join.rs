//! Joining two shards into one, written from the request T-14: both are taken
//! apart into their records, and the result is built out of those.

use crate::generate::{lay_bookend, lay_header};
use crate::reader::{entry_at, walk, Fields, Refusal, LIMIT, WITH_VERIFICATION};

/// The records of an accepted shard, without header, bookends and footer.
#[derive(Default)]
struct Parts<'a> {
    files: Vec<&'a [u8]>,
    xorbs: Vec<&'a [u8]>,
    verified: Option<bool>,
    footer: bool,
}

/// Writes the first shard's files, then the second's, and the same for xorbs,
/// to the start of `out`, and answers the length. No other byte changes, and
/// none at all if it is refused.
pub fn join(tag: &[u8], first: &[u8], second: &[u8], out: &mut [u8]) -> Result<usize, Refusal> {
    let first = take_apart(tag, first)?;
    let second = take_apart(tag, second)?;
    refuse_if(first.footer || second.footer, 30)?;
    refuse_if(differ(&first, &second), 9)?;
    let joined = build(tag, &first, &second);
    refuse_if(joined.len() as u64 > LIMIT, 6)?;
    refuse_if(joined.len() > out.len(), 15)?;
    out[..joined.len()].copy_from_slice(&joined);
    Ok(joined.len())
}

/// The records of a shard, or its refusal.
fn take_apart<'a>(tag: &[u8], shard: &'a [u8]) -> Result<Parts<'a>, Refusal> {
    let mut parts = Parts::default();
    let sums = walk(tag, shard, |record| {
        let bytes = entry_at(shard, record.position);
        match record.fields {
            Fields::FileHead { flags, .. } => {
                parts.verified = Some(flags & WITH_VERIFICATION != 0);
                parts.files.push(bytes);
            }
            Fields::Segment { .. } | Fields::Verification { .. } | Fields::Metadata { .. } => {
                parts.files.push(bytes);
            }
            Fields::XorbHead { .. } | Fields::Chunk { .. } => parts.xorbs.push(bytes),
            Fields::Header { .. } | Fields::Bookend | Fields::Footer { .. } => (),
        }
    })?;
    parts.footer = sums.footer;
    Ok(parts)
}

/// Whether both have files, and those differ about bit 31.
fn differ(first: &Parts, second: &Parts) -> bool {
    match (first.verified, second.verified) {
        (Some(one), Some(other)) => one != other,
        _ => false,
    }
}

/// Header, files, bookend, xorbs, bookend.
fn build(tag: &[u8], first: &Parts, second: &Parts) -> Vec<u8> {
    let mut joined = lay_header(tag, false).bytes;
    joined.extend([&first.files[..], &second.files].concat().concat());
    joined.extend(lay_bookend().bytes);
    joined.extend([&first.xorbs[..], &second.xorbs].concat().concat());
    joined.extend(lay_bookend().bytes);
    joined
}

/// These refusals are at position 0.
pub(crate) fn refuse_if(ground: bool, number: u8) -> Result<(), Refusal> {
    if ground {
        Err(Refusal::new(number, 0))
    } else {
        Ok(())
    }
}
