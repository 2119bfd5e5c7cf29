//! Reading: both readers on the same bytes.

use crate::{alike, same, Checked};
use checks::cases::Case;
use checks::generate::Rng;
use checks::reader::{self as own, Record, Verdict};
use melagbosun::{Offer, Reader};

/// The records and the verdict of the independent reader.
pub fn independent(case: &Case) -> (Vec<Record>, Verdict) {
    let mut records = Vec::new();
    let verdict = own::walk(&case.tag, &case.shard, |record| records.push(*record));
    (records, verdict)
}

/// Both readers call by call, on the same pieces of random lengths: bytes taken, answer and verdict, a call after the last
/// byte included.
pub fn in_steps(case: &Case, rng: &mut Rng) -> Checked {
    let mut product = Reader::new(&case.tag);
    let mut other = own::Reader::new(&case.tag);
    let longest = rng.pick(&[1, 10, 60, 300, 5000]);
    let mut left = &case.shard[..];
    alike(
        "verdict at the start",
        same::verdict(product.verdict()),
        other.verdict(),
    )?;
    loop {
        let length = rng.below(longest + 1) as usize;
        let piece = &left[..length.min(left.len())];
        let fed = other.feed(piece);
        alike("a call", same::fed(product.step(piece)), fed)?;
        alike(
            "verdict after a call",
            same::verdict(product.verdict()),
            other.verdict(),
        )?;
        left = &left[fed.taken..];
        if left.is_empty() || matches!(fed.answer, own::Answer::Refused(_)) {
            break;
        }
    }
    for piece in [&[][..], left, &[0]] {
        alike(
            "a late call",
            same::fed(product.step(piece)),
            other.feed(piece),
        )?;
    }
    alike(
        "verdict at the end",
        same::verdict(product.verdict()),
        other.verdict(),
    )
}

/// The product on whole pieces of one random length, which may be that of the shard; its records, as offers.
pub fn in_tables(
    case: &Case,
    rng: &mut Rng,
    records: &[Record],
    verdict: Verdict,
) -> Result<Vec<Offer>, String> {
    let size = rng.pick(&[1, 47, 48, 49, 333, 4096, 10_000]);
    let mut product = Reader::new(&case.tag);
    let mut found = Vec::new();
    for piece in case.shard.chunks(size) {
        if let Err(refusal) = product.read(piece, |record| found.push(record)) {
            alike("refusal of a piece", Err(same::refusal(refusal)), verdict)?;
            break;
        }
    }
    let same: Vec<Record> = found.iter().map(|&one| same::record(one)).collect();
    alike("records", &same[..], records)?;
    alike(
        "verdict on pieces",
        same::verdict(product.verdict()),
        verdict,
    )?;
    Ok(found.into_iter().map(Offer::from).collect())
}

/// Judging and finding in the whole shard: a hash that is there, and one that may not be.
pub fn whole(case: &Case, rng: &mut Rng, records: &[Record], verdict: Verdict) -> Checked {
    let (tag, shard) = (&case.tag[..], &case.shard[..]);
    alike(
        "judge",
        same::verdict(melagbosun::judge(tag, shard)),
        verdict,
    )?;
    let hashes: Vec<own::Hash> = records.iter().filter_map(hash_of).collect();
    let mut sought = vec![rng.hash()];
    if !hashes.is_empty() {
        sought.push(rng.pick(&hashes));
    }
    for hash in sought {
        let chunk = melagbosun::find_chunk(tag, shard, melagbosun::Hash(hash));
        let chunk = chunk
            .map_err(same::refusal)
            .map(|found| found.map(same::chunk));
        alike("find_chunk", chunk, own::find_chunk(tag, shard, hash))?;
        let file = melagbosun::find_file(tag, shard, melagbosun::Hash(hash));
        let file = file
            .map_err(same::refusal)
            .map(|found| found.map(same::file));
        alike("find_file", file, own::find_file(tag, shard, hash))?;
    }
    Ok(())
}

/// The hash of a file head or a chunk.
fn hash_of(record: &Record) -> Option<own::Hash> {
    match record.fields {
        own::Fields::FileHead { hash, .. } | own::Fields::Chunk { hash, .. } => Some(hash),
        _ => None,
    }
}
