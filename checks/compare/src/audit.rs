//! Auditing: both audits of the same shards, and what is known of every answer.

use crate::sights::{Sights, SOME};
use crate::{alike, hex, same, shown, Checked};
use checks::audit::{audit, Audited};
use checks::cases::Case;
use checks::generate::{FilePlan, Rng, SegmentPlan};
use checks::naming::{Naming, LARGE_ONES};
use checks::reader::{judge, Refusal, Verdict, ALL_ONES, LIMIT};
use checks::segments::{Sort, Truth};

/// The counts, or the refusal.
type Answer = Result<Audited, Refusal>;

/// A part of the count of inputs, and large ones unless there are few.
pub fn compare(inputs: u64, seed: u64, seen: &mut Sights) -> Checked {
    let mut rng = Rng::new(seed);
    for number in 0..inputs / 10 {
        let naming = Naming::random(&mut rng, number);
        let checked = check(&naming, seen);
        checked.map_err(|difference| tell("audit", number, seed, &naming, difference))?;
    }
    let large = if inputs >= SOME { LARGE_ONES } else { 0 };
    for number in 0..large {
        let naming = Naming::large(&mut rng, number);
        let checked = check(&naming, seen);
        checked.map_err(|difference| tell("large audit", number, seed, &naming, difference))?;
    }
    Ok(())
}

/// A difference, and all that it takes to see it again.
fn tell(what: &str, number: u64, seed: u64, naming: &Naming, difference: String) -> String {
    let (tag, shard) = (hex(&naming.known.tag), shown(&naming.known.shard));
    format!("{what} {number} of seed {seed}: {difference}\n  tag:   {tag}\n  shard: {shard}")
}

/// Both audits of the same bytes.
fn both(tag: &[u8], shard: &[u8]) -> Result<Answer, String> {
    let answer = audit(tag, shard);
    let product = melagbosun::audit(tag, shard);
    let product = product.map(same::audited).map_err(same::refusal);
    alike("an audit", product, answer)?;
    Ok(answer)
}

/// Both audits of any input: its refusal, or as many segments as it has unless one is false.
pub fn any(case: &Case, verdict: Verdict) -> Checked {
    let answer = both(&case.tag, &case.shard)?;
    match (answer, verdict) {
        (Ok(sums), Ok(all)) => alike("the segments", sums.listed + sums.unlisted, all.segments),
        (Err(refusal), Ok(_)) => alike("the number of an audit", refusal.number, 22),
        (_, Err(refusal)) => alike("the refusal of an audit", answer, Err(refusal)),
    }
}

/// Both audits, what is known beforehand, and that the product judges the shard as if none had been audited.
fn check(naming: &Naming, seen: &mut Sights) -> Checked {
    let known = &naming.known;
    let (tag, shard) = (&known.tag, &known.shard);
    let answer = both(tag, shard)?;
    alike("what is known of an audit", answer, naming.answer())?;
    let verdict = same::verdict(melagbosun::judge(tag, shard));
    alike("judging an audited shard", verdict, judge(tag, shard))?;
    alike("refusing an audited shard", verdict.err(), known.refusal)?;
    seen.saw("audits");
    seen.saw_if(shard.len() as u64 + 48 > LIMIT, "the longest shard");
    match answer {
        Ok(sums) => note_counted(naming, sums, seen),
        Err(_) if known.refusal.is_some() => {
            seen.saw("refused by the shard");
            let false_one = !naming.false_ones().is_empty();
            seen.saw_if(false_one, "false all the same");
        }
        Err(_) => note_false(naming, seen),
    }
    Ok(())
}

/// The segments of a shard in their order.
fn segments(naming: &Naming) -> Vec<&SegmentPlan> {
    let files = naming.known.laid.files.iter();
    files.flat_map(|file| &file.segments).collect()
}

fn note_counted(naming: &Naming, sums: Audited, seen: &mut Sights) {
    seen.saw("audits counted");
    seen.saw(match (sums.listed, sums.unlisted) {
        (0, 0) => "no segment",
        (_, 0) => "listed only",
        (0, _) => "unlisted only",
        _ => "listed and unlisted",
    });
    for (sort, name) in GOOD {
        seen.saw_if(naming.sorts.contains(&sort), name);
    }
    let segments = segments(naming);
    let mut pairs = segments.iter().zip(&naming.sorts);
    let most = pairs.any(|(one, sort)| one.bytes == u32::MAX && sort.truth() == Truth::True);
    seen.saw_if(most, "true of u32::MAX bytes");
    let ones = segments.iter().any(|one| one.hash == ALL_ONES);
    seen.saw_if(ones, "a hash of all ones");
    let laid = &naming.known.laid;
    let any = |holds: fn(&FilePlan) -> bool| laid.files.iter().any(holds);
    seen.saw_if(any(|file| file.verified), "with verifications");
    seen.saw_if(any(|file| file.metadata.is_some()), "with metadata");
    seen.saw_if(
        any(|file| file.segments.is_empty()),
        "a file without segments",
    );
    seen.saw_if(laid.footer.is_some(), "with a footer");
}

/// The sorts that are not false, and their names.
const GOOD: [(Sort, &str); 8] = [
    (Sort::Plain, "true of some chunks"),
    (Sort::ToTheEnd, "true, ends at the count"),
    (Sort::NoBytes, "true of 0 bytes"),
    (Sort::OnlyFirst, "true of the first only"),
    (Sort::NearHash, "one number of the hash"),
    (Sort::FileHash, "a file's hash"),
    (Sort::ChunkHash, "a chunk's hash"),
    (Sort::OtherHash, "any other hash"),
];

fn note_false(naming: &Naming, seen: &mut Sights) {
    let places = naming.false_ones();
    let first = places[0];
    let segment = segments(naming)[first];
    let laid = &naming.known.laid;
    seen.saw("refused 22");
    seen.saw(ground(naming.sorts[first]));
    seen.saw(match first {
        0 => "22 at the first segment",
        _ => "22 at a later segment",
    });
    let later = first >= laid.files[0].segments.len();
    seen.saw_if(later, "22 in a later file");
    seen.saw_if(places.len() > 1, "more than one false");
    let before = &naming.sorts[..first];
    let listed = before.iter().any(|sort| sort.truth() == Truth::True);
    seen.saw_if(listed, "22 behind a true one");
    let block = laid.xorbs.iter().find(|xorb| xorb.hash == segment.hash);
    let bare = block.is_some_and(|xorb| xorb.chunks.is_empty());
    seen.saw_if(bare, "22 of no chunks");
    seen.saw_if(segment.end == u32::MAX, "22, an end of u32::MAX");
}

/// What is false of a segment of this sort.
fn ground(sort: Sort) -> &'static str {
    match sort {
        Sort::EndOnePast => "22, an end one past",
        Sort::EndFar => "22, an end farther past",
        Sort::StartPast => "22, a start past",
        Sort::OneMore => "22, one byte more",
        Sort::OneLess => "22, one byte less",
        Sort::NoFirst => "22, no first chunk",
        Sort::NoLast => "22, no last chunk",
        Sort::NextToo => "22, the next chunk too",
        Sort::FromZero => "22, from the start",
        Sort::WholeXorb => "22, the whole xorb",
        Sort::MostBytes => "22, u32::MAX bytes",
        Sort::AnyBytes => "22, any other bytes",
        _ => "22, true of a later one",
    }
}
