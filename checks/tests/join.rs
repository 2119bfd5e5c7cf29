//! Joining two shards: examples made by hand, each refusal at its position
//! and in its order, and what the request says of every join.

use checks::generate::{
    flatten, lay_bookend, lay_header, usual_tag, FilePlan, FooterPlan, Laid, Rng, ShardPlan, Size,
};
use checks::join::join;
use checks::reader::{
    judge, walk, Fields, Kind, Refusal, Summary, LIMIT, WITH_METADATA, WITH_VERIFICATION,
};

/// What a byte of the buffer has before.
const BEFORE: u8 = 0xA5;

/// A footer for the shards that must not have one.
const FOOTER: FooterPlan = FooterPlan {
    key: [1; 4],
    created: 2,
    expiry: 3,
};

fn shard(files: &[Laid], xorbs: &[Laid]) -> Vec<u8> {
    let header = [lay_header(&usual_tag(), false)];
    let end = [lay_bookend()];
    flatten(&[&header, files, &end, xorbs, &end].concat())
}

/// A file of one segment, with its verification if there are any.
fn file(hash: u64, verified: bool) -> Vec<Laid> {
    let flags = if verified { WITH_VERIFICATION } else { 0 };
    let mut block = vec![
        Laid::entry(Kind::FileHead, [hash; 4], [flags, 1, 0, 0]),
        Laid::entry(Kind::Segment, [hash + 1; 4], [0, 7, 5, 6]),
    ];
    if verified {
        block.push(Laid::entry(Kind::Verification, [hash + 2; 4], [0; 4]));
    }
    block
}

/// A file of no segments, with metadata.
fn named(hash: u64) -> Vec<Laid> {
    let head = Laid::entry(Kind::FileHead, [hash; 4], [WITH_METADATA, 0, 0, 0]);
    vec![head, Laid::entry(Kind::Metadata, [hash + 1; 4], [0; 4])]
}

/// A xorb of two chunks, of 10 and 20 bytes.
fn xorb(hash: u64) -> Vec<Laid> {
    vec![
        Laid::entry(Kind::XorbHead, [hash; 4], [0, 2, 30, 9]),
        Laid::entry(Kind::Chunk, [hash + 1; 4], [0, 10, 0, 0]),
        Laid::entry(Kind::Chunk, [hash + 2; 4], [10, 20, 0, 0]),
    ]
}

/// A xorb without chunks.
fn bare(hash: u64) -> Vec<Laid> {
    vec![Laid::entry(Kind::XorbHead, [hash; 4], [0, 0, 0, 9])]
}

/// The 144-byte shard.
fn empty() -> Vec<u8> {
    shard(&[], &[])
}

/// A shard with these files and a footer.
fn footed_with(files: Vec<FilePlan>) -> Vec<u8> {
    let plan = ShardPlan {
        files,
        footer: Some(FOOTER),
        ..ShardPlan::default()
    };
    flatten(&plan.lay(&usual_tag()))
}

/// The 144-byte shard with a footer.
fn footed() -> Vec<u8> {
    footed_with(Vec::new())
}

/// An empty file with bit 31, and a footer.
fn verified_and_footed() -> Vec<u8> {
    footed_with(vec![FilePlan {
        hash: [1; 4],
        verified: true,
        segments: Vec::new(),
        metadata: None,
    }])
}

/// A shard of so many records, all of them xorb heads but three.
fn long(records: usize) -> Vec<u8> {
    shard(&[], &vec![bare(1)[0].clone(); records - 3])
}

/// The same of file heads.
fn long_of_files(records: usize, flags: u32) -> Vec<u8> {
    let head = Laid::entry(Kind::FileHead, [1; 4], [flags, 0, 0, 0]);
    shard(&vec![head; records - 3], &[])
}

/// Both joined, with room enough.
fn joined(first: &[u8], second: &[u8]) -> Result<Vec<u8>, Refusal> {
    let mut out = vec![BEFORE; first.len() + second.len()];
    let length = join(&usual_tag(), first, second, &mut out)?;
    assert!(out[length..].iter().all(|&byte| byte == BEFORE));
    out.truncate(length);
    Ok(out)
}

/// Refused so with this much room, and no byte changes.
fn refused_into(room: usize, first: &[u8], second: &[u8], number: u8, position: u64) {
    let mut out = vec![BEFORE; room];
    let wanted = Err(Refusal::new(number, position));
    assert_eq!(join(&usual_tag(), first, second, &mut out), wanted);
    assert!(out.iter().all(|&byte| byte == BEFORE));
}

/// Refused so with room enough and with none.
fn refused(first: &[u8], second: &[u8], number: u8, position: u64) {
    refused_into(first.len() + second.len(), first, second, number, position);
    refused_into(0, first, second, number, position);
}

#[test]
fn files_then_xorbs() {
    let first = shard(&file(1, false), &xorb(10));
    let second = shard(&named(20), &[bare(30), xorb(40)].concat());
    let wanted = shard(
        &[
            Laid::entry(Kind::FileHead, [1; 4], [0, 1, 0, 0]),
            Laid::entry(Kind::Segment, [2; 4], [0, 7, 5, 6]),
            Laid::entry(Kind::FileHead, [20; 4], [WITH_METADATA, 0, 0, 0]),
            Laid::entry(Kind::Metadata, [21; 4], [0; 4]),
        ],
        &[
            Laid::entry(Kind::XorbHead, [10; 4], [0, 2, 30, 9]),
            Laid::entry(Kind::Chunk, [11; 4], [0, 10, 0, 0]),
            Laid::entry(Kind::Chunk, [12; 4], [10, 20, 0, 0]),
            Laid::entry(Kind::XorbHead, [30; 4], [0, 0, 0, 9]),
            Laid::entry(Kind::XorbHead, [40; 4], [0, 2, 30, 9]),
            Laid::entry(Kind::Chunk, [41; 4], [0, 10, 0, 0]),
            Laid::entry(Kind::Chunk, [42; 4], [10, 20, 0, 0]),
        ],
    );
    assert_eq!((first.len(), second.len(), wanted.len()), (384, 432, 672));
    assert_eq!(joined(&first, &second), Ok(wanted));
}

#[test]
fn the_second_goes_after_the_first() {
    let first = shard(&file(1, true), &bare(10));
    let second = shard(&file(20, true), &bare(30));
    let files = [file(1, true), file(20, true)].concat();
    let xorbs = [bare(10), bare(30)].concat();
    assert_eq!(joined(&first, &second), Ok(shard(&files, &xorbs)));
    let files = [file(20, true), file(1, true)].concat();
    let xorbs = [bare(30), bare(10)].concat();
    assert_eq!(joined(&second, &first), Ok(shard(&files, &xorbs)));
}

#[test]
fn duplicates_are_kept() {
    let one = shard(&file(1, true), &xorb(10));
    let files = [file(1, true), file(1, true)].concat();
    let wanted = shard(&files, &[xorb(10), xorb(10)].concat());
    assert_eq!(joined(&one, &one), Ok(wanted));
}

#[test]
fn the_empty_shard_changes_nothing() {
    let some = [
        empty(),
        shard(&file(1, true), &[]),
        shard(&file(1, false), &xorb(10)),
        shard(&[], &bare(10)),
    ];
    for one in some {
        assert_eq!(joined(&one, &empty()), Ok(one.clone()));
        assert_eq!(joined(&empty(), &one), Ok(one));
    }
}

#[test]
fn exact_room_and_less() {
    let first = shard(&named(1), &[]);
    let second = shard(&[], &bare(10));
    let wanted = shard(&named(1), &bare(10));
    let mut out = vec![BEFORE; 288];
    assert_eq!(join(&usual_tag(), &first, &second, &mut out), Ok(288));
    assert_eq!(out, wanted);
    for room in [287, 144, 48, 1, 0] {
        refused_into(room, &first, &second, 15, 0);
    }
}

#[test]
fn no_byte_past_the_result() {
    let mut out = vec![BEFORE; 200];
    let answer = join(&usual_tag(), &empty(), &empty(), &mut out);
    assert_eq!(answer, Ok(144));
    assert_eq!(out[..144], empty());
    assert_eq!(out[144..], [BEFORE; 56]);
}

#[test]
fn each_shard_gives_its_refusal() {
    let good = shard(&file(1, false), &xorb(10));
    let longer = [&empty()[..], &[0]].concat();
    let mixed = shard(&[file(1, true), file(5, false)].concat(), &[]);
    for (bad, number, position) in [(&[][..], 1, 0), (&longer, 14, 144), (&mixed, 9, 192)] {
        refused(bad, &good, number, position);
        refused(&good, bad, number, position);
    }
    refused(&good[..100], &good, 1, 96);
    refused(&good, &good[..383], 1, 336);
}

#[test]
fn the_tag_serves_both() {
    let other = flatten(&ShardPlan::default().lay(&[9; 32]));
    refused(&other, &empty(), 3, 0);
    refused(&empty(), &other, 3, 0);
    assert_eq!(join(&[9; 32], &other, &other, &mut [0; 144]), Ok(144));
    for length in [0, 31, 33] {
        let answer = join(&vec![9; length], &other, &other, &mut [0; 144]);
        assert_eq!(answer, Err(Refusal::new(2, 0)));
    }
}

#[test]
fn a_footer_on_either_side() {
    let plain = shard(&file(1, false), &[]);
    refused(&footed(), &plain, 30, 0);
    refused(&plain, &footed(), 30, 0);
    refused(&footed(), &footed(), 30, 0);
}

#[test]
fn files_that_differ() {
    let with = shard(&file(1, true), &xorb(10));
    let without = shard(&file(1, false), &xorb(10));
    refused(&with, &without, 9, 0);
    refused(&without, &with, 9, 0);
    let none = shard(&[], &xorb(20));
    for one in [with, without] {
        assert!(joined(&one, &none).is_ok());
        assert!(joined(&none, &one).is_ok());
    }
}

/// 349,525 records are 16,777,200 bytes; one more does not fit.
#[test]
fn the_limit() {
    let half = long(174_764);
    let both = joined(&half, &half).expect("all that fits");
    assert_eq!(both, long(349_525));
    assert!(both.len() as u64 + 48 > LIMIT);
    refused_into(both.len() - 1, &half, &half, 15, 0);
    refused(&half, &long(174_765), 6, 0);
    refused(&long(174_765), &half, 6, 0);
    assert_eq!(joined(&both, &empty()), Ok(both.clone()));
    refused(&both, &long(4), 6, 0);
    refused(&long(4), &both, 6, 0);
}

/// The shards' own refusals come before all others, the first's before the
/// second's.
#[test]
fn shards_refuse_before_the_rest() {
    let cut = &empty()[..143];
    let longer = [&empty()[..], &[0]].concat();
    refused(cut, &longer, 1, 96);
    refused(&longer, cut, 14, 144);
    refused(&footed(), cut, 1, 96);
    refused(cut, &footed(), 1, 96);
    let late = [&shard(&file(1, true), &[])[..], &[0]].concat();
    refused(&shard(&file(1, false), &[]), &late, 14, 288);
}

/// Among the last four: 30, 9, 6 and 15; [`refused`] also lends no room.
#[test]
fn the_order_of_the_last_four() {
    let without = shard(&file(1, false), &[]);
    refused(&verified_and_footed(), &without, 30, 0);
    refused(&without, &verified_and_footed(), 30, 0);
    refused(&footed(), &long(349_525), 30, 0);
    let with = long_of_files(174_764, WITH_VERIFICATION);
    refused(&with, &long_of_files(174_765, 0), 9, 0);
    refused(&with, &long_of_files(174_765, WITH_VERIFICATION), 6, 0);
}

#[test]
fn three_both_ways() {
    let three = [
        shard(&file(1, true), &xorb(10)),
        shard(&[], &xorb(20)),
        shard(&file(4, true), &bare(30)),
    ];
    let files = [file(1, true), file(4, true)].concat();
    let xorbs = [xorb(10), xorb(20), bare(30)].concat();
    let [left, right] = groupings(&three);
    assert_eq!(left, Ok(shard(&files, &xorbs)));
    assert_eq!(right, left);
}

/// The ends differ about bit 31, which no shard between hides.
#[test]
fn three_refused_both_ways() {
    let (with, without) = (shard(&file(1, true), &[]), shard(&file(1, false), &[]));
    let wanted = Err(Refusal::new(9, 0));
    for middle in [&empty(), &with, &without] {
        let three = [with.clone(), middle.clone(), without.clone()];
        assert_eq!(groupings(&three), [wanted.clone(), wanted.clone()]);
    }
}

/// The first two joined and then the third, and the last two first.
fn groupings([a, b, c]: &[Vec<u8>; 3]) -> [Result<Vec<u8>, Refusal>; 2] {
    let left = joined(a, b).and_then(|both| joined(&both, c));
    let right = joined(b, c).and_then(|both| joined(a, &both));
    [left, right]
}

/// A random plan without a footer, its files with this choice of bit 31.
fn plain(rng: &mut Rng, verified: bool) -> ShardPlan {
    let mut plan = ShardPlan::random(rng, Size::SMALL);
    let files = plan.files.iter_mut();
    files.for_each(|file| file.verified = verified);
    plan.footer = None;
    plan
}

/// The fields of the file records and of the xorb records.
fn lists(shard: &[u8]) -> [Vec<Fields>; 2] {
    let (mut lists, mut place) = ([Vec::new(), Vec::new()], 0);
    let verdict = walk(&usual_tag(), shard, |record| match record.kind {
        Kind::Header => (),
        Kind::Bookend => place += 1,
        _ => lists[place].push(record.fields),
    });
    assert!(verdict.is_ok());
    lists
}

fn sums(first: Summary, second: Summary) -> Summary {
    Summary {
        length: first.length + second.length - 144,
        files: first.files + second.files,
        segments: first.segments + second.segments,
        xorbs: first.xorbs + second.xorbs,
        chunks: first.chunks + second.chunks,
        bytes: first.bytes + second.bytes,
        footer: false,
    }
}

/// Positions aside, the records of the result are the two lists joined, its
/// totals are the sums, and its bytes those of a plan with all the blocks.
#[test]
fn lists_and_sums_of_random_shards() {
    let mut rng = Rng::new(14);
    for _ in 0..2_000 {
        let verified = rng.once_in(2);
        let mut first = plain(&mut rng, verified);
        let second = plain(&mut rng, verified);
        let [one, other] = [&first, &second].map(|plan| flatten(&plan.lay(&usual_tag())));
        let both = joined(&one, &other).expect("two good shards");
        let [files, xorbs] = lists(&one);
        let [more_files, more_xorbs] = lists(&other);
        let wanted = [[files, more_files].concat(), [xorbs, more_xorbs].concat()];
        assert_eq!(lists(&both), wanted);
        let wanted = sums(first.summary(), second.summary());
        assert_eq!(judge(&usual_tag(), &both), Ok(wanted));
        first.files.extend(second.files);
        first.xorbs.extend(second.xorbs);
        assert_eq!(both, flatten(&first.lay(&usual_tag())));
    }
}

/// Three shards that may differ or have a footer: both groupings are accepted
/// with the same bytes, or both are refused.
#[test]
fn random_threes_both_ways() {
    let mut rng = Rng::new(15);
    let mut accepted = 0;
    for _ in 0..2_000 {
        let three = [(); 3].map(|()| {
            let verified = rng.once_in(4);
            let mut plan = plain(&mut rng, verified);
            plan.footer = rng.once_in(12).then_some(FOOTER);
            flatten(&plan.lay(&usual_tag()))
        });
        let [left, right] = groupings(&three);
        assert_eq!(left.is_ok(), right.is_ok());
        if left.is_ok() {
            assert_eq!(left, right);
            accepted += 1;
        }
    }
    assert!((500..1_500).contains(&accepted));
}
