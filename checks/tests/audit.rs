//! Auditing segments against the shard's own xorbs: examples made by hand, and
//! every segment of every small xorb.

use checks::audit::{audit, Audited};
use checks::generate::{
    flatten, usual_tag, FilePlan, FooterPlan, Rng, SegmentPlan, ShardPlan, XorbPlan, LONGEST,
};
use checks::naming::Naming;
use checks::reader::{judge, Hash, Refusal, ALL_ONES};

const MOST: u32 = u32::MAX;

/// Of this xorb the chunks from start to end, with so many bytes.
fn segment(hash: Hash, [start, end]: [u32; 2], bytes: u32) -> SegmentPlan {
    SegmentPlan {
        hash,
        bytes,
        start,
        end,
        verification: [8; 4],
    }
}

/// The same of xorb 1.
fn of_one(range: [u32; 2], bytes: u32) -> SegmentPlan {
    segment([1; 4], range, bytes)
}

/// The same of a xorb that no shard here lists.
fn of_none(range: [u32; 2], bytes: u32) -> SegmentPlan {
    segment([6; 4], range, bytes)
}

fn file(segments: &[SegmentPlan]) -> FilePlan {
    FilePlan {
        hash: [7; 4],
        verified: false,
        segments: segments.to_vec(),
        metadata: None,
    }
}

/// The same with verifications and metadata.
fn verified(segments: &[SegmentPlan]) -> FilePlan {
    FilePlan {
        verified: true,
        metadata: Some([9; 4]),
        ..file(segments)
    }
}

/// A xorb with chunks of these lengths.
fn xorb(hash: Hash, lengths: &[u32]) -> XorbPlan {
    XorbPlan {
        hash,
        on_disk: 5,
        chunks: lengths.iter().map(|&length| ([4; 4], length)).collect(),
    }
}

/// Xorb 1 with three chunks, 60 bytes in all.
fn three() -> XorbPlan {
    xorb([1; 4], &[10, 20, 30])
}

fn shard(files: &[FilePlan], xorbs: &[XorbPlan]) -> Vec<u8> {
    let plan = ShardPlan {
        files: files.to_vec(),
        xorbs: xorbs.to_vec(),
        footer: None,
    };
    flatten(&plan.lay(&usual_tag()))
}

/// Listed and unlisted segments of an accepted shard.
fn counted(shard: &[u8], listed: u64, unlisted: u64) {
    let wanted = Audited { listed, unlisted };
    assert_eq!(audit(&usual_tag(), shard), Ok(wanted));
    assert!(judge(&usual_tag(), shard).is_ok());
}

/// A false segment starts there; the shard is accepted all the same.
fn false_at(shard: &[u8], position: u64) {
    refused(shard, 22, position);
    assert!(judge(&usual_tag(), shard).is_ok());
}

fn refused(shard: &[u8], number: u8, position: u64) {
    let wanted = Refusal::new(number, position);
    assert_eq!(audit(&usual_tag(), shard), Err(wanted));
}

/// A shard with this one segment, at 96.
fn only(segment: SegmentPlan, xorbs: &[XorbPlan]) -> Vec<u8> {
    shard(&[file(&[segment])], xorbs)
}

#[test]
fn true_of_some_chunks() {
    let sums = [
        ([0, 1], 10),
        ([1, 2], 20),
        ([2, 3], 30),
        ([0, 2], 30),
        ([1, 3], 50),
        ([0, 3], 60),
    ];
    for (range, bytes) in sums {
        counted(&only(of_one(range, bytes), &[three()]), 1, 0);
    }
    let all = sums.map(|(range, bytes)| of_one(range, bytes));
    counted(&shard(&[file(&all)], &[three()]), 6, 0);
    counted(&shard(&[file(&all), file(&all)], &[three()]), 12, 0);
}

/// The end may be the count, and no more, whatever the bytes.
#[test]
fn the_end_and_the_count() {
    counted(&only(of_one([0, 3], 60), &[three()]), 1, 0);
    counted(&only(of_one([2, 3], 30), &[three()]), 1, 0);
    for start in 0..4 {
        for bytes in [0, 10, 20, 30, 50, 60, MOST] {
            false_at(&only(of_one([start, 4], bytes), &[three()]), 96);
        }
    }
    for end in [5, 259, 65_539, 1 << 31, MOST - 1, MOST] {
        false_at(&only(of_one([0, end], 60), &[three()]), 96);
        false_at(&only(of_one([2, end], 30), &[three()]), 96);
        false_at(&only(of_one([end - 1, end], 0), &[three()]), 96);
    }
}

/// One off, without the first or the last chunk, with one more, from the start
/// of the xorb, and all of it.
#[test]
fn other_bytes() {
    for bytes in [49, 51, 30, 20, 60, 0, 10, MOST] {
        false_at(&only(of_one([1, 3], bytes), &[three()]), 96);
    }
    for bytes in [29, 31, 20, 10, 60, 0, MOST] {
        false_at(&only(of_one([0, 2], bytes), &[three()]), 96);
    }
    for bytes in [19, 21, 0, 30, 50, 60, MOST] {
        false_at(&only(of_one([1, 2], bytes), &[three()]), 96);
    }
}

/// The first block decides, be it true of a later one or not.
#[test]
fn the_first_of_several_blocks() {
    let blocks = [&[10, 20][..], &[20, 10, 5], &[7]].map(|lengths| xorb([1; 4], lengths));
    let one = |range, bytes| only(of_one(range, bytes), &blocks);
    counted(&one([0, 1], 10), 1, 0);
    counted(&one([1, 2], 20), 1, 0);
    counted(&one([0, 2], 30), 1, 0);
    false_at(&one([0, 1], 20), 96);
    false_at(&one([1, 2], 10), 96);
    false_at(&one([2, 3], 5), 96);
    false_at(&one([0, 3], 35), 96);
    false_at(&one([0, 1], 7), 96);
    let between = [three(), xorb([2; 4], &[9]), xorb([1; 4], &[1])];
    counted(&only(of_one([0, 3], 60), &between), 1, 0);
    counted(&only(segment([2; 4], [0, 1], 9), &between), 1, 0);
    false_at(&only(of_one([0, 1], 1), &between), 96);
    let bare = [xorb([1; 4], &[]), three()];
    false_at(&only(of_one([0, 1], 10), &bare), 96);
}

/// Nothing is asked of a segment whose xorb isn't listed.
#[test]
fn unlisted() {
    for xorbs in [&[][..], &[three()]] {
        for (range, bytes) in [([0, 1], 10), ([0, 4], 0), ([5, MOST], MOST)] {
            counted(&only(of_none(range, bytes), xorbs), 0, 1);
        }
    }
    let [one, none] = [of_one([0, 2], 30), of_none([0, 2], 30)];
    let both = [none.clone(), one.clone(), none.clone(), one, none];
    counted(&shard(&[file(&both)], &[three()]), 2, 3);
}

/// All four numbers of the hash count; those of files, chunks and
/// verifications are no xorb's.
#[test]
fn other_hashes() {
    for place in 0..4 {
        let mut hash = [1; 4];
        for number in [0, 2, 1 << 63 | 1, 1 << 32 | 1, u64::MAX] {
            hash[place] = number;
            counted(&only(segment(hash, [0, 9], 1), &[three()]), 0, 1);
            let first = xorb(hash, &[1]);
            counted(&only(of_one([0, 3], 60), &[first, three()]), 1, 0);
        }
    }
    for hash in [[7; 4], [4; 4], [8; 4], [9; 4], [0; 4], ALL_ONES] {
        let files = [verified(&[segment(hash, [0, 9], 1)])];
        counted(&shard(&files, &[three()]), 0, 1);
    }
    let same = [xorb([7; 4], &[3]), xorb([4; 4], &[5])];
    counted(&only(segment([7; 4], [0, 1], 3), &same), 1, 0);
    false_at(&only(segment([4; 4], [0, 1], 3), &same), 96);
}

#[test]
fn without_bytes_or_chunks() {
    let zeros = [xorb([1; 4], &[0, 5, 0, 0]), xorb([2; 4], &[])];
    for (range, bytes) in [([0, 1], 0), ([2, 4], 0), ([0, 4], 5), ([1, 3], 5)] {
        counted(&only(of_one(range, bytes), &zeros), 1, 0);
    }
    false_at(&only(of_one([0, 2], 0), &zeros), 96);
    false_at(&only(of_one([2, 3], 5), &zeros), 96);
    false_at(&only(of_one([4, 5], 0), &zeros), 96);
    false_at(&only(segment([2; 4], [0, 1], 0), &zeros), 96);
    false_at(&only(segment([2; 4], [MOST - 1, MOST], 0), &zeros), 96);
}

#[test]
fn near_the_largest_numbers() {
    let full = [xorb([1; 4], &[MOST - 5, 5]), xorb([2; 4], &[0, MOST, 0])];
    counted(&only(of_one([0, 2], MOST), &full), 1, 0);
    counted(&only(of_one([0, 1], MOST - 5), &full), 1, 0);
    counted(&only(segment([2; 4], [0, 3], MOST), &full), 1, 0);
    counted(&only(segment([2; 4], [1, 2], MOST), &full), 1, 0);
    false_at(&only(of_one([0, 2], MOST - 1), &full), 96);
    false_at(&only(of_one([0, 1], MOST), &full), 96);
    false_at(&only(of_one([1, 2], MOST), &full), 96);
    false_at(&only(segment([2; 4], [0, 1], MOST), &full), 96);
    false_at(&only(segment([2; 4], [1, MOST], MOST), &full), 96);
}

/// Where the segment starts, not its file; the first of several.
#[test]
fn the_position() {
    let [good, bad, none] = [of_one([0, 1], 10), of_one([0, 1], 11), of_none([0, 1], 11)];
    let [first, second, both] = [
        [bad.clone(), good.clone()],
        [good.clone(), bad.clone()],
        [bad.clone(), bad],
    ];
    false_at(&shard(&[file(&first)], &[three()]), 96);
    false_at(&shard(&[file(&second)], &[three()]), 144);
    false_at(&shard(&[file(&both)], &[three()]), 96);
    let files = [file(&[]), file(&[none, good]), file(&second), file(&both)];
    false_at(&shard(&files, &[three()]), 336);
    let files = files.map(|one| verified(&one.segments));
    false_at(&shard(&files, &[three()]), 528);
}

/// A false segment is not an unlisted one, and does not stay uncounted.
#[test]
fn not_counted() {
    let [good, bad, none] = [of_one([0, 1], 10), of_one([1, 2], 10), of_none([0, 1], 1)];
    let files = [file(&[none.clone(), good.clone(), bad])];
    false_at(&shard(&files, &[three()]), 192);
    counted(&shard(&[file(&[none, good])], &[three()]), 1, 1);
}

#[test]
fn no_segments() {
    counted(&shard(&[], &[]), 0, 0);
    counted(&shard(&[], &[three(), three()]), 0, 0);
    counted(&shard(&[verified(&[]), verified(&[])], &[three()]), 0, 0);
}

#[test]
fn with_a_footer() {
    let footed = |bytes| {
        let plan = ShardPlan {
            files: vec![verified(&[of_none([0, 1], 1), of_one([0, 2], bytes)])],
            xorbs: vec![three()],
            footer: Some(FooterPlan {
                key: [1; 4],
                created: 2,
                expiry: 3,
            }),
        };
        flatten(&plan.lay(&usual_tag()))
    };
    counted(&footed(30), 1, 1);
    false_at(&footed(10), 144);
}

/// Though a segment is false.
#[test]
fn the_shard_gives_its_refusal() {
    let bad = only(of_one([0, 1], 11), &[three()]);
    let longer = [&bad[..], &[0]].concat();
    false_at(&bad, 96);
    refused(&longer, 14, 432);
    refused(&bad[..431], 1, 384);
    refused(&bad[..192], 1, 192);
    refused(&[], 1, 0);
    let twisted = only(of_one([1, 1], 11), &[three()]);
    refused(&twisted, 10, 96);
    let mut gap = bad.clone();
    gap[272] = 1;
    refused(&gap, 11, 240);
    for length in [0, 31, 33] {
        let answer = audit(&vec![1; length], &bad);
        assert_eq!(answer, Err(Refusal::new(2, 0)));
    }
    assert_eq!(audit(&[9; 32], &bad), Err(Refusal::new(3, 0)));
}

/// The bytes of a xorb told one by one: true if the chunks are there, and as
/// many bytes are of them.
fn by_bytes(lengths: &[u32], [start, end]: [u32; 2], bytes: u32) -> bool {
    let chunks = (0..).zip(lengths);
    let owners = chunks.flat_map(|(n, &length)| vec![n; length as usize]);
    let inside = owners.filter(|owner| (start..end).contains(owner));
    inside.count() == bytes as usize && lengths.len() >= end as usize
}

/// Up to three chunks of up to three bytes, the end up to two past the count.
#[test]
fn every_segment_of_every_small_xorb() {
    for count in 0..=3 {
        for number in 0..4_u32.pow(count) {
            let lengths: Vec<u32> = (0..count).map(|n| number >> (2 * n) & 3).collect();
            let xorbs = [xorb([2; 4], &[1]), xorb([1; 4], &lengths), three()];
            let ranges = (1..=count + 2).flat_map(|end| (0..end).map(move |start| [start, end]));
            for (range, bytes) in ranges.flat_map(|range| (0..11).map(move |n| (range, n))) {
                let shard = only(of_one(range, bytes), &xorbs);
                match by_bytes(&lengths, range, bytes) {
                    true => counted(&shard, 1, 0),
                    false => false_at(&shard, 96),
                }
            }
        }
    }
}

/// The same seed draws the same shards.
#[test]
fn drawn_again() {
    let [mut rng, mut again] = [Rng::new(1), Rng::new(1)];
    for number in 0..500 {
        let one = Naming::random(&mut rng, number);
        let other = Naming::random(&mut again, number);
        assert_eq!(format!("{one:?}"), format!("{other:?}"));
    }
}

/// A drawn shard gets the verdict and the audit that the draw says, and is no
/// longer than others.
#[test]
fn drawn_shards() {
    let mut rng = Rng::new(2);
    for number in 0..2_000 {
        let naming = Naming::random(&mut rng, number);
        let known = &naming.known;
        assert_eq!(judge(&known.tag, &known.shard), known.verdict());
        assert_eq!(audit(&known.tag, &known.shard), naming.answer());
        assert!(known.shard.len() <= LONGEST);
    }
}
