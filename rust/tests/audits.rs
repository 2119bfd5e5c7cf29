//! Shards audited: segments that are listed and unlisted, true and false, shards that are refused, and the samples.

use melagbosun::{audit, join, judge, Audited, ChunkIndex, Hash, Offer, Position, Refusal, Writer};

const TAG: [u8; 32] = [7; 32];

/// The positions of the first three segments of the first file.
const FIRST: u64 = 96;
const SECOND: u64 = 144;
const THIRD: u64 = 192;

fn hash(n: u64) -> Hash {
    Hash([n, 0, 0, 0])
}

/// Bytes and chunks of a xorb: its number, the bytes, the first chunk, the chunk after the last.
fn segment((n, bytes, start, end): (u64, u32, u32, u32)) -> Offer {
    Offer::Segment {
        hash: hash(n),
        flags: 0,
        bytes,
        start: ChunkIndex(start),
        end: ChunkIndex(end),
    }
}

/// A file of these segments, with a verification for each and metadata.
fn file(segments: &[Offer]) -> Vec<Offer> {
    let count = segments.len();
    let head = Offer::FileHead {
        hash: hash(1),
        flags: 3 << 30,
        entries: count as u32,
    };
    let verification = Offer::Verification { hash: hash(1) };
    let metadata = Offer::Metadata { hash: hash(1) };
    [&[head], segments, &vec![verification; count], &[metadata]].concat()
}

/// A xorb of this number with chunks of these lengths.
fn xorb(n: u64, lengths: &[u32]) -> Vec<Offer> {
    let head = Offer::XorbHead {
        hash: hash(n),
        flags: 0,
        entries: lengths.len() as u32,
        bytes: lengths.iter().sum(),
        on_disk: 0,
    };
    let mut offers = vec![head];
    let mut start = 0;
    for &bytes in lengths {
        let hash = hash(9);
        offers.push(Offer::Chunk { hash, start, bytes });
        start += bytes;
    }
    offers
}

fn shard(files: &[Vec<Offer>], xorbs: &[Vec<Offer>]) -> Vec<u8> {
    let header = [Offer::Header { footer_size: 0 }];
    let end = [Offer::SectionEnd];
    let offers = [&header, &files.concat()[..], &end, &xorbs.concat(), &end].concat();
    let mut writer = Writer::new(&TAG);
    let mut bytes = vec![0; 48 * offers.len()];
    let places = bytes.chunks_exact_mut(48);
    for (offer, place) in offers.iter().zip(places) {
        writer.put(offer, place).expect("a good offer");
    }
    bytes
}

/// The audit of one file of these segments, and two xorbs: 2 with chunks of 10, 20, 0 and 40 bytes, and 3 with one of 5.
fn audited(segments: &[(u64, u32, u32, u32)]) -> Result<Audited, Refusal> {
    let segments: Vec<Offer> = segments.iter().copied().map(segment).collect();
    let xorbs = [xorb(2, &[10, 20, 0, 40]), xorb(3, &[5])];
    audit(&TAG, &shard(&[file(&segments)], &xorbs))
}

fn counts(listed: u64, unlisted: u64) -> Result<Audited, Refusal> {
    Ok(Audited { listed, unlisted })
}

fn refused(number: u32, at: u64) -> Result<Audited, Refusal> {
    let position = Position(at);
    Err(Refusal { number, position })
}

#[test]
fn listed_and_unlisted() {
    assert_eq!(audited(&[]), counts(0, 0));
    assert_eq!(audited(&[(2, 70, 0, 4), (3, 5, 0, 1)]), counts(2, 0));
    assert_eq!(audited(&[(4, 99, 7, 8), (2, 20, 1, 2)]), counts(1, 1));
    let (of_a_file, of_a_chunk) = ((1, 0, 0, 1), (9, 5, 0, 1));
    assert_eq!(audited(&[of_a_file, of_a_chunk]), counts(0, 2));
    let files = [
        file(&[segment((2, 5, 0, 1))]),
        file(&[]),
        file(&[segment((4, 5, 0, 1))]),
    ];
    assert_eq!(audit(&TAG, &shard(&files, &[xorb(2, &[5])])), counts(1, 1));
    assert_eq!(audit(&TAG, &shard(&files, &[])), counts(0, 2));
    assert_eq!(audit(&TAG, &shard(&[], &[xorb(2, &[5])])), counts(0, 0));
}

#[test]
fn a_xorb_has_the_whole_hash() {
    for place in 0..4 {
        let mut other = hash(2);
        other.0[place] = 1 << 63;
        let mut shard = shard(&[file(&[segment((2, 31, 0, 2))])], &[xorb(2, &[10, 20])]);
        assert_eq!(audit(&TAG, &shard), refused(22, FIRST));
        shard[FIRST as usize..][..32].copy_from_slice(&<[u8; 32]>::from(other));
        assert_eq!(audit(&TAG, &shard), counts(0, 1));
        shard[FIRST as usize..][..32].fill(0xFF);
        assert_eq!(audit(&TAG, &shard), counts(0, 1), "a bookend is no xorb");
    }
}

#[test]
fn the_end_does_not_pass_the_count() {
    assert_eq!(audited(&[(2, 40, 3, 4)]), counts(1, 0));
    assert_eq!(audited(&[(2, 40, 3, 5)]), refused(22, FIRST));
    assert_eq!(audited(&[(2, 70, 0, u32::MAX)]), refused(22, FIRST));
    assert_eq!(audited(&[(2, 0, 4, 5)]), refused(22, FIRST));
    assert_eq!(audited(&[(2, 5, 4, 5)]), refused(22, FIRST));
    let empty = shard(&[file(&[segment((2, 0, 0, 1))])], &[xorb(2, &[])]);
    assert_eq!(audit(&TAG, &empty), refused(22, FIRST));
}

#[test]
fn the_bytes_are_the_sum() {
    for start in 0..4 {
        for end in start + 1..=4 {
            let lengths = &[10, 20, 0, 40][start as usize..end as usize];
            let sum = lengths.iter().sum();
            assert_eq!(audited(&[(2, sum, start, end)]), counts(1, 0));
            assert_eq!(audited(&[(2, sum + 1, start, end)]), refused(22, FIRST));
            let most = u32::MAX;
            assert_eq!(audited(&[(2, most, start, end)]), refused(22, FIRST));
        }
    }
    let without_the_last = (2, 30, 0, 4);
    assert_eq!(audited(&[without_the_last]), refused(22, FIRST));
    let without_the_first = (2, 60, 0, 4);
    assert_eq!(audited(&[without_the_first]), refused(22, FIRST));
    let from_the_first_on = (2, 70, 1, 4);
    assert_eq!(audited(&[from_the_first_on]), refused(22, FIRST));
}

#[test]
fn up_to_32_bits() {
    let xorbs = [xorb(2, &[1, u32::MAX - 1])];
    let audited = |one| audit(&TAG, &shard(&[file(&[segment(one)])], &xorbs));
    assert_eq!(audited((2, u32::MAX, 0, 2)), counts(1, 0));
    assert_eq!(audited((2, u32::MAX - 1, 1, 2)), counts(1, 0));
    assert_eq!(audited((2, u32::MAX, 1, 2)), refused(22, FIRST));
}

#[test]
fn the_first_block_of_that_hash() {
    let xorbs = [xorb(3, &[1]), xorb(2, &[10, 20]), xorb(2, &[11, 20, 5])];
    let audited = |one| audit(&TAG, &shard(&[file(&[segment(one)])], &xorbs));
    assert_eq!(audited((2, 10, 0, 1)), counts(1, 0));
    assert_eq!(audited((2, 11, 0, 1)), refused(22, FIRST));
    assert_eq!(audited((2, 5, 2, 3)), refused(22, FIRST));
}

#[test]
fn the_first_false_segment() {
    let (good, bad, other) = ((2, 10, 0, 1), (2, 11, 0, 1), (4, 11, 0, 1));
    assert_eq!(audited(&[good, bad, bad]), refused(22, SECOND));
    assert_eq!(audited(&[other, good, bad]), refused(22, THIRD));
    let [first, second] = [[good, other], [other, bad]].map(|both| file(&both.map(segment)));
    let shard = shard(&[first, second], &[xorb(2, &[10])]);
    let head = 48 + 48 * 6;
    assert_eq!(audit(&TAG, &shard), refused(22, head + 96));
}

#[test]
fn the_shard_is_refused_first() {
    let whole = shard(&[file(&[segment((2, 11, 0, 1))])], &[xorb(2, &[10])]);
    assert_eq!(audit(&TAG, &whole), refused(22, FIRST));
    let length = whole.len();
    let last = length as u64 - 48;
    assert_eq!(audit(&TAG, &whole[..length - 1]), refused(1, last));
    assert_eq!(audit(&TAG, &[]), refused(1, 0));
    let longer = [&whole[..], &[0]].concat();
    assert_eq!(audit(&TAG, &longer), refused(14, last + 48));
    let mut damaged = whole.clone();
    damaged[length - 1] = 1;
    assert_eq!(audit(&TAG, &damaged), refused(8, last));
    assert_eq!(audit(&[8; 32], &whole), refused(3, 0));
    for tag in [&[][..], &[7; 31], &[7; 33]] {
        assert_eq!(audit(tag, &whole), refused(2, 0));
        assert_eq!(audit(tag, &[]), refused(2, 0));
    }
}

#[test]
fn a_false_segment_is_accepted() {
    let judged = |bytes| {
        let segment = segment((2, bytes, 0, 1));
        judge(&TAG, &shard(&[file(&[segment])], &[xorb(2, &[10])]))
    };
    let [one, other] = [10, 11].map(|bytes| judged(bytes).expect("accepted"));
    assert_eq!(one.totals.bytes + 1, other.totals.bytes);
}

/// A sample, by its name without the ending.
macro_rules! sample {
    ($name:literal) => {
        &include_bytes!(concat!("../../samples/", $name, ".shard"))[..]
    };
}

#[test]
fn samples() {
    let tag = include_bytes!("../../samples/test/tag.bin");
    let real = include_bytes!("../../samples/real/tag.bin");
    let (morning, evening) = (sample!("test/morning"), sample!("test/evening"));
    let day = join(tag, &[morning, evening]).expect("they fit");
    for (tag, shard, answer) in [
        (tag, sample!("test/everything"), refused(22, 384)),
        (real, sample!("real/everything"), refused(22, 384)),
        (tag, sample!("test/truthful"), counts(3, 1)),
        (real, sample!("real/truthful"), counts(3, 1)),
        (tag, sample!("test/empty"), counts(0, 0)),
        (tag, sample!("test/damaged"), refused(10, 144)),
        (tag, morning, counts(2, 1)),
        (tag, evening, counts(1, 0)),
        (tag, &day, counts(4, 0)),
    ] {
        assert_eq!(audit(tag, shard), answer);
    }
    assert!(judge(tag, sample!("test/everything")).is_ok());
    assert!(judge(real, sample!("real/everything")).is_ok());
}
