//! The examples of the paper, and the cases made with a known verdict.

use checks::cases::{catalogue, random_case, SEED};
use checks::examples::examples;
use checks::generate::{
    flatten, lay_bookend, lay_header, usual_tag, FooterPlan, Laid, Rng, ShardPlan, Size, XorbPlan,
    LONGEST,
};
use checks::reader::*;
use checks::vectors::{decode, encode, line};

const FOOTER: FooterPlan = FooterPlan {
    key: [0; 4],
    created: 1,
    expiry: 2,
};

fn one_xorb(chunks: usize, footer: bool) -> Vec<u8> {
    let xorb = XorbPlan {
        hash: [1, 2, 3, 4],
        on_disk: 5,
        chunks: vec![([6, 7, 8, 9], 10); chunks],
    };
    let plan = ShardPlan {
        xorbs: vec![xorb],
        footer: footer.then_some(FOOTER),
        ..ShardPlan::default()
    };
    flatten(&plan.lay(&usual_tag()))
}

fn accepted(chunks: usize, footer: bool) {
    let shard = one_xorb(chunks, footer);
    let wanted = Summary {
        length: shard.len() as u64,
        xorbs: 1,
        chunks: chunks as u64,
        footer,
        ..Summary::default()
    };
    assert_eq!(judge(&usual_tag(), &shard), Ok(wanted));
}

fn refused(shard: &[u8], number: u8, position: u64) {
    let wanted = Err(Refusal::new(number, position));
    assert_eq!(judge(&usual_tag(), shard), wanted);
}

#[test]
fn the_small_examples() {
    for case in examples() {
        let expected = case.expected.expect("each example has a verdict");
        assert_eq!(judge(&case.tag, &case.shard), expected);
    }
}

#[test]
fn the_limit_without_a_footer() {
    accepted(349_521, false);
    refused(&one_xorb(349_522, false), 6, 96);
}

#[test]
fn the_limit_with_a_footer() {
    accepted(349_517, true);
    refused(&one_xorb(349_518, true), 6, 96);
}

#[test]
fn around_fifteen_bits() {
    accepted(32_767, false);
    accepted(32_768, false);
}

/// The last xorb head that fits has no room for one more, and a further one
/// that also declares bytes is 6 and not 11.
#[test]
fn six_comes_before_eleven() {
    let head = |bytes| Laid::entry(Kind::XorbHead, [1; 4], [0, 0, bytes, 0]);
    let mut layout = vec![lay_header(&usual_tag(), false), lay_bookend()];
    layout.extend((0..349_522).map(|_| head(0)));
    layout.push(lay_bookend());
    let mut shard = flatten(&layout);
    assert_eq!(shard.len(), 16_777_200);
    assert!(judge(&usual_tag(), &shard).is_ok());
    shard.truncate(16_777_152);
    refused(&shard, 1, 16_777_152);
    shard.extend(head(5).bytes);
    refused(&shard, 6, 16_777_152);
}

#[test]
fn known_verdicts_hold() {
    let mut rng = Rng::new(9);
    let random = (0..20_000).map(|_| random_case(&mut rng));
    for case in (0..10).flat_map(catalogue).chain(random) {
        assert!(case.shard.len() <= LONGEST);
        if let Some(expected) = case.expected {
            let verdict = judge(&case.tag, &case.shard);
            assert_eq!(verdict, expected, "{}", case.family);
        }
    }
}

#[test]
fn cases_survive_their_file() {
    for case in catalogue(3) {
        let mut bytes = encode(&case.tag, &case.shard);
        bytes.push(9);
        let back = decode(&bytes).expect("a whole case");
        assert_eq!(back, (&case.tag[..], &case.shard[..], &[9][..]));
    }
}

#[test]
fn lines_have_their_form() {
    assert_eq!(line(&Err(Refusal::new(3, 0))), "refused 3 at 0");
    let sums = judge(&usual_tag(), &one_xorb(2, true));
    let wanted = "ok 488 files 0 segments 0 xorbs 1 chunks 2 bytes 0 footer yes";
    assert_eq!(line(&sums), wanted);
}

#[test]
fn finding_gives_the_first() {
    let mut rng = Rng::new(10);
    for _ in 0..2_000 {
        let plan = ShardPlan::random(&mut rng, Size::SMALL);
        let shard = flatten(&plan.lay(&usual_tag()));
        chunks_are_found(&plan, &shard);
        files_are_found(&plan, &shard);
    }
}

fn chunks_are_found(plan: &ShardPlan, shard: &[u8]) {
    let chunks: Vec<(usize, usize, Hash)> = (0..plan.xorbs.len())
        .flat_map(|block| {
            let chunks = plan.xorbs[block].chunks.iter().enumerate();
            chunks.map(move |(index, chunk)| (block, index, chunk.0))
        })
        .collect();
    let absent = [3, 1, 4, 1];
    for wanted in chunks.iter().map(|chunk| chunk.2).chain([absent]) {
        let found = find_chunk(&usual_tag(), shard, wanted).expect("a good shard");
        let due = chunks.iter().find(|chunk| chunk.2 == wanted);
        let numbers = found.map(|one| (one.block as usize, one.index.0 as usize, wanted));
        assert_eq!(numbers, due.copied());
        if let Some(one) = found {
            assert_eq!(hash_at(entry_at(shard, one.position), 0), wanted);
        }
    }
}

fn files_are_found(plan: &ShardPlan, shard: &[u8]) {
    let hashes: Vec<Hash> = plan.files.iter().map(|file| file.hash).collect();
    for &wanted in hashes.iter().chain([&[2, 7, 1, 8], &ALL_ONES]) {
        let found = find_file(&usual_tag(), shard, wanted).expect("a good shard");
        let due = hashes.iter().position(|&hash| hash == wanted);
        assert_eq!(found.map(|one| one.number.0 as usize), due);
        if let Some(one) = found {
            assert_eq!(hash_at(entry_at(shard, one.position), 0), wanted);
        }
    }
}

#[test]
fn finding_in_a_refused_shard() {
    let mut shard = one_xorb(3, false);
    shard.push(0);
    let refusal = Refusal::new(14, 336);
    let hash = [6, 7, 8, 9];
    assert_eq!(find_chunk(&usual_tag(), &shard, hash), Err(refusal));
    assert_eq!(find_file(&usual_tag(), &shard, hash), Err(refusal));
    assert_eq!(find_file(&[], &shard, hash), Err(Refusal::new(2, 0)));
}

#[test]
fn parts_of_a_buffer() {
    let buffer: Vec<u8> = (0..50).collect();
    assert_eq!(entry_at(&buffer, Position(2)), &buffer[2..50]);
    for outside in [3, 50, 51, u64::MAX - 47, u64::MAX] {
        assert_eq!(entry_at(&buffer, Position(outside)), &[0; 0]);
    }
}

/// The vector files hold what they promise.
#[test]
fn vectors_are_rich() {
    let cases = catalogue(SEED);
    let mut counts = [0; 15];
    let mut size = 0;
    for case in &cases {
        let verdict = judge(&case.tag, &case.shard);
        counts[verdict.err().map_or(0, |one| usize::from(one.number))] += 1;
        size += encode(&case.tag, &case.shard).len();
    }
    assert!(cases.len() >= 1_200 && size <= 1_500_000);
    assert!(counts[0] >= 300 && counts.iter().all(|&count| count >= 20));
}
