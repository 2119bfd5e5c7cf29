//! Shards joined: two into a lent buffer, lists of any length, and what can't be joined.

use melagbosun::{
    find_chunk, find_file, join, join_into, judge, FileNumber, Hash, Offer, Position, Refusal,
    Writer,
};

const TAG: [u8; 32] = [7; 32];

/// An empty file and a xorb of one chunk, with hashes made of this number; with verifications, or with a footer.
fn shard(n: u64, verified: bool, footer: bool) -> Vec<u8> {
    let hash = |m: u64| Hash([n, m, 0, 0]);
    let mut offers = vec![
        Offer::Header {
            footer_size: if footer { 200 } else { 0 },
        },
        Offer::FileHead {
            hash: hash(1),
            flags: u32::from(verified) << 31,
            entries: 0,
        },
        Offer::SectionEnd,
        Offer::XorbHead {
            hash: hash(2),
            flags: 0,
            entries: 1,
            bytes: 5,
            on_disk: 5,
        },
        Offer::Chunk {
            hash: hash(3),
            start: 0,
            bytes: 5,
        },
        Offer::SectionEnd,
    ];
    if footer {
        offers.push(Offer::Footer {
            key: hash(4),
            created: 0,
            expiry: 0,
        });
    }
    let mut writer = Writer::new(&TAG);
    let mut bytes = vec![0; 48 * offers.len() + 152];
    let mut at = 0;
    for offer in &offers {
        at += writer.put(offer, &mut bytes[at..]).expect("a good offer");
    }
    bytes.truncate(at);
    bytes
}

fn at_0(number: u32) -> Refusal {
    let position = Position(0);
    Refusal { number, position }
}

#[test]
fn two_into_a_buffer() {
    let (first, second) = (shard(1, true, false), shard(2, true, false));
    let size = first.len() + second.len() - 144;
    let mut buffer = vec![9; size + 10];
    let joined = join_into(&TAG, &first, &second, &mut buffer);
    assert_eq!(joined, Ok(size));
    assert_eq!(buffer[size..], [9; 10]);
    let whole = &buffer[..size];
    let summary = judge(&TAG, whole).expect("accepted");
    let totals = summary.totals;
    assert_eq!((totals.files, totals.xorbs, totals.chunks), (2, 2, 2));
    let file = find_file(&TAG, whole, Hash([2, 1, 0, 0])).expect("accepted");
    assert_eq!(file.map(|found| found.file), Some(FileNumber(1)));
    let chunk = find_chunk(&TAG, whole, Hash([2, 3, 0, 0])).expect("accepted");
    assert_eq!(chunk.map(|found| found.block.0), Some(1));
}

#[test]
fn lists() {
    let [a, b, c] = [1, 2, 3].map(|n| shard(n, false, false));
    let empty = join(&TAG, &[]).expect("a good tag");
    assert_eq!(empty.len(), 144);
    assert_eq!(join(&TAG, &[&a]).as_ref(), Ok(&a));
    assert_eq!(join(&TAG, &[&empty, &a, &empty]).as_ref(), Ok(&a));
    let whole = join(&TAG, &[&a, &b, &c]).expect("they fit");
    let ab = join(&TAG, &[&a, &b]).expect("they fit");
    let bc = join(&TAG, &[&b, &c]).expect("they fit");
    assert_eq!(join(&TAG, &[&ab, &c]).as_ref(), Ok(&whole));
    assert_eq!(join(&TAG, &[&a, &bc]).as_ref(), Ok(&whole));
    assert_ne!(join(&TAG, &[&c, &b, &a]).as_ref(), Ok(&whole));
}

#[test]
fn what_is_not_joined() {
    let good = shard(1, true, false);
    let (footed, plain) = (shard(2, true, true), shard(3, false, false));
    let cut = &good[..100];
    let mut buffer = [9; 1000];
    let cases: [(&[u8], &[u8], usize, Refusal); 7] = [
        (cut, &footed, 1000, judge(&TAG, cut).expect_err("cut")),
        (&footed, cut, 1000, judge(&TAG, cut).expect_err("cut")),
        (&footed, &plain, 0, at_0(30)),
        (&good, &footed, 1000, at_0(30)),
        (&good, &plain, 0, at_0(9)),
        (&good, &good, 2 * good.len() - 145, at_0(15)),
        (&good, &good, 0, at_0(15)),
    ];
    for (first, second, room, refusal) in cases {
        let joined = join_into(&TAG, first, second, &mut buffer[..room]);
        assert_eq!(joined, Err(refusal));
        assert_eq!(buffer, [9; 1000]);
    }
    assert_eq!(join(&TAG[..31], &[]), Err(at_0(2)));
    assert_eq!(join(&TAG, &[&footed]), Err(at_0(30)));
}
