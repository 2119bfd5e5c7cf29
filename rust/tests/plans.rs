//! Stretches of files planned: into a lent table and as a list, and what can't be planned.

use melagbosun::{
    plan, plan_into, ChunkIndex, FetchRow, FileNumber, Hash, Offer, Position, Refusal, Writer,
};

const TAG: [u8; 32] = [7; 32];

/// A row that no plan makes.
const BLANK: FetchRow = FetchRow {
    xorb: Hash([9; 4]),
    start: ChunkIndex(9),
    end: ChunkIndex(9),
    skip: 9,
    take: 9,
};

fn hash(n: u32) -> Hash {
    Hash([u64::from(n), 0, 0, 0])
}

/// A shard with these files, each by the bytes of its segments. The segment of a file at place n is chunks n to n + 1 of xorb n.
fn shard(files: &[&[u32]]) -> Vec<u8> {
    let mut offers = vec![Offer::Header { footer_size: 0 }];
    for segments in files {
        offers.push(Offer::FileHead {
            hash: hash(1),
            flags: 0,
            entries: segments.len() as u32,
        });
        offers.extend((0..).zip(*segments).map(|(n, &bytes)| Offer::Segment {
            hash: hash(n),
            flags: 0,
            bytes,
            start: ChunkIndex(n),
            end: ChunkIndex(n + 1),
        }));
    }
    offers.extend([Offer::SectionEnd, Offer::SectionEnd]);
    let mut writer = Writer::new(&TAG);
    let mut bytes = vec![0; 48 * offers.len()];
    let places = bytes.chunks_exact_mut(48);
    for (offer, place) in offers.iter().zip(places) {
        writer.put(offer, place).expect("a good offer");
    }
    bytes
}

fn row(n: u32, skip: u32, take: u32) -> FetchRow {
    FetchRow {
        xorb: hash(n),
        start: ChunkIndex(n),
        end: ChunkIndex(n + 1),
        skip,
        take,
    }
}

fn at_0(number: u32) -> Refusal {
    let position = Position(0);
    Refusal { number, position }
}

#[test]
fn rows_of_a_stretch() {
    let shard = shard(&[&[100, 0, 50], &[], &[7]]);
    let planned = |file, range| plan(&TAG, &shard, FileNumber(file), range).expect("a plan");
    assert_eq!(planned(0, 0..150), [row(0, 0, 100), row(2, 0, 50)]);
    assert_eq!(planned(0, 99..101), [row(0, 99, 1), row(2, 0, 1)]);
    assert_eq!(planned(0, 10..100), [row(0, 10, 90)]);
    assert_eq!(planned(0, 100..101), [row(2, 0, 1)]);
    assert_eq!(planned(2, 2..7), [row(0, 2, 5)]);
}

#[test]
fn beyond_32_bits() {
    let most = u32::MAX;
    let shard = shard(&[&[most, most, most]]);
    let start = 2 * u64::from(most) - 1;
    let rows = plan(&TAG, &shard, FileNumber(0), start..start + 3).expect("a plan");
    assert_eq!(rows, [row(1, most - 1, 1), row(2, 0, 2)]);
}

#[test]
fn into_a_table() {
    let shard = shard(&[&[100, 0, 50]]);
    let mut table = [BLANK; 3];
    let rows = plan_into(&TAG, &shard, FileNumber(0), 99..101, &mut table);
    assert_eq!(rows, Ok(2));
    assert_eq!(table, [row(0, 99, 1), row(2, 0, 1), BLANK]);
}

#[test]
fn what_is_not_planned() {
    let good = shard(&[&[100, 0, 50], &[]]);
    let mut damaged = good.clone();
    damaged[32] = 3;
    let past = u64::MAX;
    for (shard, file, from, to, room, refusal) in [
        (&damaged, 9, 5, 5, 0, at_0(4)),
        (&good, 2, 5, 5, 0, at_0(17)),
        (&good, u32::MAX, 0, 1, 3, at_0(17)),
        (&good, 0, 5, 5, 0, at_0(18)),
        (&good, 0, 6, 5, 3, at_0(18)),
        (&good, 0, 149, 151, 0, at_0(18)),
        (&good, 0, 0, past, 3, at_0(18)),
        (&good, 0, past, past, 3, at_0(18)),
        (&good, 1, 0, 0, 3, at_0(18)),
        (&good, 1, 0, 1, 3, at_0(18)),
        (&good, 0, 99, 101, 1, at_0(15)),
    ] {
        let mut table = vec![BLANK; room];
        let answer = plan_into(&TAG, shard, FileNumber(file), from..to, &mut table);
        assert_eq!(answer, Err(refusal));
        assert_eq!(table, vec![BLANK; room]);
    }
}
