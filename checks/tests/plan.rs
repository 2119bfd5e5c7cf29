//! Planning a stretch of one file: examples made by hand, each refusal at its
//! position and in its order, and every range of every small file.

use checks::generate::{
    flatten, lay_bookend, lay_header, usual_tag, FilePlan, FooterPlan, Laid, Rng, SegmentPlan,
    ShardPlan,
};
use checks::plan::{plan, Row};
use checks::reader::{
    judge, ChunkIndex, Kind, Refusal, ALL_ONES, WITH_METADATA, WITH_VERIFICATION,
};
use checks::stretch::Stretch;

/// What a row of the table has before.
const BEFORE: Row = Row {
    xorb: [91, 92, 93, 94],
    start: ChunkIndex(95),
    end: ChunkIndex(96),
    skip: 97,
    take: 98,
};

const MOST: u64 = u32::MAX as u64;

fn shard(files: &[Vec<Laid>]) -> Vec<u8> {
    let header = [lay_header(&usual_tag(), false)];
    let end = [lay_bookend()];
    flatten(&[&header, &files.concat()[..], &end, &end].concat())
}

/// A file of segments of so many bytes: of xorb 1 the chunks 10 to 20, of
/// xorb 2 the chunks 20 to 30, and so on.
fn file(sizes: &[u32]) -> Vec<Laid> {
    let count = sizes.len() as u32;
    let mut block = vec![Laid::entry(Kind::FileHead, [7; 4], [0, count, 0, 0])];
    for (n, &bytes) in (1..).zip(sizes) {
        let numbers = [0, bytes, 10 * n, 10 * n + 10];
        block.push(Laid::entry(Kind::Segment, [u64::from(n); 4], numbers));
    }
    block
}

/// The same with verifications and metadata.
fn verified(sizes: &[u32]) -> Vec<Laid> {
    let mut block = file(sizes);
    let flags = WITH_VERIFICATION | WITH_METADATA;
    block[0] = Laid::entry(Kind::FileHead, [7; 4], [flags, sizes.len() as u32, 0, 0]);
    for _ in sizes {
        block.push(Laid::entry(Kind::Verification, [8; 4], [0; 4]));
    }
    block.push(Laid::entry(Kind::Metadata, [9; 4], [0; 4]));
    block
}

/// Of segment `n`, numbered from 1, what is skipped and what is taken.
fn row(n: u64, skip: u64, take: u64) -> Row {
    Row {
        xorb: [n; 4],
        start: ChunkIndex(10 * n),
        end: ChunkIndex(10 * n + 10),
        skip,
        take,
    }
}

/// Planned so into a table that has room, and into one that has more; with a
/// row less it is 15.
fn planned(shard: &[u8], file: u32, (a, b): (u64, u64), rows: &[Row]) {
    for room in [rows.len(), rows.len() + 1, rows.len() + 5] {
        let mut table = vec![BEFORE; room];
        let answer = plan(&usual_tag(), shard, file, a, b, &mut table);
        assert_eq!(answer, Ok(rows.len()));
        assert_eq!(table[..rows.len()], *rows);
        assert!(table[rows.len()..].iter().all(|&row| row == BEFORE));
    }
    for room in 0..rows.len() {
        refused_into(room, shard, file, (a, b), Refusal::new(15, 0));
    }
}

/// Refused so with this many rows, and none changes.
fn refused_into(room: usize, shard: &[u8], file: u32, (a, b): (u64, u64), wanted: Refusal) {
    let mut table = vec![BEFORE; room];
    let answer = plan(&usual_tag(), shard, file, a, b, &mut table);
    assert_eq!(answer, Err(wanted));
    assert!(table.iter().all(|&row| row == BEFORE));
}

/// Refused so with room enough and with none.
fn refused(shard: &[u8], file: u32, range: (u64, u64), number: u8, position: u64) {
    let wanted = Refusal::new(number, position);
    refused_into(20, shard, file, range, wanted);
    refused_into(0, shard, file, range, wanted);
}

#[test]
fn the_seam_of_two_segments() {
    let two = shard(&[file(&[100, 50])]);
    planned(&two, 0, (90, 120), &[row(1, 90, 10), row(2, 0, 20)]);
    planned(&two, 0, (99, 101), &[row(1, 99, 1), row(2, 0, 1)]);
    planned(&two, 0, (99, 100), &[row(1, 99, 1)]);
    planned(&two, 0, (100, 101), &[row(2, 0, 1)]);
    planned(&two, 0, (0, 100), &[row(1, 0, 100)]);
    planned(&two, 0, (100, 150), &[row(2, 0, 50)]);
    planned(&two, 0, (0, 101), &[row(1, 0, 100), row(2, 0, 1)]);
    planned(&two, 0, (99, 150), &[row(1, 99, 1), row(2, 0, 50)]);
}

#[test]
fn no_bytes_at_the_seam() {
    let three = shard(&[file(&[100, 0, 50])]);
    planned(&three, 0, (99, 101), &[row(1, 99, 1), row(3, 0, 1)]);
    planned(&three, 0, (99, 100), &[row(1, 99, 1)]);
    planned(&three, 0, (100, 101), &[row(3, 0, 1)]);
    let ends = shard(&[file(&[0, 0, 5, 0])]);
    planned(&ends, 0, (0, 5), &[row(3, 0, 5)]);
    planned(&ends, 0, (0, 1), &[row(3, 0, 1)]);
    planned(&ends, 0, (4, 5), &[row(3, 4, 1)]);
}

#[test]
fn the_whole_file_and_one_byte() {
    let four = shard(&[file(&[3, 1, 0, 2])]);
    let rows = [row(1, 0, 3), row(2, 0, 1), row(4, 0, 2)];
    planned(&four, 0, (0, 6), &rows);
    planned(
        &four,
        0,
        (1, 5),
        &[row(1, 1, 2), row(2, 0, 1), row(4, 0, 1)],
    );
    let bytes = [(1, 0), (1, 1), (1, 2), (2, 0), (4, 0), (4, 1)];
    for (at, (n, skip)) in (0..).zip(bytes) {
        planned(&four, 0, (at, at + 1), &[row(n, skip, 1)]);
    }
    let one = shard(&[file(&[1])]);
    planned(&one, 0, (0, 1), &[row(1, 0, 1)]);
}

#[test]
fn inside_of_one_segment() {
    let three = shard(&[file(&[10, 20, 30])]);
    planned(&three, 0, (12, 28), &[row(2, 2, 16)]);
    planned(&three, 0, (35, 59), &[row(3, 5, 24)]);
    let rows = [row(1, 9, 1), row(2, 0, 20), row(3, 0, 1)];
    planned(&three, 0, (9, 31), &rows);
}

/// A verification is no segment, and a file's bytes begin at 0.
#[test]
fn the_other_files() {
    let first = verified(&[4, 4]);
    let files = shard(&[first.clone(), verified(&[]), verified(&[5, 6])]);
    planned(&files, 0, (0, 8), &[row(1, 0, 4), row(2, 0, 4)]);
    refused(&files, 0, (0, 9), 18, 0);
    refused(&files, 1, (0, 1), 18, 0);
    planned(&files, 2, (4, 6), &[row(1, 4, 1), row(2, 0, 1)]);
    planned(&files, 2, (0, 11), &[row(1, 0, 5), row(2, 0, 6)]);
    refused(&files, 2, (0, 12), 18, 0);
    refused(&files, 3, (0, 1), 17, 0);
}

/// The same piece twice, and one that begins where the one before ended.
#[test]
fn a_row_for_each_segment() {
    let again = Laid::entry(Kind::Segment, ALL_ONES, [0, 3, 0, 1]);
    let next = Laid::entry(Kind::Segment, ALL_ONES, [0, 3, 1, u32::MAX]);
    let head = Laid::entry(Kind::FileHead, [7; 4], [0, 3, 0, 0]);
    let shard = shard(&[vec![head, again.clone(), again, next]]);
    let row = |(start, end), skip, take| Row {
        xorb: ALL_ONES,
        start: ChunkIndex(start),
        end: ChunkIndex(end),
        skip,
        take,
    };
    let rows = [row((0, 1), 1, 2), row((0, 1), 0, 3), row((1, MOST), 0, 2)];
    planned(&shard, 0, (1, 8), &rows);
}

#[test]
fn beyond_32_bits() {
    let three = shard(&[file(&[u32::MAX; 3])]);
    let whole = [row(1, 0, MOST), row(2, 0, MOST), row(3, 0, MOST)];
    planned(&three, 0, (0, 3 * MOST), &whole);
    let seam = [row(1, MOST - 1, 1), row(2, 0, 2)];
    planned(&three, 0, (MOST - 1, MOST + 2), &seam);
    planned(&three, 0, (1 << 32, (1 << 32) + 1), &[row(2, 1, 1)]);
    planned(&three, 0, (3 * MOST - 1, 3 * MOST), &[row(3, MOST - 1, 1)]);
    refused(&three, 0, (0, 3 * MOST + 1), 18, 0);
    refused(&three, 0, (5, 3), 18, 0);
    refused(&three, 0, (5, u64::MAX), 18, 0);
    let small = shard(&[file(&[10])]);
    refused(&small, 0, (0, (1 << 32) + 5), 18, 0);
    refused(&small, 0, (1 << 32, (1 << 32) + 5), 18, 0);
}

#[test]
fn ranges_that_are_none() {
    let two = shard(&[file(&[100, 50])]);
    for at in [0, 1, 99, 100, 150, 151, u64::MAX] {
        refused(&two, 0, (at, at), 18, 0);
    }
    for range in [(1, 0), (150, 0), (101, 100), (151, 150), (u64::MAX, 0)] {
        refused(&two, 0, range, 18, 0);
    }
    for range in [(0, 151), (149, 151), (150, 151), (0, u64::MAX)] {
        refused(&two, 0, range, 18, 0);
    }
    refused(&two, 0, (u64::MAX - 1, u64::MAX), 18, 0);
}

#[test]
fn files_without_bytes() {
    for sizes in [&[][..], &[0], &[0, 0]] {
        let empty = shard(&[file(sizes)]);
        for range in [(0, 0), (0, 1), (1, 1), (1, 2), (1, 0), (0, u64::MAX)] {
            refused(&empty, 0, range, 18, 0);
        }
    }
}

#[test]
fn no_such_file() {
    let two = shard(&[file(&[5]), file(&[6])]);
    let none = shard(&[]);
    for number in [2, 3, u32::MAX] {
        refused(&two, number, (0, 1), 17, 0);
        refused(&none, number - 2, (0, 1), 17, 0);
    }
}

#[test]
fn a_table_too_short() {
    let three = shard(&[file(&[2, 2, 2])]);
    let wanted = Refusal::new(15, 0);
    refused_into(2, &three, 0, (0, 6), wanted);
    refused_into(1, &three, 0, (1, 3), wanted);
    refused_into(0, &three, 0, (0, 1), wanted);
    planned(&three, 0, (2, 4), &[row(2, 0, 2)]);
}

#[test]
fn the_shard_gives_its_refusal() {
    let good = shard(&[file(&[5])]);
    let longer = [&good[..], &[0]].concat();
    for (bad, number, position) in [(&[][..], 1, 0), (&good[..239], 1, 192), (&longer, 14, 240)] {
        refused(bad, 0, (0, 5), number, position);
    }
    let mixed = shard(&[file(&[5]), verified(&[5])]);
    refused(&mixed, 0, (0, 5), 9, 144);
    for length in [0, 31, 33] {
        let answer = plan(&vec![1; length], &good, 0, 0, 5, &mut [BEFORE; 3]);
        assert_eq!(answer, Err(Refusal::new(2, 0)));
    }
    let answer = plan(&[9; 32], &good, 0, 0, 5, &mut [BEFORE; 3]);
    assert_eq!(answer, Err(Refusal::new(3, 0)));
}

/// The shard's own, 17, 18 and 15; [`refused`] also lends no row.
#[test]
fn the_order() {
    let good = shard(&[file(&[5, 5])]);
    let longer = [&good[..], &[0]].concat();
    refused(&longer, 1, (9, 3), 14, 288);
    refused(&longer, 0, (0, 11), 14, 288);
    refused(&good, 1, (9, 3), 17, 0);
    refused(&good, 1, (0, u64::MAX), 17, 0);
    refused(&good, 0, (9, 3), 18, 0);
    refused(&good, 0, (0, 11), 18, 0);
    refused_into(1, &good, 0, (0, 11), Refusal::new(18, 0));
    refused_into(1, &good, 0, (0, 10), Refusal::new(15, 0));
}

/// A footer changes nothing.
#[test]
fn with_a_footer() {
    let segment = SegmentPlan {
        hash: [1; 4],
        bytes: 5,
        start: 10,
        end: 20,
        verification: [2; 4],
    };
    let plan = ShardPlan {
        files: vec![FilePlan {
            hash: [3; 4],
            verified: false,
            segments: vec![segment],
            metadata: None,
        }],
        xorbs: Vec::new(),
        footer: Some(FooterPlan {
            key: [4; 4],
            created: 5,
            expiry: 6,
        }),
    };
    let footed = flatten(&plan.lay(&usual_tag()));
    planned(&footed, 0, (1, 4), &[row(1, 1, 3)]);
}

/// The rows of a range, byte by byte: each byte belongs to the row before it
/// or begins one.
fn by_bytes(sizes: &[u32], a: u64, b: u64) -> Vec<Row> {
    let bytes = (1..).zip(sizes).flat_map(|(n, &size)| {
        let places = 0..u64::from(size);
        places.map(move |skip| (n, skip))
    });
    let mut rows: Vec<Row> = Vec::new();
    for (n, skip) in bytes.skip(a as usize).take((b - a) as usize) {
        match rows.last_mut() {
            Some(last) if last.xorb == [n; 4] => last.take += 1,
            _ => rows.push(row(n, skip, 1)),
        }
    }
    rows
}

/// Up to four segments of up to three bytes.
#[test]
fn every_range_of_every_small_file() {
    for count in 0..=4 {
        for number in 0..4_u32.pow(count) {
            let sizes: Vec<u32> = (0..count).map(|n| number >> (2 * n) & 3).collect();
            let total = u64::from(sizes.iter().sum::<u32>());
            let shard = shard(&[file(&[9]), file(&sizes)]);
            for (a, b) in (0..=total + 1).flat_map(|a| (0..=total + 1).map(move |b| (a, b))) {
                if a < b && b <= total {
                    planned(&shard, 1, (a, b), &by_bytes(&sizes, a, b));
                } else {
                    refused(&shard, 1, (a, b), 18, 0);
                }
            }
        }
    }
}

/// The same seed draws the same stretches.
#[test]
fn drawn_again() {
    let [mut rng, mut again] = [Rng::new(1), Rng::new(1)];
    for number in 0..500 {
        let one = Stretch::random(&mut rng, number);
        let other = Stretch::random(&mut again, number);
        assert_eq!(format!("{one:?}"), format!("{other:?}"));
    }
}

/// A drawn shard is refused as the draw says, or laid out as it says.
#[test]
fn drawn_shards() {
    let mut rng = Rng::new(2);
    for number in 0..2_000 {
        let known = Stretch::random(&mut rng, number).known;
        assert_eq!(judge(&known.tag, &known.shard), known.verdict());
    }
}
