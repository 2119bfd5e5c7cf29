//! Blob files counted, read entry by entry and written, each beside the same in ordinary Rust.

use bench::inputs::{large_blobs, small_blobs, BlobFile};
use bench::measured::{beside, print, Measured};
use bench::ordinary_blobs as ordinary;
use melagbosun::blobs::{self, Entry, Tally};
use melagbosun::{Position, Refusal};
use std::hint::black_box;
use std::time::Instant;

/// One way to go over a file once, with a buffer as long as the file; the answer is a sum of what was found.
type Go = fn(&BlobFile, &mut [u8]) -> u64;

/// What is timed: the ordinary way and the proved one.
const TASKS: [[(&str, Go); 2]; 3] = [
    [
        ("ordinary Rust scan", |file, _| {
            counted(file, ordinary::scan)
        }),
        ("`mdb_blob_scan`", |file, _| counted(file, blobs::scan)),
    ],
    [
        ("ordinary Rust reader of an entry", |file, _| {
            walked(file, ordinary::entry_at)
        }),
        ("`mdb_blob_entry_at`", |file, _| {
            walked(file, blobs::entry_at)
        }),
    ],
    [
        ("ordinary Rust writer of an entry", |file, buffer| {
            written(file, buffer, ordinary::put_entry)
        }),
        ("`mdb_blob_put_entry`", |file, buffer| {
            written(file, buffer, blobs::put_entry)
        }),
    ],
];

fn counted(file: &BlobFile, scan: impl Fn(&[u8]) -> Result<Tally, Refusal>) -> u64 {
    let tally = scan(&file.bytes).expect("a good file");
    tally.entries.rotate_left(32) ^ tally.bytes
}

fn walked(
    file: &BlobFile,
    entry_at: impl for<'a> Fn(&'a [u8], Position) -> Result<Entry<'a>, Refusal>,
) -> u64 {
    let (mut sum, mut at) = (0_u64, Position(0));
    while at.0 < file.bytes.len() as u64 {
        let Entry { digits, data, next } = entry_at(&file.bytes, at).expect("a good file");
        let ends = u64::from(digits[0]) ^ u64::from(data[0]) << 8;
        let lengths = (digits.len() as u64) << 16 ^ (data.len() as u64) << 24;
        sum = sum.rotate_left(5).wrapping_add(next.0 ^ ends ^ lengths);
        at = next;
    }
    sum
}

fn written(
    file: &BlobFile,
    buffer: &mut [u8],
    put_entry: impl Fn(&[u8], &[u8], &mut [u8]) -> Result<usize, Refusal>,
) -> u64 {
    let mut at = 0;
    for (digits, data) in &file.parts {
        at += put_entry(digits, data, &mut buffer[at..]).expect("room enough");
    }
    at as u64
}

/// One round of one way: nanoseconds per entry, and the sum.
fn timed(go: Go, file: &BlobFile, buffer: &mut [u8]) -> (f64, u64) {
    let mut sum = 0;
    let start = Instant::now();
    for _ in 0..file.times {
        sum = go(black_box(file), black_box(buffer));
    }
    let time = start.elapsed();
    let entries = file.parts.len() * file.times;
    (time.as_nanos() as f64 / entries as f64, sum)
}

/// The times of both ways, round by round one after the other. They must come to the same sum, and leave the same bytes.
fn measured(file: &BlobFile, ways: [Go; 2], rounds: usize) -> Vec<Measured> {
    let mut times = vec![Vec::new(); ways.len()];
    let mut wanted = vec![0; file.bytes.len()];
    let (_, wanted_sum) = timed(ways[0], file, &mut wanted);
    let mut buffer = wanted.clone();
    for _ in 0..rounds {
        for (go, times) in ways.iter().zip(&mut times) {
            buffer.fill(0);
            let (time, sum) = timed(*go, file, &mut buffer);
            assert_eq!(sum, wanted_sum, "another sum");
            assert!(buffer == wanted, "other bytes");
            times.push(time);
        }
    }
    beside(&times)
}

/// The times of what is done with blob files, in rounds of both ways one after the other.
pub fn tables(rounds: usize) {
    let files = [small_blobs(), large_blobs()];
    let columns = files.each_ref().map(|file| file.name);
    for task in TASKS {
        let ways = task.map(|(_, go)| go);
        let all = files.each_ref().map(|file| measured(file, ways, rounds));
        let rows = task.map(|(name, _)| name);
        print("ns per entry", &columns, &rows, &all);
    }
}
