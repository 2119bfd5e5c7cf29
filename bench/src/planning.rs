//! Planning a stretch of one file, beside judging the shard and an ordinary plan of it.

use bench::inputs::{files, scan, tag, Input};
use bench::measured::{beside, print, Measured};
use bench::ordinary_plan::plan;
use melagbosun::{judge, plan_into, FetchRow, FileNumber};
use std::hint::black_box;
use std::ops::Range;
use std::time::Instant;

/// A stretch of one file of a shard, and its plan.
struct Stretch {
    name: &'static str,
    input: Input,
    file: u32,
    range: Range<u64>,
    rows: Vec<FetchRow>,
}

impl Stretch {
    fn new(name: &'static str, input: Input, file: u32, range: Range<u64>) -> Self {
        let planned = melagbosun::plan(&tag(), &input.shard, FileNumber(file), range.clone());
        let rows = planned.expect("a good stretch");
        Stretch {
            name,
            input,
            file,
            range,
            rows,
        }
    }
}

fn by_ordinary(tag: &[u8; 32], stretch: &Stretch, table: &mut [FetchRow]) {
    let shard = &stretch.input.shard;
    judge(tag, shard).expect("a good shard");
    let rows = plan(shard, stretch.file, &stretch.range, table);
    rows.expect("a good stretch");
}

fn by_plan(tag: &[u8; 32], stretch: &Stretch, table: &mut [FetchRow]) {
    let shard = &stretch.input.shard;
    let rows = plan_into(
        tag,
        shard,
        FileNumber(stretch.file),
        stretch.range.clone(),
        table,
    );
    rows.expect("a good stretch");
}

type Go = fn(&[u8; 32], &Stretch, &mut [FetchRow]);

/// One round of one way: nanoseconds per record of the shard.
fn timed(go: Go, stretch: &Stretch, table: &mut [FetchRow]) -> f64 {
    let tag = tag();
    let start = Instant::now();
    go(black_box(&tag), black_box(stretch), black_box(table));
    let time = start.elapsed();
    time.as_nanos() as f64 / stretch.input.offers.len() as f64
}

fn measured(stretch: &Stretch, ways: &[Go], rounds: usize) -> Vec<Measured> {
    let mut times = vec![Vec::new(); ways.len()];
    let mut table = vec![FetchRow::default(); stretch.rows.len()];
    for _ in 0..rounds {
        for (go, times) in ways.iter().zip(&mut times) {
            times.push(timed(*go, stretch, &mut table));
            assert!(table == stretch.rows, "other rows");
            table.fill(FetchRow::default());
        }
    }
    beside(&times)
}

/// The times of planning, in rounds of both ways one after the other.
pub fn table(rounds: usize) {
    let stretches = [
        Stretch::new("last of 100,000 files", files(), 99_999, 0..65_536),
        Stretch::new("300,000 segments, the last byte", scan(), 0, SCAN - 1..SCAN),
        Stretch::new("300,000 segments, all", scan(), 0, 0..SCAN),
    ];
    let ways: [Go; 2] = [by_ordinary, by_plan];
    let all: Vec<_> = stretches
        .iter()
        .map(|one| measured(one, &ways, rounds))
        .collect();
    let columns: Vec<&str> = stretches.iter().map(|one| one.name).collect();
    let rows = ["`mdb_judge`, and an ordinary Rust plan", "`mdb_plan`"];
    print("ns per record of the shard", &columns, &rows, &all);
}

/// The bytes of the file that has 300,000 segments.
const SCAN: u64 = 300_000 * 65_536;
