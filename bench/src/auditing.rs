//! Auditing a shard, beside judging it and two ordinary audits of it.

use bench::inputs::{listed, tag, unlisted, Audit};
use bench::measured::{beside, print, Measured};
use bench::ordinary_audit::{audit, audit_by_table};
use melagbosun::{judge, Audited, Refusal};
use std::hint::black_box;
use std::time::Instant;

/// A round takes more than a second, so there are no more than these.
const MOST_ROUNDS: usize = 15;

type Go = fn(&[u8; 32], &[u8]) -> Result<Audited, Refusal>;

const WAYS: [(&str, Go); 3] = [
    ("`mdb_judge`, and an ordinary Rust audit", by_ordinary),
    ("`mdb_audit`", by_audit),
    (
        "`mdb_judge`, and one with a `HashMap` of the xorbs",
        by_table,
    ),
];

/// So many of them go through the heads of the xorb blocks for each segment.
const BY_HEADS: usize = 2;

fn by_ordinary(tag: &[u8; 32], shard: &[u8]) -> Result<Audited, Refusal> {
    judge(tag, shard)?;
    audit(shard)
}

fn by_audit(tag: &[u8; 32], shard: &[u8]) -> Result<Audited, Refusal> {
    melagbosun::audit(tag, shard)
}

fn by_table(tag: &[u8; 32], shard: &[u8]) -> Result<Audited, Refusal> {
    judge(tag, shard)?;
    audit_by_table(shard)
}

/// One round of one way: nanoseconds.
fn timed(go: Go, audit: &Audit) -> f64 {
    let tag = tag();
    let start = Instant::now();
    let answer = go(black_box(&tag), black_box(&audit.input.shard));
    let time = start.elapsed();
    assert_eq!(answer, Ok(audit.counts));
    time.as_nanos() as f64
}

/// The times of all ways, round by round one after the other.
fn times(audit: &Audit, rounds: usize) -> Vec<Vec<f64>> {
    let mut times = vec![Vec::new(); WAYS.len()];
    for _ in 0..rounds {
        for ((_, go), times) in WAYS.iter().zip(&mut times) {
            times.push(timed(*go, audit));
        }
    }
    times
}

/// What rounds come to where so many nanoseconds are one.
fn measured(times: &[Vec<f64>], one: f64) -> Vec<Measured> {
    let scaled = times.iter().map(|way| way.iter().map(|time| time / one));
    let scaled: Vec<Vec<f64>> = scaled.map(Iterator::collect).collect();
    beside(&scaled)
}

/// The times of auditing, in rounds of all ways one after the other.
pub fn table(rounds: usize) {
    let rounds = rounds.min(MOST_ROUNDS);
    let audits = [listed(), unlisted()];
    let all = audits.each_ref().map(|audit| times(audit, rounds));
    let columns = audits.each_ref().map(|audit| audit.input.name);
    let rows = WAYS.map(|(name, _)| name);
    println!("Audits, {rounds} rounds:\n");
    let whole = all.each_ref().map(|times| measured(times, 1e6));
    print("ms", &columns, &rows, &whole);
    let [_, last] = &audits;
    let pairs = last.counts.unlisted as f64 * f64::from(last.xorbs);
    let each = [measured(&all[1][..BY_HEADS], pairs)];
    print(
        "ns per segment and xorb",
        &columns[1..],
        &rows[..BY_HEADS],
        &each,
    );
}
