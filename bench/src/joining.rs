//! Joining two shards, beside judging both and copying as many bytes as the joined one has.

use bench::inputs::{halves, tag, Input};
use bench::measured::{beside, print, Measured};
use melagbosun::{join_into, judge};
use std::hint::black_box;
use std::time::Instant;

/// A shard that is joined with a copy of itself, and what that gives.
struct Pair {
    first: Input,
    second: Vec<u8>,
    joined: Vec<u8>,
}

impl Pair {
    fn new(first: Input) -> Self {
        let second = first.shard.clone();
        let both = [&first.shard[..], &second[..]];
        let joined = melagbosun::join(&tag(), &both).expect("good shards");
        Pair {
            first,
            second,
            joined,
        }
    }
}

fn judge_and_copy(tag: &[u8; 32], pair: &Pair, buffer: &mut [u8]) {
    judge(tag, &pair.first.shard).expect("a good shard");
    judge(tag, &pair.second).expect("a good shard");
    buffer.copy_from_slice(&pair.joined);
}

fn join(tag: &[u8; 32], pair: &Pair, buffer: &mut [u8]) {
    join_into(tag, &pair.first.shard, &pair.second, buffer).expect("good shards");
}

type Go = fn(&[u8; 32], &Pair, &mut [u8]);

/// One round of one way: nanoseconds per record of the two shards.
fn timed(go: Go, pair: &Pair, buffer: &mut [u8]) -> f64 {
    let tag = tag();
    let start = Instant::now();
    for _ in 0..pair.first.times {
        go(black_box(&tag), black_box(pair), black_box(buffer));
    }
    let time = start.elapsed();
    time.as_nanos() as f64 / (2 * pair.first.records()) as f64
}

fn measured(pair: &Pair, ways: &[Go], rounds: usize) -> Vec<Measured> {
    let mut times = vec![Vec::new(); ways.len()];
    let mut buffer = vec![0; pair.joined.len()];
    for _ in 0..rounds {
        for (go, times) in ways.iter().zip(&mut times) {
            times.push(timed(*go, pair, &mut buffer));
            assert!(buffer == pair.joined, "other bytes");
            buffer.fill(0);
        }
    }
    beside(&times)
}

/// The times of joining, in rounds of both ways one after the other.
pub fn table(rounds: usize) {
    let pairs = halves().map(Pair::new);
    let ways: [Go; 2] = [judge_and_copy, join];
    let all: Vec<_> = pairs
        .iter()
        .map(|one| measured(one, &ways, rounds))
        .collect();
    let columns: Vec<&str> = pairs.iter().map(|pair| pair.first.name).collect();
    let rows = ["`mdb_judge` of both, and a plain copy", "`mdb_join`"];
    print("ns per record of the two shards", &columns, &rows, &all);
}
