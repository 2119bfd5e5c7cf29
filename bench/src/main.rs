//! `bench ROUNDS` times everything and prints a table; `bench count WAY TIMES` reads 300,000 chunks so often by one way, for
//! an instruction counter.

mod auditing;
mod blob_files;
mod joining;
mod planning;

use bench::inputs::{chunks, empty, files, tag, Input};
use bench::measured::{beside, print, Measured};
use bench::{fold, ordinary::Ordinary};
use melagbosun::{Reader, Said, Writer};
use std::hint::black_box;
use std::time::Instant;
use std::{env, process::ExitCode};

/// The length of the pieces that a reader gets.
const PIECE: usize = 4096;

/// One way to go over a shard once, with a buffer as long as the shard; the answer is the consumer's sum, or 0.
struct Way {
    key: &'static str,
    name: &'static str,
    go: fn(&[u8; 32], &Input, &mut [u8]) -> u64,
}

const WAYS: &[Way] = &[
    Way {
        key: "ordinary",
        name: "ordinary Rust reader",
        go: by_ordinary,
    },
    Way {
        key: "read",
        name: "this reader, `mdb_reader_read`",
        go: by_read,
    },
    Way {
        key: "step",
        name: "this reader, `mdb_reader_step`",
        go: by_step,
    },
    Way {
        key: "judge",
        name: "`mdb_judge`, no records handed out",
        go: by_judge,
    },
    Way {
        key: "find",
        name: "`mdb_find_chunk`, hash absent",
        go: by_find,
    },
    Way {
        key: "write",
        name: "writer, `mdb_writer_put`",
        go: by_write,
    },
    Way {
        key: "copy",
        name: "plain copy of the bytes",
        go: by_copy,
    },
];

fn by_ordinary(tag: &[u8; 32], input: &Input, _: &mut [u8]) -> u64 {
    let mut sum = 0;
    let mut reader = Ordinary::new(tag);
    for piece in input.shard.chunks(PIECE) {
        let read = reader.read(piece, |record| fold(&mut sum, &record));
        read.expect("a good shard");
    }
    reader.verdict().expect("a good shard");
    sum
}

fn by_read(tag: &[u8; 32], input: &Input, _: &mut [u8]) -> u64 {
    let mut sum = 0;
    let mut reader = Reader::new(tag);
    for piece in input.shard.chunks(PIECE) {
        let read = reader.read(piece, |record| fold(&mut sum, &record));
        read.expect("a good shard");
    }
    reader.verdict().expect("a good shard");
    sum
}

fn by_step(tag: &[u8; 32], input: &Input, _: &mut [u8]) -> u64 {
    let mut sum = 0;
    let mut reader = Reader::new(tag);
    for mut piece in input.shard.chunks(PIECE) {
        while !piece.is_empty() {
            let step = reader.step(piece);
            if let Said::Record(record) = step.said {
                fold(&mut sum, &record);
            }
            piece = &piece[step.taken..];
        }
    }
    reader.verdict().expect("a good shard");
    sum
}

fn by_judge(tag: &[u8; 32], input: &Input, _: &mut [u8]) -> u64 {
    melagbosun::judge(tag, &input.shard).expect("a good shard");
    0
}

fn by_find(tag: &[u8; 32], input: &Input, _: &mut [u8]) -> u64 {
    let absent = melagbosun::Hash([1, 2, 3, 4]);
    let found = melagbosun::find_chunk(tag, &input.shard, absent);
    assert_eq!(found, Ok(None));
    0
}

fn by_write(tag: &[u8; 32], input: &Input, buffer: &mut [u8]) -> u64 {
    let mut writer = Writer::new(tag);
    let mut at = 0;
    for offer in &input.offers {
        at += writer.put(offer, &mut buffer[at..]).expect("a good offer");
    }
    0
}

fn by_copy(_: &[u8; 32], input: &Input, buffer: &mut [u8]) -> u64 {
    buffer.copy_from_slice(&input.shard);
    0
}

/// One round of one way: nanoseconds per record, and the sum.
fn timed(way: &Way, input: &Input, buffer: &mut [u8]) -> (f64, u64) {
    let tag = tag();
    let mut sum = 0;
    let start = Instant::now();
    for _ in 0..input.times {
        sum = (way.go)(black_box(&tag), black_box(input), black_box(buffer));
    }
    let time = start.elapsed();
    (time.as_nanos() as f64 / input.records() as f64, sum)
}

/// The times of all ways on one input, round by round one after the other. All readers must come to the same sum, and the
/// writer to the same bytes.
fn measured(input: &Input, rounds: usize) -> Vec<Measured> {
    let mut times = vec![Vec::new(); WAYS.len()];
    let mut buffer = vec![0; input.shard.len()];
    let (_, wanted) = timed(&WAYS[0], input, &mut buffer);
    for _ in 0..rounds {
        for (way, times) in WAYS.iter().zip(&mut times) {
            let (time, sum) = timed(way, input, &mut buffer);
            let reads = ["ordinary", "read", "step"].contains(&way.key);
            assert_eq!(sum, if reads { wanted } else { 0 }, "{}", way.name);
            times.push(time);
            if way.key == "write" {
                assert!(buffer == input.shard, "the writer wrote other bytes");
                buffer.fill(0);
            }
        }
    }
    beside(&times)
}

fn table(rounds: usize) {
    let inputs = [empty(), chunks(), files()];
    let all: Vec<_> = inputs.iter().map(|one| measured(one, rounds)).collect();
    let columns: Vec<&str> = inputs.iter().map(|input| input.name).collect();
    let rows: Vec<&str> = WAYS.iter().map(|way| way.name).collect();
    print("ns per record", &columns, &rows, &all);
    joining::table(rounds);
    planning::table(rounds);
    auditing::table(rounds);
    blob_files::tables(rounds);
}

fn count(key: &str, times: usize) -> Option<u64> {
    let way = WAYS.iter().find(|way| way.key == key)?;
    let input = chunks();
    let mut buffer = vec![0; input.shard.len()];
    let go = |_| (way.go)(&tag(), black_box(&input), black_box(&mut buffer));
    (0..times).map(go).last()
}

fn main() -> ExitCode {
    let args: Vec<String> = env::args().skip(1).collect();
    let words: Vec<&str> = args.iter().map(String::as_str).collect();
    let done = match words[..] {
        [rounds] => rounds.parse().ok().map(table),
        ["count", key, times] => times.parse().ok().and_then(|n| count(key, n)).map(|_| ()),
        _ => None,
    };
    if done.is_none() {
        eprintln!("usage: bench ROUNDS, or bench count WAY TIMES");
        return ExitCode::FAILURE;
    }
    ExitCode::SUCCESS
}
