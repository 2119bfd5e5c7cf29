//! Two audits as one would write them in Rust, of a shard that is known to be accepted. They go over the segments file by file. One
//! seeks a segment's xorb by the heads of the xorb blocks, as the proved audit does; the other has a table of the blocks.

use melagbosun::{Audited, Position, Refusal};
use std::collections::HashMap;

const ENTRY: usize = 48;

type Entry = [u8; ENTRY];

type Hash = [u8; 32];

fn u32_at(record: &Entry, at: usize) -> u32 {
    u32::from_le_bytes(record[at..at + 4].try_into().expect("four bytes"))
}

fn hash(record: &Entry) -> &Hash {
    record.first_chunk().expect("32 bytes")
}

fn is_bookend(head: &Entry) -> bool {
    hash(head) == &[0xFF; 32]
}

fn entries(head: &Entry) -> usize {
    u32_at(head, 36) as usize
}

/// How many records a file block has, its head among them.
fn file_size(head: &Entry) -> usize {
    let flags = u32_at(head, 32);
    let verified = if flags >> 31 == 1 { entries(head) } else { 0 };
    1 + entries(head) + verified + (flags >> 30 & 1) as usize
}

/// The records of the files and their bookend, and those behind them.
fn sections(shard: &[u8]) -> (&[Entry], &[Entry]) {
    let (records, _) = shard[ENTRY..].as_chunks();
    let mut at = 0;
    while !is_bookend(&records[at]) {
        at += file_size(&records[at]);
    }
    records.split_at(at + 1)
}

/// The first xorb block of a hash: its head, and its chunks.
fn block<'a>(mut xorbs: &'a [Entry], wanted: &Hash) -> Option<&'a [Entry]> {
    loop {
        let head = &xorbs[0];
        let size = 1 + entries(head);
        if is_bookend(head) {
            return None;
        }
        if hash(head) == wanted {
            return Some(&xorbs[..size]);
        }
        xorbs = &xorbs[size..];
    }
}

/// The first xorb block of each hash.
fn blocks(mut xorbs: &[Entry]) -> HashMap<&Hash, &[Entry]> {
    let mut blocks = HashMap::new();
    while !is_bookend(&xorbs[0]) {
        let (block, rest) = xorbs.split_at(1 + entries(&xorbs[0]));
        blocks.entry(hash(&block[0])).or_insert(block);
        xorbs = rest;
    }
    blocks
}

/// Whether a segment is true of a block. The chunks follow each other, so that a sum of lengths is a difference of starts.
fn is_true(segment: &Entry, block: &[Entry]) -> bool {
    let [start, end] = [40, 44].map(|at| u32_at(segment, at) as usize);
    let (head, chunks) = (&block[0], &block[1..]);
    let chunk_start = |i| match chunks.get(i) {
        Some(chunk) => u64::from(u32_at(chunk, 32)),
        None => u64::from(u32_at(head, 40)),
    };
    let bytes = u64::from(u32_at(segment, 36));
    end <= chunks.len() && chunk_start(start) + bytes == chunk_start(end)
}

/// The audit of files, given how the block of a hash is found.
fn audited<'a>(
    files: &[Entry],
    block: impl Fn(&Hash) -> Option<&'a [Entry]>,
) -> Result<Audited, Refusal> {
    let mut audited = Audited::default();
    let mut at = 0;
    while !is_bookend(&files[at]) {
        let head = &files[at];
        for (i, segment) in files[at + 1..][..entries(head)].iter().enumerate() {
            match block(hash(segment)) {
                None => audited.unlisted += 1,
                Some(block) if is_true(segment, block) => audited.listed += 1,
                Some(_) => return Err(false_at(at + 1 + i)),
            }
        }
        at += file_size(head);
    }
    Ok(audited)
}

/// The refusal of the record of this number behind the header.
fn false_at(record: usize) -> Refusal {
    let position = Position((ENTRY + ENTRY * record) as u64);
    Refusal {
        number: 22,
        position,
    }
}

/// Audits by the heads of the xorb blocks.
pub fn audit(shard: &[u8]) -> Result<Audited, Refusal> {
    let (files, xorbs) = sections(shard);
    audited(files, |hash| block(xorbs, hash))
}

/// Audits by a table of the xorb blocks.
pub fn audit_by_table(shard: &[u8]) -> Result<Audited, Refusal> {
    let (files, xorbs) = sections(shard);
    let blocks = blocks(xorbs);
    audited(files, |hash| blocks.get(hash).copied())
}
