//! The form of the two files of a casebook: cases with the lengths of their
//! pieces, two shards to be joined with a buffer, a stretch to be planned, a
//! shard to be audited, a blob file with a position, and an entry to be written
//! with a buffer, in; all that is made of each out.

use std::fmt::Display;

use crate::audit::{audit, Audited};
use crate::blobfiles::{self, BlobFile};
use crate::blobs::{self, entry_at, put_entry, scan, Tally};
use crate::cases::{random_cut_case, Case};
use crate::draw::{Draw, ROOMS};
use crate::generate::{Rng, LONGEST};
use crate::join::join;
use crate::naming::Naming;
use crate::plan::{plan, Row};
use crate::puts::Put;
use crate::reader::{
    find_chunk, find_file, hash_at, judge, Answer, ChunkIndex, Fields, Hash, Kind, Reader, Record,
    Refusal, Verdict, ALL_ONES,
};
use crate::stretch::Stretch;
use crate::vectors::{encode, line};

/// The cases of the stored files.
pub const CASES: u64 = 40;

/// Their seed, which brings every number of a reader.
pub const SEED: u64 = 2_767;

/// The longest shard that the program reads, and the longest blob file.
const SHARD_MOST: usize = 8_192;

/// It reads every shard of a stretch, every one to be audited, and every file.
const _: () = assert!(LONGEST <= SHARD_MOST && blobfiles::LONGEST <= SHARD_MOST);

/// The rows of the program's table; a stretch is lent no more.
const ROWS: usize = 8;

/// A case, and the lengths of the pieces that it is read in; two shards to be
/// joined, and the buffer that is lent for it; a stretch to be planned; a shard
/// to be audited; a blob file, and a position in it; an entry to be written.
#[derive(Clone, Debug)]
pub struct Entry {
    /// The case.
    pub case: Case,
    /// The lengths, used over and over; none is one piece. A 0 is an empty
    /// piece and then one of a byte.
    pub pieces: Vec<u8>,
    /// The shards to be joined.
    pub pair: Draw,
    /// The buffer.
    pub buffer: Vec<u8>,
    /// The stretch.
    pub stretch: Stretch,
    /// The shard to be audited.
    pub naming: Naming,
    /// The blob file.
    pub file: BlobFile,
    /// The position.
    pub at: u64,
    /// The entry to be written, and the buffer that is lent for it.
    pub put: Put,
}

impl Entry {
    /// The entry of this number in the casebook of this seed.
    pub fn random(seed: u64, number: u64) -> Self {
        let own = number.wrapping_mul(0xD134_2543_DE82_EF95);
        let rng = &mut Rng::new(seed.wrapping_add(own));
        let case = random_cut_case(rng);
        let longest = rng.pick(&[1, 10, 60, 255]);
        let count = rng.pick(&[0, 1, 2, 7]);
        let pieces = (0..count).map(|_| rng.below(longest + 1) as u8).collect();
        let pair = Draw::short_pair(rng, number, SHARD_MOST);
        let room = rng.pick(&ROOMS).bytes(rng, &pair);
        let buffer = rng.bytes(room);
        let turn = rng.word();
        let stretch = Stretch::random(rng, turn);
        let turn = rng.word();
        let naming = Naming::random(rng, turn);
        let file = BlobFile::random(rng, number);
        let at = file.position(rng);
        let put = Put::random(rng, number);
        Entry {
            case,
            pieces,
            pair,
            buffer,
            stretch,
            naming,
            file,
            at,
            put,
        }
    }

    /// Its bytes in the input file: the case, K and K lengths; then in the form
    /// of a case the tag and the first shard, and the second shard and the
    /// buffer, each behind its length; then again in the form of a case the
    /// tag and the shard of the stretch, and what is asked of it; then once more
    /// the tag and the shard to be audited; then the blob file and the position,
    /// in the form of a case the digits and the data, and the buffer.
    pub fn encode(&self) -> Vec<u8> {
        let mut bytes = encode(&self.case.tag, &self.case.shard);
        bytes.push(self.pieces.len() as u8);
        bytes.extend(&self.pieces);
        bytes.extend(encode(&self.pair.tag, &self.pair.shards[0]));
        bytes.extend(behind_length(&self.pair.shards[1]));
        bytes.extend(behind_length(&self.buffer));
        bytes.extend(encode(&self.stretch.known.tag, &self.stretch.known.shard));
        bytes.extend(self.asked());
        bytes.extend(encode(&self.naming.known.tag, &self.naming.known.shard));
        bytes.extend(behind_length(&self.file.bytes));
        bytes.push(8);
        bytes.extend(self.at.to_le_bytes());
        bytes.extend(encode(&self.put.digits, &self.put.data));
        bytes.extend(behind_length(&self.put.buffer));
        bytes
    }

    /// What is asked of the stretch's shard, behind its length: the file's
    /// number, the first byte, the byte after the last and the rows lent.
    fn asked(&self) -> Vec<u8> {
        let stretch = &self.stretch;
        let mut bytes = vec![24];
        bytes.extend(stretch.file.to_le_bytes());
        bytes.extend(stretch.a.to_le_bytes());
        bytes.extend(stretch.b.to_le_bytes());
        bytes.extend((stretch.room as u32).to_le_bytes());
        bytes
    }

    /// Its lines in the output file, and the verdict.
    pub fn lines(&self) -> (String, Verdict) {
        let (tag, shard) = (&self.case.tag[..], &self.case.shard[..]);
        let (records, verdict) = self.read();
        let mut lines: Vec<String> = records.iter().map(record_line).collect();
        lines.push(line(&verdict));
        lines.push("whole ".to_string() + &line(&judge(tag, shard)));
        lines.push(chunk_line(tag, shard, last_hash(&records, Kind::Chunk)));
        lines.push(file_line(tag, shard, last_hash(&records, Kind::FileHead)));
        lines.push(written_line(tag, shard, &records));
        lines.push(self.joined_line());
        lines.extend(self.planned_lines());
        lines.push(self.audited_line());
        lines.push(self.scanned_line());
        lines.push(self.entry_line());
        lines.push(self.put_line());
        (lines.join("\n") + "\n", verdict)
    }

    /// What joining answers.
    pub fn joined(&self, buffer: &mut [u8]) -> Result<usize, Refusal> {
        join(
            &self.pair.tag,
            &self.pair.shards[0],
            &self.pair.shards[1],
            buffer,
        )
    }

    /// That, and a sum that tells where each byte of the buffer stands after it.
    fn joined_line(&self) -> String {
        let mut buffer = self.buffer.clone();
        let said = answer(self.joined(&mut buffer));
        format!("joined {said}, the buffer's sum {}", sum(&buffer))
    }

    /// What planning answers; of the table no more rows are lent than it has.
    pub fn planned(&self, table: &mut [Row]) -> Result<usize, Refusal> {
        let stretch = &self.stretch;
        let lent = stretch.room.min(table.len());
        plan(
            &stretch.known.tag,
            &stretch.known.shard,
            stretch.file,
            stretch.a,
            stretch.b,
            &mut table[..lent],
        )
    }

    /// That, and every row of the table after it.
    fn planned_lines(&self) -> Vec<String> {
        let mut table = blanks();
        let said = answer(self.planned(&mut table));
        let mut lines = vec![format!("planned {said}")];
        lines.extend(table.iter().map(row_line));
        lines
    }

    /// What auditing answers.
    pub fn audited(&self) -> Result<Audited, Refusal> {
        audit(&self.naming.known.tag, &self.naming.known.shard)
    }

    /// That: listed segments, then unlisted ones.
    fn audited_line(&self) -> String {
        let counts = |sums: Audited| format!("{} {}", sums.listed, sums.unlisted);
        format!("audited {}", answer(self.audited().map(counts)))
    }

    /// What a scan of the blob file answers.
    pub fn scanned(&self) -> Result<Tally, Refusal> {
        scan(&self.file.bytes)
    }

    /// That: the entries, and the sum of their data lengths.
    fn scanned_line(&self) -> String {
        let counts = |tally: Tally| format!("{} {}", tally.entries, tally.bytes);
        format!("scanned {}", answer(self.scanned().map(counts)))
    }

    /// The entry of the blob file at the position.
    pub fn entry(&self) -> Result<blobs::Entry<'_>, Refusal> {
        entry_at(&self.file.bytes, self.at)
    }

    /// That: where the digits and the data stand, the data's length, and the
    /// next position.
    fn entry_line(&self) -> String {
        let file = self.file.bytes.as_ptr() as usize;
        let place = |part: &[u8]| part.as_ptr() as usize - file;
        let said = self.entry().map(|entry| {
            let (digits, data) = (place(entry.digits), place(entry.data));
            format!("{digits} {data} {} {}", entry.data.len(), entry.next)
        });
        format!("entry {}", answer(said))
    }

    /// What writing the entry answers.
    pub fn wrote(&self, buffer: &mut [u8]) -> Result<usize, Refusal> {
        put_entry(&self.put.digits, &self.put.data, buffer)
    }

    /// That, and a sum that tells where each byte of the buffer stands after it.
    fn put_line(&self) -> String {
        let mut buffer = self.put.buffer.clone();
        let said = answer(self.wrote(&mut buffer));
        format!("put {said}, the buffer's sum {}", sum(&buffer))
    }

    /// The records and the verdict of a reader on these pieces.
    fn read(&self) -> (Vec<Record>, Verdict) {
        let mut reader = Reader::new(&self.case.tag);
        let mut records = Vec::new();
        let mut left = &self.case.shard[..];
        let mut sizes = self.pieces.iter().cycle();
        while !left.is_empty() {
            let size = sizes.next().map_or(left.len(), |&size| size.into());
            if size == 0 {
                offer(&mut reader, &[], &mut records);
            }
            let (piece, rest) = left.split_at(size.max(1).min(left.len()));
            offer(&mut reader, piece, &mut records);
            left = rest;
        }
        (records, reader.verdict())
    }
}

/// Offers a piece until it is used up or refused.
fn offer(reader: &mut Reader, mut piece: &[u8], records: &mut Vec<Record>) {
    loop {
        let fed = reader.feed(piece);
        if let Answer::Record(record) = fed.answer {
            records.push(record);
        }
        piece = &piece[fed.taken..];
        if fed.taken == 0 || piece.is_empty() {
            return;
        }
    }
}

/// A part of the input file behind four bytes that tell its length.
fn behind_length(part: &[u8]) -> Vec<u8> {
    let length = (part.len() as u32).to_le_bytes();
    [&length[..], part].concat()
}

/// A sum that tells where each byte stands.
fn sum(buffer: &[u8]) -> u64 {
    let add = |sum: u64, &byte: &u8| (sum * 257 + u64::from(byte)) % 4_294_967_291;
    buffer.iter().fold(0, add)
}

/// The bytes of a join or of an entry, the rows of a plan, the counts of an
/// audit or a scan, the places of an entry, or a refusal.
fn answer(answer: Result<impl Display, Refusal>) -> String {
    match answer {
        Ok(counts) => format!("ok {counts}"),
        Err(refusal) => line(&Err(refusal)),
    }
}

/// The program's table: rows that no plan made, told apart by their number.
pub fn blanks() -> [Row; ROWS] {
    std::array::from_fn(|place| {
        let number = place as u64 + 1;
        Row {
            xorb: [number; 4],
            start: ChunkIndex(number),
            end: ChunkIndex(number),
            skip: number,
            take: number,
        }
    })
}

/// Xorb hash, chunk start and end, bytes to skip and to take.
fn row_line(row: &Row) -> String {
    let [p, q, r, s] = row.xorb;
    let (start, end, skip, take) = (row.start.0, row.end.0, row.skip, row.take);
    format!("row {p} {q} {r} {s} {start} {end} {skip} {take}")
}

/// Kind, position, xorb offset (of a footer, else 0), hash and four numbers.
fn record_line(record: &Record) -> String {
    let ([p, q, r, s], [a, b, c, d]) = numbers(&record.fields);
    let (kind, position) = (record.kind as u8, record.position.0);
    let offset = match record.fields {
        Fields::Footer { xorb_offset, .. } => xorb_offset.0,
        _ => 0,
    };
    format!("{kind} {position} {offset} {p} {q} {r} {s} {a} {b} {c} {d}")
}

/// The hash, and four numbers of 32 bits: those behind it in the record.
fn numbers(fields: &Fields) -> (Hash, [u32; 4]) {
    match *fields {
        Fields::Header {
            tag,
            version,
            footer_size,
        } => (hash_at(&tag, 0), halves(version, footer_size)),
        Fields::FileHead {
            hash,
            flags,
            entries,
        } => (hash, [flags, entries, 0, 0]),
        Fields::Segment {
            hash,
            bytes,
            start,
            end,
        } => (hash, [0, bytes, start.0 as u32, end.0 as u32]),
        Fields::Verification { hash } | Fields::Metadata { hash } => (hash, [0; 4]),
        Fields::XorbHead {
            hash,
            entries,
            bytes,
            on_disk,
        } => (hash, [0, entries, bytes, on_disk]),
        Fields::Chunk { hash, start, bytes } => (hash, [start, bytes, 0, 0]),
        Fields::Bookend => (ALL_ONES, [0; 4]),
        Fields::Footer {
            key,
            created,
            expiry,
            ..
        } => (key, halves(created, expiry)),
    }
}

/// Two numbers of 64 bits as four of 32, the lower half first.
fn halves(first: u64, second: u64) -> [u32; 4] {
    [first, first >> 32, second, second >> 32].map(|number| number as u32)
}

/// The hash of the last record of this kind, or zeros.
fn last_hash(records: &[Record], kind: Kind) -> Hash {
    let last = records.iter().rfind(|record| record.kind == kind);
    last.map_or([0; 4], |record| numbers(&record.fields).0)
}

fn chunk_line(tag: &[u8], shard: &[u8], hash: Hash) -> String {
    found_line("chunk", find_chunk(tag, shard, hash), |found| {
        let (block, index) = (found.block, found.index.0);
        format!("in {block} index {index} at {}", found.position.0)
    })
}

fn file_line(tag: &[u8], shard: &[u8], hash: Hash) -> String {
    found_line("file", find_file(tag, shard, hash), |found| {
        format!("{} at {}", found.number.0, found.position.0)
    })
}

fn found_line<T>(
    name: &str,
    found: Result<Option<T>, Refusal>,
    said: impl Fn(T) -> String,
) -> String {
    let said = match found {
        Ok(Some(found)) => said(found),
        Ok(None) => "absent".to_string(),
        Err(refusal) => line(&Err(refusal)),
    };
    format!("{name} {said}")
}

/// The good records written again are the bytes they were read from, and the
/// writer's verdict is a reader's on just those.
fn written_line(tag: &[u8], shard: &[u8], records: &[Record]) -> String {
    let length: usize = records.iter().map(|record| record.kind.size()).sum();
    let verdict = line(&judge(tag, &shard[..length]));
    format!("written {length} bytes, the same, {verdict}")
}
