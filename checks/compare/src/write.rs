//! Writing: what was read, offered record by record, gives the same bytes; and offers that must be refused are.

use crate::{alike, same, Checked, Seen};
use checks::cases::Case;
use checks::generate::Rng;
use checks::reader::{hash_at, u32_at, u64_at, Fields, Kind, Record, Refusal, Verdict};
use melagbosun::{ChunkIndex, Hash, Offer, Writer};

/// What a byte of the buffer has before it is written.
const BEFORE: u8 = 0xA5;

struct Writing<'a> {
    writer: Writer,
    seen: &'a mut Seen,
}

impl Writing<'_> {
    /// One offer into a buffer of this size; the answer, and the buffer after it.
    fn put(&mut self, offer: &Offer, size: usize) -> (Result<usize, Refusal>, Vec<u8>) {
        let mut buffer = vec![BEFORE; size];
        let answer = self.writer.put(offer, &mut buffer);
        self.seen.written[answer.map_or_else(|refusal| refusal.number as usize, |_| 0)] += 1;
        (answer.map_err(same::refusal), buffer)
    }

    /// An offer that must be refused, the buffer and the writer staying as they are.
    fn refused(&mut self, offer: &Offer, size: usize, wanted: Refusal) -> Checked {
        let before = self.writer.verdict();
        let what = format!("an offer into {size} bytes, {offer:?}");
        let wanted = (Err(wanted), vec![BEFORE; size]);
        alike(&what, self.put(offer, size), wanted)?;
        alike(
            "verdict after a refused offer",
            self.writer.verdict(),
            before,
        )
    }

    /// An offer that must give these bytes, and leave those after them.
    fn accepted(&mut self, offer: &Offer, bytes: &[u8], room: usize) -> Checked {
        let mut after = bytes.to_vec();
        after.resize(bytes.len() + room, BEFORE);
        let what = format!("writing {offer:?}");
        alike(
            &what,
            self.put(offer, after.len()),
            (Ok(bytes.len()), after.clone()),
        )
    }
}

/// A case as it was read.
pub struct Read<'a> {
    pub case: &'a Case,
    /// The independent reader's records.
    pub records: &'a [Record],
    /// The product's records, as offers.
    pub offers: &'a [Offer],
    pub verdict: Verdict,
}

/// The good records of a case to a writer, with bad offers between them; then the faulty record, if it can be offered.
pub fn again(read: &Read, rng: &mut Rng, seen: &mut Seen) -> Checked {
    let &Read {
        case,
        records,
        offers,
        verdict,
    } = read;
    let writer = Writer::new(&case.tag);
    let mut writing = Writing { writer, seen };
    if case.tag.len() != 32 {
        writing.refused(&some_offer(rng, Kind::Header), 48, Refusal::new(2, 0))?;
        return alike(
            "a writer's verdict",
            same::verdict(writing.writer.verdict()),
            verdict,
        );
    }
    for (record, offer) in records.iter().zip(offers) {
        let (start, size) = (record.position.0, record.kind.size());
        let end = start as usize + size;
        let bytes = &case.shard[start as usize..end];
        if rng.once_in(4) {
            writing.refused(offer, rng.place(size), Refusal::new(15, start))?;
        }
        if rng.once_in(4) {
            let other = rng.pick(&Kind::ALL);
            if !due_with(record.kind).contains(&other) {
                let size = rng.place(250);
                writing.refused(&some_offer(rng, other), size, Refusal::new(16, start))?;
            }
        }
        writing.accepted(offer, bytes, rng.place(20))?;
    }
    match verdict {
        Ok(_) => {
            let late = Refusal::new(16, case.shard.len() as u64);
            let kind = rng.pick(&Kind::ALL);
            writing.refused(&some_offer(rng, kind), 200, late)?;
            alike(
                "a writer's verdict",
                same::verdict(writing.writer.verdict()),
                verdict,
            )
        }
        Err(refusal) => {
            faulty(&mut writing, case, records, refusal, rng.place(60))?;
            ended(&writing.writer, refusal)
        }
    }
}

/// The writer's verdict before the record that the readers refused: all is written if a byte follows the end, else that
/// record is due.
fn ended(writer: &Writer, refusal: Refusal) -> Checked {
    let at = refusal.position.0;
    match same::verdict(writer.verdict()) {
        Ok(sum) if refusal.number == 14 => alike("the length written", sum.length, at),
        verdict => alike("a writer's verdict", verdict, Err(Refusal::new(1, at))),
    }
}

/// The record that the readers refused, offered to the writer: the same number, unless the fault is in what the writer
/// makes itself. The size of the buffer does not matter, for it is looked at last.
fn faulty(
    writing: &mut Writing,
    case: &Case,
    records: &[Record],
    refusal: Refusal,
    size: usize,
) -> Checked {
    let bytes = &case.shard[refusal.position.0 as usize..];
    let Some(kind) = kind_due(records).filter(|_| bytes.len() >= 48) else {
        return Ok(());
    };
    let reserved = match kind {
        Kind::FileHead => u64_at(bytes, 40) != 0,
        Kind::Verification | Kind::Metadata | Kind::Chunk => true,
        _ => false,
    };
    let offered = match refusal.number {
        5 | 6 | 8 | 9 | 10 | 11 => true,
        7 => kind != Kind::Footer && !reserved,
        _ => false,
    };
    if !offered {
        return Ok(());
    }
    writing.refused(&offer_of(kind, bytes), size, refusal)
}

/// The kind due after these records; where a head is due, the head.
fn kind_due(records: &[Record]) -> Option<Kind> {
    let ends = records.iter().filter(|one| one.kind == Kind::Bookend);
    let section = [Some(Kind::FileHead), Some(Kind::XorbHead), None][ends.count()];
    let heads = [Kind::FileHead, Kind::XorbHead];
    let Some(head) = records.iter().rposition(|one| heads.contains(&one.kind)) else {
        return if records.is_empty() {
            Some(Kind::Header)
        } else {
            section
        };
    };
    let after = (records.len() - head - 1) as u64;
    if records[head..].iter().any(|one| one.kind == Kind::Bookend) {
        return section;
    }
    match records[head].fields {
        Fields::XorbHead { entries, .. } if after < entries.into() => Some(Kind::Chunk),
        Fields::FileHead { flags, entries, .. } => {
            let entries = u64::from(entries);
            let checked = if flags >> 31 == 1 { entries } else { 0 };
            let last = u64::from(flags >> 30 & 1);
            match after {
                _ if after < entries => Some(Kind::Segment),
                _ if after < entries + checked => Some(Kind::Verification),
                _ if after < entries + checked + last => Some(Kind::Metadata),
                _ => section,
            }
        }
        _ => section,
    }
}

/// The kinds that are due where a record of this kind is good, or may be due.
fn due_with(kind: Kind) -> &'static [Kind] {
    match kind {
        Kind::Header => &[Kind::Header],
        Kind::Segment => &[Kind::Segment],
        Kind::Verification => &[Kind::Verification],
        Kind::Metadata => &[Kind::Metadata],
        Kind::Chunk => &[Kind::Chunk],
        Kind::Footer => &[Kind::Footer],
        Kind::FileHead => &[Kind::FileHead, Kind::Bookend],
        Kind::XorbHead => &[Kind::XorbHead, Kind::Bookend],
        Kind::Bookend => &[Kind::FileHead, Kind::XorbHead, Kind::Bookend],
    }
}

/// An offer of this kind with any fields.
fn some_offer(rng: &mut Rng, kind: Kind) -> Offer {
    let bytes = rng.bytes(kind.size());
    offer_of(kind, &bytes)
}

/// What these bytes say, as an offer of this kind.
fn offer_of(kind: Kind, bytes: &[u8]) -> Offer {
    let hash = Hash(hash_at(bytes, 0));
    let [a, b, c, d] = [32, 36, 40, 44].map(|at| u32_at(bytes, at));
    match kind {
        Kind::Header => Offer::Header {
            footer_size: u64_at(bytes, 40),
        },
        Kind::FileHead => Offer::FileHead {
            hash,
            flags: a,
            entries: b,
        },
        Kind::Segment => Offer::Segment {
            hash,
            flags: a,
            bytes: b,
            start: ChunkIndex(c),
            end: ChunkIndex(d),
        },
        Kind::Verification => Offer::Verification { hash },
        Kind::Metadata => Offer::Metadata { hash },
        Kind::XorbHead => Offer::XorbHead {
            hash,
            flags: a,
            entries: b,
            bytes: c,
            on_disk: d,
        },
        Kind::Chunk => Offer::Chunk {
            hash,
            start: a,
            bytes: b,
        },
        Kind::Bookend => Offer::SectionEnd,
        Kind::Footer => Offer::Footer {
            key: Hash(hash_at(bytes, 72)),
            created: u64_at(bytes, 104),
            expiry: u64_at(bytes, 112),
        },
    }
}
