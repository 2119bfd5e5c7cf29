//! The shards and blob files that are read, made by the proved writers.

use melagbosun::blobs::{put_entry, HEAD_SIZE};
use melagbosun::{Audited, ChunkIndex, Hash, Offer, Writer};

/// The tag of the shards.
pub fn tag() -> [u8; 32] {
    std::array::from_fn(|i| i as u8 + 1)
}

/// A shard and the offers it was written from.
pub struct Input {
    /// What it is.
    pub name: &'static str,
    /// The offers, one for each record.
    pub offers: Vec<Offer>,
    /// The bytes.
    pub shard: Vec<u8>,
    /// How often it is read in one round.
    pub times: usize,
}

impl Input {
    fn new(name: &'static str, offers: Vec<Offer>, times: usize) -> Self {
        let mut writer = Writer::new(&tag());
        let mut shard = vec![0; 48 * offers.len()];
        for (offer, buffer) in offers.iter().zip(shard.chunks_mut(48)) {
            writer.put(offer, buffer).expect("a good offer");
        }
        Input {
            name,
            offers,
            shard,
            times,
        }
    }

    /// The records of all readings of one round.
    pub fn records(&self) -> usize {
        self.offers.len() * self.times
    }
}

/// Hashes that do not repeat.
struct Hashes(u64);

impl Iterator for Hashes {
    type Item = Hash;

    fn next(&mut self) -> Option<Hash> {
        let mut word = || {
            self.0 = self.0.wrapping_add(0x9E37_79B9_7F4A_7C15);
            (self.0 ^ self.0 >> 31).wrapping_mul(0xBF58_476D_1CE4_E5B9)
        };
        Some(Hash([word(), word(), word(), word()]))
    }
}

/// The 144-byte shard, read many times.
pub fn empty() -> Input {
    let offers = vec![
        Offer::Header { footer_size: 0 },
        Offer::SectionEnd,
        Offer::SectionEnd,
    ];
    Input::new("empty shard", offers, 50_000)
}

/// One xorb of 300,000 chunks.
pub fn chunks() -> Input {
    xorb("300,000 chunks", 300_000)
}

/// One xorb of so many chunks.
fn xorb(name: &'static str, count: u32) -> Input {
    let mut hashes = Hashes(1);
    let hash = hashes.next().unwrap_or_default();
    let mut offers = vec![Offer::Header { footer_size: 0 }, Offer::SectionEnd];
    offers.extend(block(hash, &mut hashes, count));
    offers.push(Offer::SectionEnd);
    Input::new(name, offers, 1)
}

/// The bytes of a chunk.
const BYTES: u32 = 10_000;

/// A xorb block of this hash, with so many chunks.
fn block(hash: Hash, hashes: &mut Hashes, count: u32) -> Vec<Offer> {
    let head = Offer::XorbHead {
        hash,
        flags: 0,
        entries: count,
        bytes: count * BYTES,
        on_disk: 12_345,
    };
    let chunk = |(i, hash): (u32, Hash)| Offer::Chunk {
        hash,
        start: i * BYTES,
        bytes: BYTES,
    };
    let mut offers = vec![head];
    offers.extend((0..count).zip(hashes).map(chunk));
    offers
}

/// 100,000 files of one segment.
pub fn files() -> Input {
    segments("100,000 files", 100_000)
}

/// So many files of one segment.
fn segments(name: &'static str, count: u32) -> Input {
    let mut hashes = Hashes(2);
    let mut offers = vec![Offer::Header { footer_size: 0 }];
    for i in 0..count {
        offers.push(head(&mut hashes, 1));
        offers.push(segment(&mut hashes, i));
    }
    offers.extend([Offer::SectionEnd; 2]);
    Input::new(name, offers, 1)
}

fn head(hashes: &mut Hashes, entries: u32) -> Offer {
    Offer::FileHead {
        hash: hashes.next().unwrap_or_default(),
        flags: 0,
        entries,
    }
}

fn segment(hashes: &mut Hashes, start: u32) -> Offer {
    Offer::Segment {
        hash: hashes.next().unwrap_or_default(),
        flags: 0,
        bytes: 65_536,
        start: ChunkIndex(start),
        end: ChunkIndex(start + 1),
    }
}

/// One file of 300,000 segments.
pub fn scan() -> Input {
    let mut hashes = Hashes(3);
    let count = 300_000;
    let mut offers = vec![Offer::Header { footer_size: 0 }, head(&mut hashes, count)];
    offers.extend((0..count).map(|i| segment(&mut hashes, i)));
    offers.extend([Offer::SectionEnd; 2]);
    Input::new("300,000 segments", offers, 1)
}

/// A shard to be audited.
pub struct Audit {
    /// The shard.
    pub input: Input,
    /// Its xorbs.
    pub xorbs: u32,
    /// What the audit counts.
    pub counts: Audited,
}

impl Audit {
    /// Xorbs of so many chunks, and a file of as many segments as are counted, each made of the xorbs' hashes and its number.
    fn new(
        name: &'static str,
        [xorbs, chunks]: [u32; 2],
        counts: Audited,
        segment: impl Fn(&[Hash], u32) -> Offer,
    ) -> Self {
        let mut hashes = Hashes(4);
        let names: Vec<Hash> = hashes.by_ref().take(xorbs as usize).collect();
        let segments = (counts.listed + counts.unlisted) as u32;
        let head = head(&mut hashes, segments);
        let mut offers = vec![Offer::Header { footer_size: 0 }, head];
        offers.extend((0..segments).map(|i| segment(&names, i)));
        offers.push(Offer::SectionEnd);
        for hash in names {
            offers.extend(block(hash, &mut hashes, chunks));
        }
        offers.push(Offer::SectionEnd);
        let input = Input::new(name, offers, 1);
        Audit {
            input,
            xorbs,
            counts,
        }
    }
}

/// 1,000 xorbs of 200 chunks and 100,000 segments, spread over them and all true.
pub fn listed() -> Audit {
    let counts = Audited {
        listed: 100_000,
        unlisted: 0,
    };
    let name = "1,000 xorbs, 100,000 segments, all listed";
    Audit::new(name, [1_000, 200], counts, |xorbs, i| {
        let start = i % 200;
        let count = 1 + i % (200 - start);
        Offer::Segment {
            hash: xorbs[i as usize * 7_919 % xorbs.len()],
            flags: 0,
            bytes: count * BYTES,
            start: ChunkIndex(start),
            end: ChunkIndex(start + count),
        }
    })
}

/// 174,760 empty xorbs and 200 segments, none listed. A shard also holds as many segments as these xorbs, and no other asks for
/// more comparisons then; but that takes minutes.
pub fn unlisted() -> Audit {
    let counts = Audited {
        listed: 0,
        unlisted: 200,
    };
    let name = "174,760 empty xorbs, 200 segments, none listed";
    Audit::new(name, [174_760, 0], counts, |_, i| {
        segment(&mut Hashes(5), i)
    })
}

/// The shards that are joined, each with itself: as long as two of them together may be.
pub fn halves() -> [Input; 3] {
    [
        empty(),
        xorb("150,000 chunks", 150_000),
        segments("50,000 files", 50_000),
    ]
}

/// A blob file and the entries it was written from.
pub struct BlobFile {
    /// What it is.
    pub name: &'static str,
    /// The digits and the data of each entry.
    pub parts: Vec<(Vec<u8>, Vec<u8>)>,
    /// The bytes.
    pub bytes: Vec<u8>,
    /// How often it is gone over in one round.
    pub times: usize,
}

impl BlobFile {
    /// So many entries with so many bytes of data each.
    fn new(name: &'static str, count: usize, size: usize, times: usize) -> Self {
        let part = |hash: Hash| {
            let data = <[u8; 32]>::from(hash).into_iter().cycle();
            let digits = hash.to_string().into_bytes();
            (digits, data.take(size).collect::<Vec<u8>>())
        };
        let parts: Vec<_> = Hashes(6).take(count).map(part).collect();
        let mut bytes = vec![0; count * (HEAD_SIZE + size)];
        let places = bytes.chunks_exact_mut(HEAD_SIZE + size);
        for ((digits, data), place) in parts.iter().zip(places) {
            put_entry(digits, data, place).expect("a good entry");
        }
        BlobFile {
            name,
            parts,
            bytes,
            times,
        }
    }
}

/// 100,000 entries with 64 bytes of data each.
pub fn small_blobs() -> BlobFile {
    BlobFile::new("100,000 entries of 64 bytes", 100_000, 64, 1)
}

/// 16 entries with 64 KiB of data each, gone over many times.
pub fn large_blobs() -> BlobFile {
    BlobFile::new("16 entries of 64 KiB", 16, 65_536, 50)
}
