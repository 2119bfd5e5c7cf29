//! Segments drawn for the xorbs of a shard, each of a sort that tells whether
//! it is true. A sort is drawn by the edges of the chunks, not by their sums.

use std::collections::BTreeMap;

use crate::generate::{edges, Rng, SegmentPlan, ShardPlan};
use crate::reader::Hash;

/// No drawn stretch of chunks is longer, unless it is to pass the count.
const WIDEST: usize = 300;

/// The bytes of the longest segment.
const MOST: u64 = u32::MAX as u64;

/// What a segment says of the xorb it names.
#[derive(Clone, Copy, Debug, PartialEq, Eq)]
pub enum Truth {
    /// The xorb is listed, and what is said holds.
    True,
    /// The xorb is listed, and it doesn't.
    False,
    /// The xorb is not listed.
    Unlisted,
}

/// What a segment is. Where nothing else is said, it speaks of some chunks of
/// the first block of its hash.
#[derive(Clone, Copy, Debug, PartialEq, Eq)]
pub enum Sort {
    /// True.
    Plain,
    /// True, and the end is the count.
    ToTheEnd,
    /// True, and there are no bytes.
    NoBytes,
    /// True, but not of a later block of that hash.
    OnlyFirst,
    /// Unlisted: a listed hash but for one of its four numbers.
    NearHash,
    /// Unlisted: a file's hash.
    FileHash,
    /// Unlisted: a chunk's hash.
    ChunkHash,
    /// Unlisted: any hash, often of all ones.
    OtherHash,
    /// The end is one past the count.
    EndOnePast,
    /// The end is farther past it.
    EndFar,
    /// The start is past the last chunk too.
    StartPast,
    /// A byte more than there is.
    OneMore,
    /// A byte less.
    OneLess,
    /// The bytes without the first chunk's.
    NoFirst,
    /// The bytes without the last chunk's.
    NoLast,
    /// The bytes with those of the chunk behind them.
    NextToo,
    /// The bytes from the start of the xorb.
    FromZero,
    /// The bytes of the whole xorb.
    WholeXorb,
    /// As many bytes as a segment may have.
    MostBytes,
    /// Any other number of bytes.
    AnyBytes,
    /// False, but true of a later block of that hash.
    OnlyLater,
}

/// Chunks of a xorb, and the bytes they are said to have.
#[derive(Clone, Copy)]
struct Part {
    start: u64,
    end: u64,
    bytes: u64,
}

/// The blocks of one hash, each as the edges of its chunks.
struct Listed {
    hash: Hash,
    blocks: Vec<Vec<u64>>,
}

/// What a segment of a shard may name.
pub struct Names {
    /// By their hash.
    listed: Vec<Listed>,
    files: Vec<Hash>,
    chunks: Vec<Hash>,
}

impl Part {
    /// What is true of these chunks.
    fn of(edges: &[u64], start: usize, end: usize) -> Self {
        Part {
            start: start as u64,
            end: end as u64,
            bytes: edges[end] - edges[start],
        }
    }

    /// The same with other bytes, if a segment may have those.
    fn with(self, bytes: Option<u64>) -> Option<Self> {
        let bytes = bytes.filter(|&bytes| bytes != self.bytes && bytes <= MOST)?;
        Some(Part { bytes, ..self })
    }

    fn is_true_of(&self, edges: &[u64]) -> bool {
        let end = edges.get(self.end as usize);
        end.is_some_and(|&end| end == edges[self.start as usize] + self.bytes)
    }

    /// The segment that says so of this xorb.
    fn of_xorb(self, hash: Hash, before: &SegmentPlan) -> SegmentPlan {
        SegmentPlan {
            hash,
            bytes: self.bytes as u32,
            start: self.start as u32,
            end: self.end as u32,
            verification: before.verification,
        }
    }
}

impl Names {
    /// What there is in this shard.
    pub fn of(laid: &ShardPlan) -> Self {
        let mut listed = BTreeMap::<Hash, Vec<Vec<u64>>>::new();
        for xorb in &laid.xorbs {
            let edges = edges(xorb.chunks.iter().map(|chunk| chunk.1));
            listed.entry(xorb.hash).or_default().push(edges);
        }
        let listed = listed.into_iter();
        let chunks = laid.xorbs.iter().flat_map(|xorb| &xorb.chunks);
        Names {
            listed: listed
                .map(|(hash, blocks)| Listed { hash, blocks })
                .collect(),
            files: laid.files.iter().map(|file| file.hash).collect(),
            chunks: chunks.map(|chunk| chunk.0).collect(),
        }
    }

    fn lists(&self, hash: &Hash) -> bool {
        self.listed
            .binary_search_by_key(hash, |one| one.hash)
            .is_ok()
    }
}

impl Sort {
    /// Whether it is true.
    pub fn truth(self) -> Truth {
        match self {
            Sort::Plain | Sort::ToTheEnd | Sort::NoBytes | Sort::OnlyFirst => Truth::True,
            Sort::NearHash | Sort::FileHash | Sort::ChunkHash | Sort::OtherHash => Truth::Unlisted,
            _ => Truth::False,
        }
    }

    /// A segment of this sort in the place of another, unless the xorb or the
    /// chunks that come up have none like it.
    pub fn draw(self, rng: &mut Rng, names: &Names, before: &SegmentPlan) -> Option<SegmentPlan> {
        if self.truth() != Truth::Unlisted {
            let xorb = some(rng, &names.listed)?;
            let part = self.part(rng, &xorb.blocks)?;
            return Some(part.of_xorb(xorb.hash, before));
        }
        let hash = self.hash(rng, names).filter(|hash| !names.lists(hash))?;
        let like = some(rng, &names.listed).filter(|_| rng.once_in(2));
        let part = like.and_then(|xorb| plain(rng, &xorb.blocks[0]));
        Some(match part {
            Some(part) => part.of_xorb(hash, before),
            None => SegmentPlan {
                hash,
                ..before.clone()
            },
        })
    }

    /// A hash that may be unlisted.
    fn hash(self, rng: &mut Rng, names: &Names) -> Option<Hash> {
        match self {
            Sort::NearHash => some(rng, &names.listed).map(|xorb| near(rng, xorb.hash)),
            Sort::FileHash => some(rng, &names.files).copied(),
            Sort::ChunkHash => some(rng, &names.chunks).copied(),
            _ => Some(rng.hash()),
        }
    }

    /// What is said of the xorb with these blocks.
    fn part(self, rng: &mut Rng, blocks: &[Vec<u64>]) -> Option<Part> {
        let (first, later) = (&blocks[0], some(rng, &blocks[1..]));
        match self {
            Sort::Plain => plain(rng, first),
            Sort::ToTheEnd => to_the_end(rng, first),
            Sort::NoBytes => plain(rng, first).filter(|part| part.bytes == 0),
            Sort::OnlyFirst => only(rng, first, later?),
            Sort::OnlyLater => only(rng, later?, first),
            Sort::EndOnePast | Sort::EndFar | Sort::StartPast => Some(self.past(rng, first)),
            _ => {
                let part = plain(rng, first)?;
                part.with(self.bytes(rng, first, part))
            }
        }
    }

    /// Chunks past the count.
    fn past(self, rng: &mut Rng, edges: &[u64]) -> Part {
        let count = edges.len() as u64 - 1;
        let start = match self {
            Sort::StartPast => count + rng.pick(&[0, 0, 1, 1 << 16, MOST - 1 - count]),
            _ => rng.below(count.max(1)),
        };
        let far = count + 2 + rng.below(9);
        let end = match self {
            Sort::EndOnePast => count + 1,
            Sort::EndFar => rng.pick(&[far, far, 1 << 16, 1 << 31, MOST - 1, MOST]),
            _ => rng.pick(&[start + 1, start + 1, MOST]),
        };
        let there = edges[count as usize] - edges[start.min(count) as usize];
        let bytes = rng.pick(&[there, there, there, 0, MOST]);
        Part { start, end, bytes }
    }

    /// Bytes that are not true of this part, mostly.
    fn bytes(self, rng: &mut Rng, edges: &[u64], part: Part) -> Option<u64> {
        let (start, end) = (part.start as usize, part.end as usize);
        match self {
            Sort::OneMore => Some(part.bytes + 1),
            Sort::OneLess => part.bytes.checked_sub(1),
            Sort::NoFirst => Some(edges[end] - edges[start + 1]),
            Sort::NoLast => Some(edges[end - 1] - edges[start]),
            Sort::NextToo => edges.get(end + 1).map(|next| next - edges[start]),
            Sort::FromZero => Some(edges[end]),
            Sort::WholeXorb => edges.last().copied(),
            Sort::MostBytes => Some(MOST),
            _ => Some(rng.number().into()),
        }
    }
}

/// One of these, if there are any.
fn some<'a, T>(rng: &mut Rng, list: &'a [T]) -> Option<&'a T> {
    match list.len() {
        0 => None,
        length => list.get(rng.place(length)),
    }
}

/// Some chunks, if there are any.
fn plain(rng: &mut Rng, edges: &[u64]) -> Option<Part> {
    let count = edges.len() - 1;
    let start = rng.place(count.max(1));
    let end = start + 1 + rng.place((count - start).clamp(1, WIDEST));
    (end <= count).then(|| Part::of(edges, start, end))
}

/// Some chunks of one block, if they are not true of the other.
fn only(rng: &mut Rng, one: &[u64], other: &[u64]) -> Option<Part> {
    plain(rng, one).filter(|part| !part.is_true_of(other))
}

/// Some chunks and the last one, if there are any.
fn to_the_end(rng: &mut Rng, edges: &[u64]) -> Option<Part> {
    let count = edges.len() - 1;
    let wide = 1 + rng.place(count.clamp(1, WIDEST));
    let start = count.checked_sub(wide)?;
    Some(Part::of(edges, start, count))
}

/// The hash with one of its numbers changed.
pub(crate) fn near(rng: &mut Rng, mut hash: Hash) -> Hash {
    let change = 1 << rng.below(64);
    hash[rng.place(4)] ^= rng.pick(&[change, change, u64::MAX]);
    hash
}
