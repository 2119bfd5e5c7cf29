//! Shards to be audited, drawn so that every answer is frequent: segments that
//! name the shard's own xorbs, mostly truly.

use std::cmp::Ordering;

use crate::audit::Audited;
use crate::damage::places;
use crate::draw::{file, xorb, MOST};
use crate::generate::{start_of, Rng, ShardPlan, Size, XorbPlan};
use crate::known::Known;
use crate::reader::{Hash, Kind, Refusal, ALL_ONES};
use crate::segments::{near, Names, Sort, Truth};

/// A shard, and what each of its segments is.
#[derive(Clone, Debug)]
pub struct Naming {
    /// The shard.
    pub known: Known,
    /// The sorts of all segments, in their order.
    pub sorts: Vec<Sort>,
}

/// The sorts in their order, a turn each: a segment of that sort is among
/// those of the shard, and before it there is no false one.
const TURNS: [Sort; 24] = [
    Sort::OnlyFirst,
    Sort::EndOnePast,
    Sort::OneMore,
    Sort::NearHash,
    Sort::OnlyLater,
    Sort::NoLast,
    Sort::ToTheEnd,
    Sort::OneLess,
    Sort::EndFar,
    Sort::NoBytes,
    Sort::NoFirst,
    Sort::FileHash,
    Sort::StartPast,
    Sort::NextToo,
    Sort::Plain,
    Sort::OnlyLater,
    Sort::FromZero,
    Sort::OnlyFirst,
    Sort::WholeXorb,
    Sort::ChunkHash,
    Sort::EndOnePast,
    Sort::MostBytes,
    Sort::OtherHash,
    Sort::AnyBytes,
];

/// The sorts of segments that are not false, as they are drawn beside those.
const GOOD: [Sort; 12] = [
    Sort::Plain,
    Sort::Plain,
    Sort::Plain,
    Sort::Plain,
    Sort::ToTheEnd,
    Sort::ToTheEnd,
    Sort::NoBytes,
    Sort::OnlyFirst,
    Sort::NearHash,
    Sort::FileHash,
    Sort::ChunkHash,
    Sort::OtherHash,
];

/// What is drawn of shards as long as the limit: how many xorbs and how many
/// segments, the sorts of these, and the sort of the last one.
const LARGE: [(usize, usize, &[Sort], &[Sort]); 5] = [
    (500, 100_000, &GOOD, &[Sort::ToTheEnd]),
    (1_000, 10_000, &[Sort::NearHash], &[Sort::OneLess]),
    (1, 200_000, &GOOD, &[Sort::EndOnePast]),
    (20_000, 500, &GOOD, &[Sort::OnlyLater]),
    (100_000, 100, &GOOD, &[Sort::OnlyFirst]),
];

/// So many there are of these.
pub const LARGE_ONES: u64 = LARGE.len() as u64;

/// The files of a large shard.
const FILES: usize = 3;

/// So often a segment is tried before the shard is drawn anew.
const TRIES: usize = 40;

/// The sorts to draw from before a place, there, and behind it.
type Around = [&'static [Sort]; 3];

impl Naming {
    /// The shard of this number; now and then it is refused.
    pub fn random(rng: &mut Rng, number: u64) -> Self {
        let turn = number as usize % TURNS.len();
        let more = TURNS[turn].truth() == Truth::False && rng.once_in(2);
        let behind: &[Sort] = if more { &TURNS } else { &GOOD };
        loop {
            let laid = some_blocks(rng);
            let segments: usize = laid.files.iter().map(|file| file.segments.len()).sum();
            if segments == 0 && !rng.once_in(20) {
                continue;
            }
            let place = rng.place(segments.max(1));
            let around = [&GOOD, &TURNS[turn..=turn], behind];
            if let Some(mut naming) = Naming::new(rng, laid, place, around) {
                if rng.once_in(12) {
                    naming.known.damage(rng);
                }
                return naming;
            }
        }
    }

    /// The shard of this number among those as long as the limit.
    pub fn large(rng: &mut Rng, number: u64) -> Self {
        let (xorbs, segments, before, last) = LARGE[number as usize % LARGE.len()];
        loop {
            let laid = large_blocks(rng, xorbs, segments);
            if let Some(naming) = Naming::new(rng, laid, segments - 1, [before, last, &[]]) {
                return naming;
            }
        }
    }

    /// Draws every segment again, unless the shard has none like one of them.
    fn new(rng: &mut Rng, mut laid: ShardPlan, there: usize, around: Around) -> Option<Self> {
        let names = Names::of(&laid);
        let mut sorts = Vec::new();
        let files = laid.files.iter_mut();
        for (place, segment) in files.flat_map(|file| &mut file.segments).enumerate() {
            let list = match place.cmp(&there) {
                Ordering::Less => around[0],
                Ordering::Equal => around[1],
                Ordering::Greater => around[2],
            };
            let (sort, drawn) = (0..TRIES).find_map(|_| {
                let sort = rng.pick(list);
                Some((sort, sort.draw(rng, &names, segment)?))
            })?;
            *segment = drawn;
            sorts.push(sort);
        }
        let known = Known::new(laid);
        Some(Naming { known, sorts })
    }

    /// The places of the false segments among all.
    pub fn false_ones(&self) -> Vec<usize> {
        let all = 0..self.sorts.len();
        all.filter(|&place| self.sorts[place].truth() == Truth::False)
            .collect()
    }

    /// What auditing it must answer.
    pub fn answer(&self) -> Result<Audited, Refusal> {
        if let Some(refusal) = self.known.refusal {
            return Err(refusal);
        }
        if let Some(&place) = self.false_ones().first() {
            return Err(Refusal::new(22, self.position(place)));
        }
        let all = self.sorts.iter();
        let listed = all.filter(|sort| sort.truth() == Truth::True).count();
        Ok(Audited {
            listed: listed as u64,
            unlisted: (self.sorts.len() - listed) as u64,
        })
    }

    /// Where the segment of this place starts.
    fn position(&self, place: usize) -> u64 {
        let layout = self.known.laid.lay(&self.known.tag);
        start_of(&layout, places(&layout, Kind::Segment)[place])
    }
}

/// A shard of which some xorbs have the hash of an earlier one, or another
/// hash that is there already.
fn some_blocks(rng: &mut Rng) -> ShardPlan {
    let size = Size {
        blocks: 4,
        entries: 6,
    };
    let mut laid = ShardPlan::random(rng, size);
    for place in 0..laid.xorbs.len() {
        let own = laid.xorbs[place].hash;
        let hash = match rng.below(12) {
            0..=3 if place > 0 => twin(rng, &mut laid.xorbs, place),
            4 if place > 0 => near(rng, laid.xorbs[place - 1].hash),
            5 => laid.files.last().map_or(own, |file| file.hash),
            6 => laid.xorbs[0].chunks.last().map_or(own, |chunk| chunk.0),
            7 => [0; 4],
            _ => own,
        };
        if hash != ALL_ONES {
            laid.xorbs[place].hash = hash;
        }
    }
    laid
}

/// Gives a xorb mostly the chunks of an earlier one, a little changed, and
/// answers that one's hash.
fn twin(rng: &mut Rng, xorbs: &mut [XorbPlan], place: usize) -> Hash {
    let XorbPlan { hash, chunks, .. } = &xorbs[rng.place(place)];
    let (hash, mut chunks) = (*hash, chunks.clone());
    let left = u32::MAX - chunks.iter().map(|chunk| chunk.1).sum::<u32>();
    match rng.below(5) {
        0 => return hash,
        1 => {
            chunks.pop();
        }
        2 => chunks.push((rng.hash(), left.min(rng.number()))),
        3 => chunks.reverse(),
        _ => (),
    }
    xorbs[place].chunks = chunks;
    hash
}

/// As long as a shard may be, of so many xorbs and so many segments. Some xorbs
/// have the hash of an earlier one.
fn large_blocks(rng: &mut Rng, xorbs: usize, segments: usize) -> ShardPlan {
    let chunks = MOST - 3 - FILES - segments - xorbs;
    let mut laid = ShardPlan::default();
    for number in 0..FILES {
        let count = share(segments, FILES, number);
        laid.files.push(file(rng, false, count));
    }
    for number in 0..xorbs {
        let mut next = xorb(rng, share(chunks, xorbs, number));
        if number > 0 && rng.once_in(3) {
            next.hash = laid.xorbs[rng.place(number)].hash;
        }
        laid.xorbs.push(next);
    }
    laid
}

/// What the part of this number gets where so many are dealt out.
fn share(all: usize, parts: usize, number: usize) -> usize {
    all / parts + usize::from(number < all % parts)
}
