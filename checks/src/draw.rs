//! Shards to be joined, drawn so that every answer is frequent.

use crate::cases::random_case;
use crate::generate::{
    flatten, usual_tag, FilePlan, FooterPlan, Rng, SegmentPlan, ShardPlan, Size, XorbPlan,
};
use crate::reader::{judge, LIMIT};

/// After so many pairs the same turns come again.
pub const TURNS: u64 = 40;

/// The records of the longest shard without a footer.
pub const MOST: usize = LIMIT as usize / 48;

/// Shards, and the tag to join them under.
#[derive(Clone, Debug)]
pub struct Draw {
    /// The tag.
    pub tag: Vec<u8>,
    /// The shards, in their order.
    pub shards: Vec<Vec<u8>>,
}

/// How much room is lent: bytes for a pair, rows for a plan.
#[derive(Clone, Copy)]
pub enum Room {
    /// As much as the result takes.
    Exact,
    /// Some more.
    More,
    /// One less.
    OneShort,
    /// Less, or nothing.
    Less,
    /// Nothing.
    Nothing,
}

/// The rooms in their order; each turn of the pairs gets the next one when it comes again.
pub const ROOMS: [Room; 5] = [
    Room::Exact,
    Room::More,
    Room::OneShort,
    Room::Exact,
    Room::Less,
];

impl Room {
    /// How many bytes that is for this draw.
    pub fn bytes(self, rng: &mut Rng, draw: &Draw) -> usize {
        let sum: usize = draw.shards.iter().map(Vec::len).sum();
        self.around(rng, sum.saturating_sub(144))
    }

    /// How much that is where so much is taken.
    pub fn around(self, rng: &mut Rng, exact: usize) -> usize {
        match self {
            Room::Exact => exact,
            Room::More => exact + 1 + rng.place(300),
            Room::OneShort => exact.saturating_sub(1),
            Room::Less if rng.once_in(2) => rng.place(exact.max(1)),
            Room::Less | Room::Nothing => 0,
        }
    }
}

/// What a shard is. All files of a draw have the same choice of bit 31, but for those of `Other`.
#[derive(Clone, Copy)]
enum Sort {
    Files,
    Other,
    NoFiles,
    /// The 144 bytes.
    Empty,
    /// With files too.
    Footer,
    Damaged,
    /// No byte at all.
    Nothing,
}

/// The pairs that are not two shards with files of the same choice, a turn each.
const SPECIAL: [[Sort; 2]; 20] = [
    [Sort::Files, Sort::Other],
    [Sort::Other, Sort::Files],
    [Sort::NoFiles, Sort::Files],
    [Sort::Files, Sort::NoFiles],
    [Sort::NoFiles, Sort::NoFiles],
    [Sort::Empty, Sort::Files],
    [Sort::Files, Sort::Empty],
    [Sort::Empty, Sort::Empty],
    [Sort::Footer, Sort::Files],
    [Sort::Files, Sort::Footer],
    [Sort::Footer, Sort::Footer],
    [Sort::Footer, Sort::Other],
    [Sort::Other, Sort::Footer],
    [Sort::Damaged, Sort::Files],
    [Sort::Files, Sort::Damaged],
    [Sort::Damaged, Sort::Damaged],
    [Sort::Footer, Sort::Damaged],
    [Sort::Damaged, Sort::Footer],
    [Sort::Nothing, Sort::Files],
    [Sort::Files, Sort::Nothing],
];

/// Triples that are refused, some of them with one number or another as they are grouped.
const REFUSED: [[Sort; 3]; 9] = [
    [Sort::Files, Sort::Files, Sort::Other],
    [Sort::Other, Sort::Files, Sort::Files],
    [Sort::Files, Sort::NoFiles, Sort::Other],
    [Sort::Files, Sort::Footer, Sort::Files],
    [Sort::Files, Sort::Damaged, Sort::Files],
    [Sort::Footer, Sort::Damaged, Sort::Files],
    [Sort::Footer, Sort::Files, Sort::Damaged],
    [Sort::Damaged, Sort::Files, Sort::Footer],
    [Sort::Nothing, Sort::Files, Sort::Other],
];

/// What can be joined with each other.
const GOOD: [Sort; 5] = [
    Sort::Files,
    Sort::Files,
    Sort::Files,
    Sort::NoFiles,
    Sort::Empty,
];

/// What mostly cannot be joined with those.
const BAD: [Sort; 4] = [Sort::Other, Sort::Footer, Sort::Damaged, Sort::Nothing];

impl Draw {
    fn new(rng: &mut Rng, sorts: &[Sort]) -> Self {
        let mut tag = usual_tag();
        if rng.once_in(8) {
            tag.iter_mut().for_each(|byte| *byte = rng.word() as u8);
        }
        let verified = rng.once_in(2);
        let shards = sorts.iter().map(|&sort| shard(rng, &tag, verified, sort));
        let shards = shards.collect();
        Draw { tag, shards }
    }

    /// These shards under the usual tag.
    pub fn of(shards: &[&Vec<u8>]) -> Self {
        Draw {
            tag: usual_tag(),
            shards: shards.iter().copied().cloned().collect(),
        }
    }

    /// The pair of this number: special ones, a shard with itself, a tag of another length, and two good ones.
    pub fn pair(rng: &mut Rng, number: u64) -> Self {
        let turn = (number % TURNS) as usize;
        let usual = [Sort::Files, Sort::Files];
        let mut draw = Draw::new(rng, SPECIAL.get(turn).unwrap_or(&usual));
        match turn.checked_sub(SPECIAL.len()) {
            Some(0) => draw.shards[1] = draw.shards[0].clone(),
            Some(1) => draw.tag = vec![1; rng.pick(&[0, 1, 31, 33, 64])],
            _ => (),
        }
        draw
    }

    /// The pair of this number with no shard longer than most.
    pub fn short_pair(rng: &mut Rng, number: u64, most: usize) -> Self {
        loop {
            let draw = Draw::pair(rng, number);
            if draw.shards.iter().all(|shard| shard.len() <= most) {
                return draw;
            }
        }
    }

    /// The triple of this number: every second one can be joined.
    pub fn triple(rng: &mut Rng, number: u64) -> Self {
        match REFUSED.get(number as usize / 2 % 12) {
            Some(sorts) if number % 2 == 1 => Draw::new(rng, sorts),
            _ => Draw::list(rng, number, 3),
        }
    }

    /// So many shards: every second list can be joined, the others seldom. Now and then the tag is short.
    pub fn list(rng: &mut Rng, number: u64, length: usize) -> Self {
        let mut sorts: Vec<Sort> = (0..length).map(|_| rng.pick(&GOOD)).collect();
        let bad = length.min(1 + rng.place(3)) * (number % 2) as usize;
        for turn in 0..bad {
            sorts[rng.place(length)] = BAD[(number as usize / 2 + turn) % BAD.len()];
        }
        let mut draw = Draw::new(rng, &sorts);
        if number % 14 == 13 {
            draw.tag.pop();
        }
        draw
    }
}

fn shard(rng: &mut Rng, tag: &[u8], verified: bool, sort: Sort) -> Vec<u8> {
    let mut plan = match sort {
        Sort::Nothing => return Vec::new(),
        Sort::Damaged => return damaged(rng, tag),
        Sort::Empty => ShardPlan::default(),
        Sort::Other => with_files(rng, !verified),
        Sort::Files | Sort::NoFiles | Sort::Footer => with_files(rng, verified),
    };
    match sort {
        Sort::NoFiles => plan.files.clear(),
        Sort::Footer => plan.footer = Some(footer(rng)),
        _ => (),
    }
    flatten(&plan.lay(tag))
}

/// Some files, no footer.
fn with_files(rng: &mut Rng, verified: bool) -> ShardPlan {
    loop {
        let size = Size::any(rng);
        let mut plan = ShardPlan::random(rng, size);
        plan.footer = None;
        let files = plan.files.iter_mut();
        files.for_each(|file| file.verified = verified);
        if !plan.files.is_empty() {
            return plan;
        }
    }
}

/// A shard that is refused.
fn damaged(rng: &mut Rng, tag: &[u8]) -> Vec<u8> {
    loop {
        let shard = random_case(rng).shard;
        if judge(tag, &shard).is_err() {
            return shard;
        }
    }
}

fn footer(rng: &mut Rng) -> FooterPlan {
    FooterPlan {
        key: rng.hash(),
        created: rng.wide(),
        expiry: rng.wide(),
    }
}

/// The 144-byte shard under this tag.
pub fn empty(tag: &[u8]) -> Vec<u8> {
    flatten(&ShardPlan::default().lay(tag))
}

/// A large shard of so many records under the usual tag: a file, and a xorb that takes what the file leaves.
pub fn large(rng: &mut Rng, verified: bool, records: usize) -> Vec<u8> {
    flatten(&large_plan(rng, verified, records).lay(&usual_tag()))
}

/// The same with a footer after them.
pub fn large_footed(rng: &mut Rng, records: usize) -> Vec<u8> {
    let mut plan = large_plan(rng, true, records);
    plan.footer = Some(footer(rng));
    flatten(&plan.lay(&usual_tag()))
}

/// What is laid out for a large shard.
pub(crate) fn large_plan(rng: &mut Rng, verified: bool, records: usize) -> ShardPlan {
    let segments = records / 5;
    let of_file = 1 + segments * (1 + usize::from(verified));
    let chunks = records - 3 - of_file - 1;
    ShardPlan {
        files: vec![file(rng, verified, segments)],
        xorbs: vec![xorb(rng, chunks)],
        footer: None,
    }
}

/// A file of so many segments.
pub(crate) fn file(rng: &mut Rng, verified: bool, segments: usize) -> FilePlan {
    FilePlan {
        hash: rng.head_hash(),
        verified,
        segments: (0..segments).map(|_| segment(rng)).collect(),
        metadata: None,
    }
}

/// A xorb of so many chunks.
pub(crate) fn xorb(rng: &mut Rng, chunks: usize) -> XorbPlan {
    XorbPlan {
        hash: rng.head_hash(),
        on_disk: rng.number(),
        chunks: (0..chunks).map(|_| chunk(rng)).collect(),
    }
}

/// A segment of any number of bytes.
fn segment(rng: &mut Rng) -> SegmentPlan {
    SegmentPlan {
        hash: rng.hash(),
        bytes: rng.number(),
        start: 5,
        end: 6,
        verification: rng.hash(),
    }
}

fn chunk(rng: &mut Rng) -> ([u64; 4], u32) {
    (rng.hash(), rng.below(4_096) as u32)
}
