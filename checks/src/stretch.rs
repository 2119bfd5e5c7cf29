//! Stretches of files to be planned, drawn so that every answer is frequent.

use crate::draw::{file, large_plan, Room, MOST};
use crate::generate::{edges, FilePlan, Rng, SegmentPlan, ShardPlan, Size};
use crate::known::Known;

/// The bytes of a file from `a` up to but not including `b`, and how many rows
/// are lent for them.
#[derive(Clone, Debug)]
pub struct Stretch {
    /// The shard that has the file.
    pub known: Known,
    /// The number of the file; there may be none.
    pub file: u32,
    /// The first byte.
    pub a: u64,
    /// The byte after the last.
    pub b: u64,
    /// The rows of the table.
    pub room: usize,
}

/// Where the range lies in the file; a short file may have none like that.
#[derive(Clone, Copy, Debug)]
enum Span {
    Whole,
    /// From the second byte to the last but one.
    Within,
    FirstByte,
    LastByte,
    OneByte,
    /// From the edge of a segment to another, or a byte beside them.
    Edges,
    /// Inside of one segment.
    Inside,
    Any,
    Same,
    Backwards,
    OnePast,
    Past,
    /// Past the end by 2^32.
    PastByWord,
    EndsFarthest,
    BeginsFarthest,
    BothFarthest,
    /// From 0 to 0.
    Nothing,
}

/// The spans in their order, a turn each.
const SPANS: [Span; 29] = [
    Span::Whole,
    Span::OnePast,
    Span::Edges,
    Span::Same,
    Span::Inside,
    Span::Any,
    Span::Backwards,
    Span::FirstByte,
    Span::Edges,
    Span::Past,
    Span::LastByte,
    Span::Within,
    Span::EndsFarthest,
    Span::Edges,
    Span::OneByte,
    Span::PastByWord,
    Span::Any,
    Span::Edges,
    Span::BeginsFarthest,
    Span::Whole,
    Span::Inside,
    Span::BothFarthest,
    Span::Edges,
    Span::Any,
    Span::Nothing,
    Span::Edges,
    Span::Any,
    Span::OnePast,
    Span::Edges,
];

/// The rooms in their order; each turn of the spans gets the next one when it
/// comes again.
const ROOMS: [Room; 7] = [
    Room::Exact,
    Room::More,
    Room::OneShort,
    Room::Exact,
    Room::More,
    Room::Exact,
    Room::Less,
];

/// As many files of one segment as a shard holds.
const FILES: u32 = (MOST as u32 - 3) / 2;

/// What is drawn of shards as long as the limit: for file 0 that one has many
/// segments, for the others there are many files.
const LARGE: [(u32, Span, Room); 9] = [
    (0, Span::Whole, Room::Exact),
    (0, Span::Whole, Room::OneShort),
    (0, Span::Any, Room::More),
    (0, Span::LastByte, Room::Exact),
    (0, Span::OnePast, Room::Exact),
    (0, Span::Within, Room::More),
    (1 << 16, Span::Whole, Room::More),
    (FILES - 1, Span::LastByte, Room::Exact),
    (FILES, Span::FirstByte, Room::More),
];

/// So many there are of these.
pub const LARGE_ONES: u64 = LARGE.len() as u64;

impl Stretch {
    /// The stretch of this number; now and then its shard is refused.
    pub fn random(rng: &mut Rng, number: u64) -> Self {
        let turn = number as usize;
        let span = SPANS[turn % SPANS.len()];
        let room = ROOMS[turn / SPANS.len() % ROOMS.len()];
        let laid = some_files(rng);
        let file = file_number(rng, &laid.files);
        let mut stretch = Stretch::new(rng, laid, file, (span, room));
        if rng.once_in(12) {
            stretch.known.damage(rng);
        }
        stretch
    }

    /// The stretch of this number in a shard as long as the limit.
    pub fn large(rng: &mut Rng, number: u64) -> Self {
        let (file, span, room) = LARGE[number as usize % LARGE.len()];
        let laid = match file {
            0 => large_plan(rng, number % 2 == 1, MOST),
            _ => many_files(rng),
        };
        Stretch::new(rng, laid, file, (span, room))
    }

    fn new(rng: &mut Rng, laid: ShardPlan, file: u32, (span, room): (Span, Room)) -> Self {
        let mut stretch = Stretch {
            known: Known::new(laid),
            file,
            a: 0,
            b: 0,
            room: 0,
        };
        (stretch.a, stretch.b) = span.range(rng, &stretch.edges());
        stretch.room = room.around(rng, stretch.needed());
        stretch
    }

    /// The file, if there is one.
    pub fn file(&self) -> Option<&FilePlan> {
        self.known.laid.files.get(self.file as usize)
    }

    /// The file's segments; none if there is no file.
    pub fn segments(&self) -> &[SegmentPlan] {
        self.file().map_or(&[], |file| &file.segments)
    }

    /// The byte where each segment begins, and the file's end.
    pub fn edges(&self) -> Vec<u64> {
        edges(self.segments().iter().map(|segment| segment.bytes))
    }

    /// The bytes of the file.
    pub fn total(&self) -> u64 {
        let segments = self.segments().iter();
        segments.map(|segment| u64::from(segment.bytes)).sum()
    }

    /// The rows that are needed: of the segments with bytes, those that begin
    /// before the range ends, less those that end before it begins.
    pub fn needed(&self) -> usize {
        let edges = self.edges();
        let with_bytes = edges.windows(2).filter(|ends| ends[0] < ends[1]);
        let begun = with_bytes.clone().filter(|ends| ends[0] < self.b).count();
        let ended = with_bytes.filter(|ends| ends[1] <= self.a).count();
        if self.a < self.b {
            begun - ended
        } else {
            0
        }
    }
}

impl Span {
    /// The range in a file with these edges.
    fn range(self, rng: &mut Rng, edges: &[u64]) -> (u64, u64) {
        let total = edges[edges.len() - 1];
        let [one, other] = [near(rng, edges), near(rng, edges)];
        let any = rng.below(total + 1);
        match self {
            Span::Whole => (0, total),
            Span::Within => (1, total.saturating_sub(1)),
            Span::FirstByte => (0, 1),
            Span::LastByte => (total.saturating_sub(1), total),
            Span::OneByte => (any, any + 1),
            Span::Edges => (one.min(other), one.max(other)),
            Span::Inside => inside(rng, edges),
            Span::Any => (any.min(one), any.max(one)),
            Span::Same => (one, one),
            Span::Backwards => (one + 1 + rng.below(total + 1), one),
            Span::OnePast => (rng.pick(&[0, any, one, total]), total + 1),
            Span::Past => (any, total + 2 + (rng.wide() >> 1)),
            Span::PastByWord => (any, total.max(1) + (1 << 32)),
            Span::EndsFarthest => (rng.pick(&[0, any, total, u64::MAX - 1]), u64::MAX),
            Span::BeginsFarthest => (u64::MAX, rng.pick(&[0, any, total, u64::MAX - 1])),
            Span::BothFarthest => (u64::MAX, u64::MAX),
            Span::Nothing => (0, 0),
        }
    }
}

/// The edge of a segment, or a byte beside it.
fn near(rng: &mut Rng, edges: &[u64]) -> u64 {
    let edge = rng.pick(edges);
    rng.pick(&[edge, edge, edge + 1, edge.saturating_sub(1)])
}

/// A part of one segment.
fn inside(rng: &mut Rng, edges: &[u64]) -> (u64, u64) {
    let with_bytes: Vec<&[u64]> = edges.windows(2).filter(|ends| ends[0] < ends[1]).collect();
    if with_bytes.is_empty() {
        return (0, 1);
    }
    let ends = rng.pick(&with_bytes);
    let a = ends[0] + rng.below(ends[1] - ends[0]);
    (a, a + 1 + rng.below(ends[1] - a))
}

/// Mostly the number of a file, of two the one with more segments; else one
/// that no file has.
fn file_number(rng: &mut Rng, files: &[FilePlan]) -> u32 {
    let count = files.len() as u32;
    if files.is_empty() || rng.once_in(12) {
        return rng.pick(&[count, count, count + 1, u32::MAX]);
    }
    let [one, other] = [(); 2].map(|()| rng.place(files.len()));
    if files[one].segments.len() < files[other].segments.len() {
        other as u32
    } else {
        one as u32
    }
}

/// A shard with files, or seldom without.
fn some_files(rng: &mut Rng) -> ShardPlan {
    let size = Size {
        blocks: 4,
        entries: 9,
    };
    loop {
        let mut plan = ShardPlan::random(rng, size);
        if !plan.files.is_empty() || rng.once_in(8) {
            plan.files.iter_mut().for_each(|file| fill(rng, file));
            return plan;
        }
    }
}

/// [`FILES`] files, each of a byte or more.
fn many_files(rng: &mut Rng) -> ShardPlan {
    let mut plan = ShardPlan::default();
    for _ in 0..FILES {
        let mut next = file(rng, false, 1);
        let only = &mut next.segments[0];
        only.bytes = only.bytes.max(1);
        plan.files.push(next);
    }
    plan
}

/// Gives each segment its bytes. Some are the piece before once more, or the
/// chunks that come after it.
fn fill(rng: &mut Rng, file: &mut FilePlan) {
    let most = rng.pick(&[3, 40, 4_096, 4_096, u32::MAX, u32::MAX]);
    for place in 0..file.segments.len() {
        let before = file.segments[..place].last().cloned();
        let segment = &mut file.segments[place];
        segment.bytes = bytes(rng, most);
        match before {
            Some(before) if rng.once_in(6) => *segment = before,
            Some(before) if rng.once_in(4) && before.end < u32::MAX => {
                segment.hash = before.hash;
                segment.start = before.end;
                segment.end = segment.end.max(before.end + 1);
            }
            _ => (),
        }
    }
}

/// A segment's bytes, often none or as many as there may be.
fn bytes(rng: &mut Rng, most: u32) -> u32 {
    let any = rng.below(u64::from(most) + 1) as u32;
    rng.pick(&[any, any, any, most, most, 1, 0, 0])
}
