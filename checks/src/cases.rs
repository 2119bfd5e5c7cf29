//! Cases: a tag, a shard and, where it is plain, the verdict it must get.

use crate::damage::{self, faults, fields, places, set, spoil, HUGE};
use crate::examples::examples;
use crate::generate::{
    flatten, lay_bookend, lay_header, start_of, usual_tag, Laid, Rng, ShardPlan, Size, LONGEST,
};
use crate::reader::{u32_at, u64_at, Kind, Refusal, Verdict, WITH_METADATA, WITH_VERIFICATION};

/// One input with the verdict it must get, where known beforehand.
#[derive(Clone, Debug)]
pub struct Case {
    /// What the case is about.
    pub family: &'static str,
    /// The tag argument.
    pub tag: Vec<u8>,
    /// The shard.
    pub shard: Vec<u8>,
    /// The verdict, where the maker knows it without a reader.
    pub expected: Option<Verdict>,
}

impl Case {
    fn new(family: &'static str, shard: Vec<u8>, expected: Option<Verdict>) -> Self {
        Case {
            family,
            tag: usual_tag(),
            shard,
            expected,
        }
    }

    fn refused(family: &'static str, shard: Vec<u8>, refusal: Refusal) -> Self {
        Case::new(family, shard, Some(Err(refusal)))
    }
}

/// The seed of the vector files.
pub const SEED: u64 = 20_240_611;

/// The values every field takes once.
pub const VALUES: [u64; 4] = [0, 1, 1 << 31, u32::MAX as u64];

/// Two kinds of record start a block and declare entries.
const HEADS: [Kind; 2] = [Kind::FileHead, Kind::XorbHead];

/// A good shard.
pub fn good(rng: &mut Rng, size: Size) -> Case {
    let plan = ShardPlan::random(rng, size);
    let shard = flatten(&plan.lay(&usual_tag()));
    Case::new("good", shard, Some(Ok(plan.summary())))
}

/// A good layout of some size.
fn any_layout(rng: &mut Rng) -> Vec<Laid> {
    let size = Size::any(rng);
    ShardPlan::random(rng, size).lay(&usual_tag())
}

/// A small good layout with at least `least` records of this kind, and the
/// place of one that is not among the first `least - 1`.
fn layout_with(rng: &mut Rng, kind: Kind, least: usize) -> (Vec<Laid>, usize) {
    sized_layout_with(rng, Size::SMALL, kind, least)
}

/// The same of any size.
fn sized_layout_with(rng: &mut Rng, size: Size, kind: Kind, least: usize) -> (Vec<Laid>, usize) {
    loop {
        let layout = ShardPlan::random(rng, size).lay(&usual_tag());
        let found = places(&layout, kind);
        if found.len() >= least {
            let place = rng.pick(&found[least - 1..]);
            return (layout, place);
        }
    }
}

/// A shard with one record of this kind that has all these faults.
pub fn faulty(rng: &mut Rng, kind: Kind, wanted: &[u8]) -> Case {
    let least = if wanted.contains(&9) { 2 } else { 1 };
    let (mut layout, place) = layout_with(rng, kind, least);
    let refusal = spoil(rng, &mut layout, place, wanted);
    Case::refused("faulty", flatten(&layout), refusal)
}

/// Two faulty records; the first decides.
pub fn twice_faulty(rng: &mut Rng) -> Case {
    let mut layout = any_layout(rng);
    let far = 1 + rng.place(layout.len() - 1);
    let near = rng.place(far);
    spoil_somehow(rng, &mut layout, far);
    let refusal = spoil_somehow(rng, &mut layout, near);
    Case::refused("twice faulty", flatten(&layout), refusal)
}

/// Gives a record one fault of its kind, but not 9, which hangs on others.
pub(crate) fn spoil_somehow(rng: &mut Rng, layout: &mut [Laid], place: usize) -> Refusal {
    let list: Vec<u8> = faults(layout[place].kind).to_vec();
    let list: Vec<u8> = list.into_iter().filter(|&number| number != 9).collect();
    let number = rng.pick(&list);
    spoil(rng, layout, place, &[number])
}

/// A faulty shard that is also cut: inside the faulty record it is 1, after
/// it the fault stands. Or bytes follow, which changes nothing.
pub fn faulty_and_cut(rng: &mut Rng) -> Case {
    let mut layout = any_layout(rng);
    let place = rng.place(layout.len());
    let mut refusal = spoil_somehow(rng, &mut layout, place);
    let size = layout[place].bytes.len();
    let mut shard = flatten(&layout);
    let start = refusal.position.0 as usize;
    match rng.below(4) {
        0 => shard.truncate(start + size),
        1 => shard.extend([rng.word() as u8; 3]),
        cut => {
            shard.truncate(start + rng.pick(&[1, 32, size - 1]) * (cut as usize - 2));
            refusal.number = 1;
        }
    }
    Case::refused("faulty and cut", shard, refusal)
}

/// One field of one record of this kind set to a value.
pub fn field(rng: &mut Rng, kind: Kind, field: (usize, usize), value: u64) -> Case {
    let (mut layout, place) = layout_with(rng, kind, 1);
    set(&mut layout[place].bytes, field, value);
    Case::new("field", flatten(&layout), None)
}

/// A 64-bit field whose upper half is changed.
pub fn upper_half(rng: &mut Rng, kind: Kind, field: (usize, usize)) -> Case {
    let (mut layout, place) = layout_with(rng, kind, 1);
    let value = u64_at(&layout[place].bytes, field.0) ^ (1 << (32 + rng.below(32)));
    set(&mut layout[place].bytes, field, value);
    Case::new("upper half", flatten(&layout), None)
}

/// A good shard cut `kept` bytes into a record of this kind; `kept` may be
/// its size, and the cut is then at its end.
pub fn cut(rng: &mut Rng, kind: Kind, kept: usize) -> Case {
    let (layout, place) = layout_with(rng, kind, 1);
    let start = start_of(&layout, place) as usize;
    let mut shard = flatten(&layout);
    shard.truncate(start + kept);
    let whole = kept == kind.size();
    let due = if whole { start + kept } else { start };
    let ended = whole && place + 1 == layout.len();
    let refusal = Refusal::new(1, due as u64);
    Case::new("cut", shard, (!ended).then_some(Err(refusal)))
}

/// A good shard with bytes after its end.
pub fn appended(rng: &mut Rng) -> Case {
    let layout = any_layout(rng);
    let mut shard = flatten(&layout);
    let refusal = Refusal::new(14, shard.len() as u64);
    match rng.below(4) {
        0 => shard.push(0),
        1 => shard.extend(lay_bookend().bytes),
        2 => shard.push(rng.word() as u8),
        _ => shard.extend(layout[rng.place(layout.len())].bytes.clone()),
    }
    Case::refused("appended", shard, refusal)
}

/// The header says there is a footer where there is none, or the reverse.
pub fn footer_denied(rng: &mut Rng) -> Case {
    let mut layout = any_layout(rng);
    let footer = layout.last().is_some_and(|last| last.kind == Kind::Footer);
    layout[0] = lay_header(&usual_tag(), !footer);
    let shard = flatten(&layout);
    let refusal = if footer {
        Refusal::new(14, shard.len() as u64 - 200)
    } else {
        Refusal::new(1, shard.len() as u64)
    };
    Case::refused("footer denied", shard, refusal)
}

/// A tag argument of another length: 2 whatever the shard.
pub fn tag_length(rng: &mut Rng, length: usize) -> Case {
    let layout = any_layout(rng);
    let mut shard = flatten(&layout);
    shard.truncate(rng.pick(&[0, 1, 47, 48, LONGEST, LONGEST]));
    let mut case = Case::refused("tag length", shard, Refusal::new(2, 0));
    case.tag = (1..=255).cycle().take(length).collect();
    case
}

/// A good shard whose header has another tag than the argument.
pub fn other_tag(rng: &mut Rng) -> Case {
    let plan = ShardPlan::random(rng, Size::TINY);
    let mut tag = usual_tag();
    tag[rng.place(32)] ^= 1 << rng.below(8);
    let mut case = good(rng, Size::TINY);
    if rng.once_in(2) {
        case.tag = tag;
    } else {
        case.shard = flatten(&plan.lay(&tag));
    }
    case.family = "other tag";
    case.expected = Some(Err(Refusal::new(3, 0)));
    case
}

/// A good shard under another tag of 32 bytes, the same in its header.
pub fn own_tag(rng: &mut Rng) -> Case {
    let tag = rng.bytes(32);
    let plan = ShardPlan::random(rng, Size::TINY);
    let mut case = Case::new(
        "own tag",
        flatten(&plan.lay(&tag)),
        Some(Ok(plan.summary())),
    );
    case.tag = tag;
    case
}

/// A head that declares a huge count.
pub fn huge(rng: &mut Rng, kind: Kind, count: u32) -> Case {
    let (mut layout, place) = layout_with(rng, kind, 1);
    set(&mut layout[place].bytes, (36, 4), u64::from(count));
    let refusal = Refusal::new(6, start_of(&layout, place));
    Case::refused("huge", flatten(&layout), refusal)
}

/// A head that declares as much as the limit holds, or one entry more, with
/// nothing after it.
pub fn edge(rng: &mut Rng, kind: Kind, beyond: bool) -> Case {
    let (mut layout, place) = layout_with(rng, kind, 1);
    let start = start_of(&layout, place);
    let bytes = &layout[place].bytes;
    let flags = u32_at(bytes, 32);
    let footer = u64_at(&layout[0].bytes, 40);
    let files = u64::from(kind == Kind::FileHead);
    let each = 1 + u64::from(flags & WITH_VERIFICATION != 0);
    let more = u64::from(flags & WITH_METADATA != 0);
    let most = damage::largest(start, each, more, 48 + 48 * files + footer);
    let count = most + u32::from(beyond);
    set(&mut layout[place].bytes, (36, 4), u64::from(count));
    layout.truncate(place + 1);
    let due = if beyond { (6, start) } else { (1, start + 48) };
    Case::refused("edge", flatten(&layout), Refusal::new(due.0, due.1))
}

/// Three chunks whose lengths sum to the head's bytes only in 32 bits.
pub fn wrapped(rng: &mut Rng) -> Case {
    let footer = rng.once_in(2);
    let low = 1 + rng.below(1000) as u32;
    let first = low + 1 + rng.below(1000) as u32;
    let total = first + rng.below(1000) as u32;
    let back = 0_u32.wrapping_sub(first).wrapping_add(low);
    let hash = rng.head_hash();
    let chunks = [[0, first], [first, back], [low, total - low]];
    let mut layout = vec![lay_header(&usual_tag(), footer), lay_bookend()];
    layout.push(Laid::entry(Kind::XorbHead, hash, [0, 3, total, 7]));
    for [start, length] in chunks {
        let numbers = [start, length, 0, 0];
        layout.push(Laid::entry(Kind::Chunk, rng.hash(), numbers));
    }
    layout.push(lay_bookend());
    Case::refused("wrapped", flatten(&layout), Refusal::new(11, 192))
}

/// A count, sum or length of a xorb, or a count of a file, a little off.
pub fn off_by_some(rng: &mut Rng) -> Case {
    let (kind, at) = rng.pick(&[
        (Kind::XorbHead, 36),
        (Kind::XorbHead, 40),
        (Kind::XorbHead, 40),
        (Kind::Chunk, 36),
        (Kind::Chunk, 36),
        (Kind::FileHead, 36),
    ]);
    let (mut layout, place) = layout_with(rng, kind, 1);
    let value = u32_at(&layout[place].bytes, at);
    let step = rng.pick(&[1, u32::MAX, 10, 1 << 16, 1 << 31]);
    let value = value.wrapping_add(step);
    set(&mut layout[place].bytes, (at, 4), u64::from(value));
    Case::new("off by some", flatten(&layout), None)
}

/// Single bits flipped.
pub fn flipped(rng: &mut Rng, times: u64) -> Case {
    let mut layout = any_layout(rng);
    (0..times).for_each(|_| damage::flip(rng, &mut layout));
    Case::new("flipped", flatten(&layout), None)
}

/// One bit flipped that has only one good value, and the number that brings.
pub fn fixed_bit(rng: &mut Rng, kind: Kind, bit: usize, number: u8) -> Case {
    let (mut layout, place) = sized_layout_with(rng, Size::TINY, kind, 1);
    layout[place].bytes[bit / 8] ^= 1 << (bit % 8);
    let refusal = Refusal::new(number, start_of(&layout, place));
    Case::refused("fixed bit", flatten(&layout), refusal)
}

/// Records dropped, doubled or exchanged.
pub fn shuffled(rng: &mut Rng) -> Case {
    let mut layout = any_layout(rng);
    damage::shuffle(rng, &mut layout);
    Case::new("shuffled", flatten(&layout), None)
}

/// A bookend that is none, its hash having lost a bit; a third one may follow.
pub fn no_bookend(rng: &mut Rng) -> Case {
    let (mut layout, place) = layout_with(rng, Kind::Bookend, 1);
    layout[place].bytes[rng.place(32)] ^= 1 << rng.below(8);
    if rng.once_in(2) {
        layout.insert(place + 1, lay_bookend());
    }
    Case::new("no bookend", flatten(&layout), None)
}

/// Any of the above.
pub fn random_case(rng: &mut Rng) -> Case {
    let kind = rng.pick(&Kind::ALL);
    let head = rng.pick(&HEADS);
    match rng.below(20) {
        0..=3 => {
            let size = Size::any(rng);
            good(rng, size)
        }
        4 => random_fault(rng, kind),
        5 => twice_faulty(rng),
        6 => faulty_and_cut(rng),
        7 => random_field(rng, kind),
        8 => upper_half(rng, Kind::Footer, (16, 8)),
        9 => random_cut(rng, kind),
        10 => appended(rng),
        11 => random_tag(rng),
        12 => {
            let count = rng.pick(&HUGE);
            huge(rng, head, count)
        }
        13 => {
            let beyond = rng.once_in(2);
            edge(rng, head, beyond)
        }
        14 => wrapped(rng),
        15 | 16 => off_by_some(rng),
        17 => flipped(rng, 1),
        18 => shuffled(rng),
        _ => no_bookend(rng),
    }
}

/// Any of the above, now and then cut at a random byte.
pub fn random_cut_case(rng: &mut Rng) -> Case {
    let mut case = random_case(rng);
    if rng.once_in(8) {
        case.shard.truncate(rng.place(case.shard.len() + 1));
        case.expected = None;
    }
    case
}

fn random_fault(rng: &mut Rng, kind: Kind) -> Case {
    let number = rng.pick(faults(kind));
    faulty(rng, kind, &[number])
}

fn random_field(rng: &mut Rng, kind: Kind) -> Case {
    let (place, value) = (rng.pick(fields(kind)), rng.wide());
    field(rng, kind, place, value)
}

fn random_cut(rng: &mut Rng, kind: Kind) -> Case {
    let kept = rng.place(kind.size() + 1);
    cut(rng, kind, kept)
}

fn random_tag(rng: &mut Rng) -> Case {
    match rng.below(4) {
        0 => own_tag(rng),
        1 => other_tag(rng),
        2 => footer_denied(rng),
        _ => {
            let length = rng.pick(&[0, 1, 31, 33]);
            tag_length(rng, length)
        }
    }
}

/// The cases of the vector files, always the same for the same seed.
pub fn catalogue(seed: u64) -> Vec<Case> {
    let rng = &mut Rng::new(seed);
    let mut cases = examples();
    add_good(rng, &mut cases);
    add_faults(rng, &mut cases);
    add_fields(rng, &mut cases);
    add_bits(rng, &mut cases);
    add_cuts(rng, &mut cases);
    add_heads(rng, &mut cases);
    add_tags(rng, &mut cases);
    add_others(rng, &mut cases);
    cases
}

fn add_good(rng: &mut Rng, cases: &mut Vec<Case>) {
    cases.extend((0..110).map(|_| good(rng, Size::TINY)));
    cases.extend((0..250).map(|_| good(rng, Size::SMALL)));
    cases.extend((0..14).map(|_| good(rng, Size::LARGE)));
}

/// Each set of faults of each kind, single ones more often.
fn add_faults(rng: &mut Rng, cases: &mut Vec<Case>) {
    for kind in Kind::ALL {
        for set in subsets(faults(kind)) {
            let times = if set.len() == 1 { 9 } else { 4 };
            cases.extend((0..times).map(|_| faulty(rng, kind, &set)));
        }
    }
    cases.extend((0..10).map(|_| faulty(rng, Kind::FileHead, &[9])));
    cases.extend((0..40).map(|_| twice_faulty(rng)));
    cases.extend((0..40).map(|_| faulty_and_cut(rng)));
}

/// All sets of these faults that one record can have at once, but the empty.
fn subsets(list: &[u8]) -> Vec<Vec<u8>> {
    let chosen = |mask: u32| {
        let kept = (0..list.len()).filter(|&place| mask >> place & 1 == 1);
        kept.map(|place| list[place]).collect::<Vec<u8>>()
    };
    let possible = |set: &Vec<u8>| !(set.contains(&6) && set.contains(&11));
    let masks = 1..1 << list.len();
    masks.map(chosen).filter(possible).collect()
}

fn add_fields(rng: &mut Rng, cases: &mut Vec<Case>) {
    for kind in Kind::ALL {
        for &place in fields(kind) {
            for value in VALUES {
                cases.push(field(rng, kind, place, value));
            }
            let value = rng.word();
            cases.push(field(rng, kind, place, value));
            if place.1 == 8 {
                cases.push(upper_half(rng, kind, place));
                cases.push(field(rng, kind, place, u64::MAX));
            }
        }
    }
}

/// Each byte that has only one good value, and each unnamed flag bit.
fn add_bits(rng: &mut Rng, cases: &mut Vec<Case>) {
    for &(kind, first, end, number) in damage::FIXED {
        for byte in first..end {
            let bit = byte * 8 + rng.place(8);
            cases.push(fixed_bit(rng, kind, bit, number));
        }
    }
    for bit in 256..286 {
        cases.push(fixed_bit(rng, Kind::FileHead, bit, 7));
    }
}

fn add_cuts(rng: &mut Rng, cases: &mut Vec<Case>) {
    for kind in Kind::ALL {
        let size = kind.size();
        for kept in [0, 1, 31, 32, 33, 40, 47, size - 1, size] {
            cases.push(cut(rng, kind, kept));
        }
        cases.push(random_cut(rng, kind));
    }
    cases.extend((0..30).map(|_| appended(rng)));
    cases.extend((0..16).map(|_| footer_denied(rng)));
}

fn add_heads(rng: &mut Rng, cases: &mut Vec<Case>) {
    for kind in HEADS {
        for count in HUGE {
            cases.push(huge(rng, kind, count));
        }
        cases.extend((0..9).map(|_| edge(rng, kind, false)));
        cases.extend((0..9).map(|_| edge(rng, kind, true)));
    }
    let count = [1 << 31, u32::MAX, 89_478_486, 44_739_243, 1 << 27, 1 << 28];
    cases.extend(count.map(|count| huge(rng, Kind::FileHead, count)));
}

fn add_tags(rng: &mut Rng, cases: &mut Vec<Case>) {
    for length in [0, 1, 31, 33, 16, 64, 255] {
        cases.extend((0..4).map(|_| tag_length(rng, length)));
    }
    cases.extend((0..16).map(|_| other_tag(rng)));
    cases.extend((0..6).map(|_| own_tag(rng)));
}

fn add_others(rng: &mut Rng, cases: &mut Vec<Case>) {
    cases.extend((0..24).map(|_| wrapped(rng)));
    cases.extend((0..70).map(|_| off_by_some(rng)));
    cases.extend((0..150).map(|_| flipped(rng, 1)));
    cases.extend((0..20).map(|_| flipped(rng, 2)));
    cases.extend((0..90).map(|_| shuffled(rng)));
    cases.extend((0..30).map(|_| no_bookend(rng)));
}
