//! Damage done to a good layout, with the refusal it must bring where that
//! is plain from the paper.

use crate::generate::{start_of, Laid, Rng};
use crate::reader::{u32_at, u64_at, Kind, Refusal, LIMIT};

/// Entry counts that no shard holds; many come out small in 32 bits.
pub const HUGE: [u32; 16] = [
    89_478_486,
    89_478_485,
    178_956_971,
    268_435_456,
    134_217_728,
    44_739_243,
    357_913_942,
    1 << 31,
    (1 << 31) - 1,
    (1 << 31) + 1,
    u32::MAX,
    u32::MAX - 1,
    349_525,
    349_526,
    1 << 24,
    1 << 30,
];

/// Bytes that have only one good value in a good shard: kind, first, end, and
/// the refusal that any other value brings.
pub const FIXED: &[(Kind, usize, usize, u8)] = &[
    (Kind::Header, 0, 32, 3),
    (Kind::Header, 32, 40, 4),
    (Kind::Header, 40, 48, 5),
    (Kind::FileHead, 40, 48, 7),
    (Kind::Segment, 32, 36, 7),
    (Kind::Verification, 32, 48, 7),
    (Kind::Metadata, 32, 48, 7),
    (Kind::XorbHead, 32, 36, 7),
    (Kind::Chunk, 32, 36, 11),
    (Kind::Chunk, 40, 48, 7),
    (Kind::Bookend, 32, 48, 8),
    (Kind::Footer, 0, 8, 12),
    (Kind::Footer, 8, 24, 13),
    (Kind::Footer, 24, 72, 7),
    (Kind::Footer, 120, 192, 7),
    (Kind::Footer, 192, 200, 13),
];

/// The bits of a file head's flags from here up have a meaning.
const UNNAMED: u64 = 30;

/// The fields of each kind as (first byte, width), reserved ones included.
pub fn fields(kind: Kind) -> &'static [(usize, usize)] {
    const TAIL: &[(usize, usize)] = &[(32, 4), (36, 4), (40, 4), (44, 4)];
    match kind {
        Kind::Header => &[(0, 8), (24, 8), (32, 8), (40, 8)],
        Kind::Footer => &[
            (0, 8),
            (8, 8),
            (16, 8),
            (24, 8),
            (64, 8),
            (72, 8),
            (96, 8),
            (104, 8),
            (112, 8),
            (120, 8),
            (184, 8),
            (192, 8),
        ],
        _ => TAIL,
    }
}

/// The faults a record of this kind can have, in the order they are judged.
pub fn faults(kind: Kind) -> &'static [u8] {
    match kind {
        Kind::Header => &[3, 4, 5],
        Kind::FileHead => &[8, 7, 9, 6],
        Kind::Segment => &[7, 10],
        Kind::XorbHead => &[8, 7, 6, 11],
        Kind::Chunk => &[7, 11],
        Kind::Verification | Kind::Metadata => &[7],
        Kind::Bookend => &[8],
        Kind::Footer => &[12, 13, 7],
    }
}

/// Sets a field of at most 8 bytes, cutting the value to its width.
pub fn set(bytes: &mut [u8], (at, width): (usize, usize), value: u64) {
    bytes[at..at + width].copy_from_slice(&value.to_le_bytes()[..width]);
}

/// The places of all records of this kind.
pub fn places(layout: &[Laid], kind: Kind) -> Vec<usize> {
    let all = 0..layout.len();
    all.filter(|&index| layout[index].kind == kind).collect()
}

/// Gives record `index` all these faults, and answers the refusal due: the
/// first of them in the order of its kind. Fault 9 wants a file that is not
/// the first; 6 and 11 of a xorb head exclude each other.
pub fn spoil(rng: &mut Rng, layout: &mut [Laid], index: usize, wanted: &[u8]) -> Refusal {
    let position = start_of(layout, index);
    let kind = layout[index].kind;
    let order = faults(kind);
    for &number in order.iter().rev().filter(|one| wanted.contains(one)) {
        spoil_once(rng, kind, &mut layout[index].bytes, number);
    }
    let first = order.iter().find(|one| wanted.contains(one));
    Refusal::new(*first.expect("a fault of this kind"), position)
}

fn spoil_once(rng: &mut Rng, kind: Kind, bytes: &mut [u8], number: u8) {
    match (kind, number) {
        (Kind::Header, _) => spoil_header(rng, bytes, number),
        (Kind::Footer, _) => spoil_footer(rng, bytes, number),
        (_, 8) => spoil_marker(rng, bytes),
        (_, 7) => spoil_reserved(rng, kind, bytes),
        (_, 9) => bytes[35] ^= 0x80,
        (_, 6) => set(bytes, (36, 4), u64::from(rng.pick(&HUGE))),
        (Kind::Segment, _) => spoil_range(rng, bytes),
        (Kind::Chunk, _) => spoil_start(rng, bytes),
        _ => spoil_empty_xorb(rng, bytes),
    }
}

fn spoil_header(rng: &mut Rng, bytes: &mut [u8], number: u8) {
    let high = 1 << (32 + rng.below(32));
    match number {
        3 => bytes[rng.place(32)] ^= 1 << rng.below(8),
        4 => set(bytes, (32, 8), rng.pick(&[0, 1, 3, 2 + high, u64::MAX])),
        _ => {
            let values = [1, 48, 199, 201, 400, high, 200 + high, u64::MAX];
            set(bytes, (40, 8), rng.pick(&values));
        }
    }
}

fn spoil_footer(rng: &mut Rng, bytes: &mut [u8], number: u8) {
    let high = 1 << (32 + rng.below(32));
    match number {
        12 => set(bytes, (0, 8), rng.pick(&[0, 2, 1 + high, u64::MAX])),
        13 => {
            let at = rng.pick(&[8, 16, 192]);
            let good = u64_at(bytes, at);
            let values = [0, good + 48, good - 1, good + high, good + 1, u64::MAX];
            set(bytes, (at, 8), rng.pick(&values));
        }
        _ => {
            let at = rng.place(120);
            let at = if at < 48 { 24 + at } else { 72 + at };
            bytes[at] ^= 1 << rng.below(8);
        }
    }
}

/// All ones where a head is due, with a tail that is not zero.
fn spoil_marker(rng: &mut Rng, bytes: &mut [u8]) {
    bytes[..32].fill(0xFF);
    if bytes[32..].iter().all(|&byte| byte == 0) {
        bytes[32 + rng.place(16)] = 1 << rng.below(8);
    }
}

fn spoil_reserved(rng: &mut Rng, kind: Kind, bytes: &mut [u8]) {
    let flags = u64::from(u32_at(bytes, 32));
    let bits = if kind == Kind::FileHead { UNNAMED } else { 32 };
    let flags = flags | 1 << rng.below(bits);
    match kind {
        Kind::Segment | Kind::XorbHead => set(bytes, (32, 4), flags),
        Kind::FileHead if rng.once_in(2) => set(bytes, (32, 4), flags),
        Kind::FileHead | Kind::Chunk => bytes[40 + rng.place(8)] |= 1 << rng.below(8),
        _ => bytes[32 + rng.place(16)] |= 1 << rng.below(8),
    }
}

/// A chunk start that is not below its end.
fn spoil_range(rng: &mut Rng, bytes: &mut [u8]) {
    let end = u32_at(bytes, 44);
    let more = rng.below(u64::from(u32::MAX - end) + 1);
    let start = u64::from(end) + rng.pick(&[0, 0, more]);
    set(bytes, (40, 4), start);
    if rng.once_in(4) {
        set(bytes, (44, 4), 0);
    }
}

/// A chunk start that is not the sum so far.
fn spoil_start(rng: &mut Rng, bytes: &mut [u8]) {
    let start = u32_at(bytes, 32);
    let other = start ^ (1 << rng.below(32));
    let near = [start.wrapping_add(1), start.wrapping_sub(1), other];
    set(bytes, (32, 4), u64::from(rng.pick(&near)));
}

/// A xorb head without chunks that declares bytes.
fn spoil_empty_xorb(rng: &mut Rng, bytes: &mut [u8]) {
    set(bytes, (36, 4), 0);
    let total = u64::from(rng.number()).max(1);
    set(bytes, (40, 4), total);
}

/// The largest entry count a head at `position` may declare. `each` is the
/// records per entry, `more` the others; `rest` is what must still follow.
pub fn largest(position: u64, each: u64, more: u64, rest: u64) -> u32 {
    let room = LIMIT - position - 48 - rest - 48 * more;
    (room / 48 / each) as u32
}

/// Flips one bit of a random record, mostly in its last 16 bytes.
pub fn flip(rng: &mut Rng, layout: &mut [Laid]) {
    let place = rng.place(layout.len());
    let heads: Vec<usize> = (0..layout.len())
        .filter(|&index| is_weighty(layout[index].kind))
        .collect();
    let place = if rng.once_in(2) {
        rng.pick(&heads)
    } else {
        place
    };
    let bytes = &mut layout[place].bytes;
    let at = if bytes.len() == 48 && !rng.once_in(4) {
        32 + rng.place(16)
    } else {
        rng.place(bytes.len())
    };
    bytes[at] ^= 1 << rng.below(8);
}

fn is_weighty(kind: Kind) -> bool {
    matches!(
        kind,
        Kind::Header | Kind::FileHead | Kind::XorbHead | Kind::Bookend | Kind::Footer
    )
}

/// Drops, doubles or exchanges records.
pub fn shuffle(rng: &mut Rng, layout: &mut Vec<Laid>) {
    let place = rng.place(layout.len());
    let other = rng.place(layout.len());
    match rng.below(4) {
        0 => {
            layout.remove(place);
        }
        1 => layout.insert(place, layout[place].clone()),
        2 => layout.swap(place, other),
        _ => {
            let moved = layout.remove(place);
            layout.insert(other.min(layout.len()), moved);
        }
    }
}
