//! The small examples of the paper's section on shards from the quay, byte
//! for byte, with the verdicts given there.

use crate::cases::Case;
use crate::generate::{flatten, lay_bookend, lay_header, usual_tag, Laid};
use crate::reader::{Kind, Refusal, Summary, Verdict, WITH_VERIFICATION};

const HASH: [u64; 4] = [11, 22, 33, 44];

/// All of them, in the order of the paper.
pub fn examples() -> Vec<Case> {
    let mut list = vec![case(&[], refused(1, 0)), case(&[header()], refused(1, 48))];
    list.extend(empty_shards());
    list.extend(file_shards());
    list.extend(xorb_shards());
    list
}

fn empty_shards() -> Vec<Case> {
    let empty = [header(), lay_bookend(), lay_bookend()];
    let mut longer = case(&empty, refused(14, 144));
    longer.shard.push(0);
    vec![
        case(&empty, Ok(length(144))),
        longer,
        case(&with_footer(96), Ok(footed(344))),
        case(&with_footer(48), refused(13, 144)),
    ]
}

fn file_shards() -> Vec<Case> {
    let one = head(0, 1);
    let to_five = Laid::entry(Kind::Segment, HASH, [0, 7, 5, 5]);
    let to_six = Laid::entry(Kind::Segment, HASH, [0, 7, 5, 6]);
    let huge = head(0, 89_478_486);
    let verified = head(WITH_VERIFICATION, 0);
    vec![
        case(&[header(), one.clone(), to_five], refused(10, 96)),
        case(&[header(), one, to_six], refused(1, 144)),
        case(&[header(), huge], refused(6, 48)),
        case(&[header(), verified, head(0, 0)], refused(9, 96)),
    ]
}

fn xorb_shards() -> Vec<Case> {
    let sums = Summary {
        xorbs: 1,
        chunks: 2,
        ..length(288)
    };
    let alone = xorb(&[[0, u32::MAX]], 0);
    vec![
        case(&xorb(&[[0, 10], [10, 20]], 30), Ok(sums)),
        case(&xorb(&[[0, 10], [11, 20]], 30), refused(11, 192)),
        case(&alone, refused(11, 144)),
    ]
}

fn case(layout: &[Laid], verdict: Verdict) -> Case {
    Case {
        family: "example",
        tag: usual_tag(),
        shard: flatten(layout),
        expected: Some(verdict),
    }
}

fn refused(number: u8, position: u64) -> Verdict {
    Err(Refusal::new(number, position))
}

fn length(length: u64) -> Summary {
    Summary {
        length,
        ..Summary::default()
    }
}

fn footed(length: u64) -> Summary {
    Summary {
        length,
        footer: true,
        ..Summary::default()
    }
}

fn header() -> Laid {
    lay_header(&usual_tag(), false)
}

fn head(flags: u32, entries: u32) -> Laid {
    Laid::entry(Kind::FileHead, HASH, [flags, entries, 0, 0])
}

fn with_footer(xorb_offset: u64) -> Vec<Laid> {
    let mut bytes = vec![0; 200];
    for (at, value) in [(0, 1), (8, 48), (16, xorb_offset), (192, 144)] {
        bytes[at..at + 8].copy_from_slice(&value.to_le_bytes());
    }
    let kind = Kind::Footer;
    let header = lay_header(&usual_tag(), true);
    vec![header, lay_bookend(), lay_bookend(), Laid { kind, bytes }]
}

fn xorb(chunks: &[[u32; 2]], total: u32) -> Vec<Laid> {
    let count = chunks.len() as u32;
    let mut layout = vec![header(), lay_bookend()];
    layout.push(Laid::entry(Kind::XorbHead, HASH, [0, count, total, 9]));
    for &[start, bytes] in chunks {
        layout.push(Laid::entry(Kind::Chunk, HASH, [start, bytes, 0, 0]));
    }
    layout.push(lay_bookend());
    layout
}
