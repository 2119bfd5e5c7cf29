//! Joining: both joins on the same shards, and what the request says of every result.

use crate::sights::{Sights, SOME};
use crate::{alike, hex, pattern, same, same_bytes, shown, Checked};
use checks::draw::{self, Draw, Room, MOST, ROOMS, TURNS};
use checks::generate::{usual_tag, Rng};
use checks::join::join;
use checks::reader::{judge, u32_at, Refusal, Summary, Verdict, LIMIT};

/// A join into a lent buffer.
type Join = fn(&[u8], &[u8], &[u8], &mut [u8]) -> Result<usize, Refusal>;

/// The joined shard, or the refusal.
type Joined = Result<Vec<u8>, Refusal>;

/// Pairs, triples and lists, a part of the count of inputs each, and large ones unless there are few.
pub fn compare(inputs: u64, seed: u64, seen: &mut Sights) -> Checked {
    pairs(inputs / 20, seed, seen)?;
    triples(inputs / 100, seed, seen)?;
    lists(inputs / 100, seed, seen)?;
    if inputs >= SOME {
        large_pairs(seed, seen)?;
        large_triples(seed, seen)?;
    }
    Ok(())
}

fn pairs(count: u64, seed: u64, seen: &mut Sights) -> Checked {
    let mut rng = Rng::new(seed);
    for number in 0..count {
        let draw = Draw::pair(&mut rng, number);
        let room = ROOMS[(number + number / TURNS) as usize % ROOMS.len()];
        let room = room.bytes(&mut rng, &draw);
        let checked = check_pair(&draw, room, seen);
        checked.map_err(|difference| tell("pair", number, seed, &draw, difference))?;
    }
    Ok(())
}

fn triples(count: u64, seed: u64, seen: &mut Sights) -> Checked {
    let mut rng = Rng::new(seed);
    for number in 0..count {
        let draw = Draw::triple(&mut rng, number);
        let checked = check_triple(&draw, seen);
        checked.map_err(|difference| tell("triple", number, seed, &draw, difference))?;
    }
    Ok(())
}

/// Every third list has no shard, every third one, the others up to 19.
fn lists(count: u64, seed: u64, seen: &mut Sights) -> Checked {
    let mut rng = Rng::new(seed);
    for number in 0..count {
        let length = [0, 1, 2 + rng.place(18)][number as usize % 3];
        let draw = Draw::list(&mut rng, number, length);
        let checked = check_list(&draw, seen);
        checked.map_err(|difference| tell("list", number, seed, &draw, difference))?;
    }
    Ok(())
}

/// Pairs at the limit and one record beyond it, the other grounds together with that one included.
fn large_pairs(seed: u64, seen: &mut Sights) -> Checked {
    let rng = &mut Rng::new(seed);
    let middle = MOST / 2 + 2;
    let half = draw::large(rng, true, middle);
    let more = draw::large(rng, true, middle + 1);
    let other = draw::large(rng, false, middle + 1);
    let full = draw::large(rng, true, MOST);
    let footed = draw::large_footed(rng, MOST - 5);
    let small = draw::large(rng, true, 10);
    let empty = draw::empty(&usual_tag());
    let pairs = [
        (&half, &half, Room::Exact),
        (&half, &half, Room::OneShort),
        (&half, &more, Room::More),
        (&more, &half, Room::Nothing),
        (&more, &other, Room::Exact),
        (&full, &empty, Room::Exact),
        (&empty, &full, Room::More),
        (&full, &small, Room::Exact),
        (&small, &full, Room::OneShort),
        (&full, &full, Room::Exact),
        (&footed, &more, Room::Exact),
        (&more, &footed, Room::Nothing),
    ];
    for (number, (first, second, room)) in (0..).zip(pairs) {
        let draw = Draw::of(&[first, second]);
        let room = room.bytes(rng, &draw);
        let checked = check_pair(&draw, room, seen);
        checked.map_err(|difference| tell("large pair", number, seed, &draw, difference))?;
    }
    Ok(())
}

/// A triple at the limit, and two beyond it.
fn large_triples(seed: u64, seen: &mut Sights) -> Checked {
    let rng = &mut Rng::new(seed);
    let third = (MOST + 6) / 3;
    let [less, more, half] = [third, third + 1, MOST / 2 + 3].map(|n| draw::large(rng, true, n));
    let empty = draw::empty(&usual_tag());
    let triples = [
        [&less, &less, &more],
        [&more, &less, &more],
        [&half, &half, &empty],
    ];
    for (number, triple) in (0..).zip(triples) {
        let draw = Draw::of(&triple);
        let checked = check_triple(&draw, seen);
        checked.map_err(|difference| tell("large triple", number, seed, &draw, difference))?;
    }
    Ok(())
}

/// A difference, and all that it takes to see it again.
fn tell(what: &str, number: u64, seed: u64, draw: &Draw, difference: String) -> String {
    let mut text = format!("{what} {number} of seed {seed}: {difference}");
    text += &format!("\n  tag:   {}", hex(&draw.tag));
    for shard in &draw.shards {
        text += &format!("\n  shard: {}", shown(shard));
    }
    text
}

/// The product's join, its refusal in the words of the independent one.
fn product(tag: &[u8], first: &[u8], second: &[u8], out: &mut [u8]) -> Result<usize, Refusal> {
    melagbosun::join_into(tag, first, second, out).map_err(same::refusal)
}

/// The product's join of a list.
fn product_list(draw: &Draw) -> Joined {
    let shards: Vec<&[u8]> = draw.shards.iter().map(Vec::as_slice).collect();
    melagbosun::join(&draw.tag, &shards).map_err(same::refusal)
}

/// Two shards joined with room enough.
fn joined(join: Join, tag: &[u8], first: &[u8], second: &[u8]) -> Joined {
    let mut out = pattern(first.len() + second.len());
    let length = join(tag, first, second, &mut out)?;
    out.truncate(length);
    Ok(out)
}

fn same_joined(what: &str, product: &Joined, wanted: &Joined) -> Checked {
    match (product, wanted) {
        (Ok(one), Ok(other)) => same_bytes(what, one, other),
        _ => {
            let length = |one: &Joined| one.as_ref().map(Vec::len).map_err(|&refusal| refusal);
            alike(what, length(product), length(wanted))
        }
    }
}

/// Both joins of a pair into the same room: the answer, every byte of the buffer, and what is known beforehand.
fn check_pair(draw: &Draw, room: usize, seen: &mut Sights) -> Checked {
    let (tag, first, second) = (&draw.tag, &draw.shards[0], &draw.shards[1]);
    let [mut theirs, mut ours] = [pattern(room), pattern(room)];
    let answer = join(tag, first, second, &mut ours);
    let what = format!("a join into {room} bytes");
    alike(&what, product(tag, first, second, &mut theirs), answer)?;
    same_bytes(&what, &theirs, &ours)?;
    seen.saw("pairs");
    let verdicts = [first, second].map(|shard| judge(tag, shard));
    let grounds = grounds(draw, verdicts, room);
    alike("the ground", answer.err().as_ref(), grounds.first())?;
    match (answer, verdicts) {
        (Ok(length), [Ok(first), Ok(second)]) => {
            note_accepted(draw, [first, second], room - length, seen);
            add_up(tag, &theirs[..length], [first, second])
        }
        _ => {
            note_refused(verdicts, &grounds, seen);
            Ok(())
        }
    }
}

/// All grounds to refuse a pair, in the order of the request: the first decides. The flags of the first file, if there is
/// one, are at 80.
fn grounds(draw: &Draw, verdicts: [Verdict; 2], room: usize) -> Vec<Refusal> {
    let mut grounds: Vec<Refusal> = verdicts.iter().filter_map(|one| one.err()).collect();
    let footer = verdicts.iter().flatten().any(|sums| sums.footer);
    let mut list = vec![(footer, 30)];
    if let [Ok(first), Ok(second)] = verdicts {
        let length = first.length + second.length - 144;
        let files = first.files > 0 && second.files > 0;
        let differ = u32_at(&draw.shards[0], 80) >> 31 != u32_at(&draw.shards[1], 80) >> 31;
        list.push((files && differ, 9));
        list.push((length > LIMIT, 6));
        list.push((length > room as u64, 15));
    }
    let holding = list.into_iter().filter(|one| one.0);
    grounds.extend(holding.map(|(_, number)| Refusal::new(number, 0)));
    grounds
}

/// Both readers accept the result, and its totals are the sums.
fn add_up(tag: &[u8], result: &[u8], [first, second]: [Summary; 2]) -> Checked {
    let wanted = Ok(Summary {
        length: first.length + second.length - 144,
        files: first.files + second.files,
        segments: first.segments + second.segments,
        xorbs: first.xorbs + second.xorbs,
        chunks: first.chunks + second.chunks,
        bytes: first.bytes + second.bytes,
        footer: false,
    });
    let theirs = same::verdict(melagbosun::judge(tag, result));
    alike("judging a result", theirs, wanted)?;
    alike("judging a result independently", judge(tag, result), wanted)
}

fn note_accepted(draw: &Draw, sums: [Summary; 2], spare: usize, seen: &mut Sights) {
    let [first, second] = sums;
    seen.saw("pairs accepted");
    seen.saw(match (first.files, second.files) {
        (0, 0) => "files in neither",
        (0, _) => "files in the second only",
        (_, 0) => "files in the first only",
        _ => "files in both",
    });
    seen.saw_if(first.length == 144, "144 bytes first");
    seen.saw_if(second.length == 144, "144 bytes second");
    let itself = draw.shards[0] == draw.shards[1] && first.length > 144;
    seen.saw_if(itself, "a shard with itself");
    seen.saw(if spare == 0 {
        "exact room"
    } else {
        "room to spare"
    });
    let longest = first.length + second.length - 144 + 48 > LIMIT;
    seen.saw_if(longest, "the longest result");
}

fn note_refused(verdicts: [Verdict; 2], grounds: &[Refusal], seen: &mut Sights) {
    seen.saw(match verdicts {
        [Err(_), _] => "refused by the first",
        [_, Err(_)] => "refused by the second",
        [Ok(first), Ok(second)] => match (grounds[0].number, first.footer, second.footer) {
            (30, true, true) => "30 by both",
            (30, true, false) => "30 by the first",
            (30, false, _) => "30 by the second",
            (9, ..) => "refused 9",
            (6, ..) => "refused 6",
            _ => "refused 15",
        },
    });
    seen.saw_if(grounds.len() > 1, "more than one ground");
}

/// The first two joined and then the third, and the last two first.
fn groupings(join: Join, draw: &Draw) -> [Joined; 2] {
    let tag = &draw.tag;
    let [a, b, c] = [0, 1, 2].map(|place| &draw.shards[place][..]);
    let left = joined(join, tag, a, b).and_then(|both| joined(join, tag, &both, c));
    let right = joined(join, tag, b, c).and_then(|both| joined(join, tag, a, &both));
    [left, right]
}

/// Both groupings by both joins: accepted with the same bytes, or refused. And the three as a list.
fn check_triple(draw: &Draw, seen: &mut Sights) -> Checked {
    let [left, right] = groupings(join, draw);
    let [their_left, their_right] = groupings(product, draw);
    same_joined("the first two joined first", &their_left, &left)?;
    same_joined("the last two joined first", &their_right, &right)?;
    same_joined("a list of three", &product_list(draw), &left)?;
    seen.saw("triples");
    match (&left, &right) {
        (Ok(left), Ok(right)) if left == right => seen.saw("triples accepted"),
        (Err(left), Err(right)) => {
            seen.saw("triples refused");
            seen.saw_if(left != right, "with two refusals");
        }
        _ => return Err("the two groupings differ".to_string()),
    }
    Ok(())
}

/// A list joined by the product, and folded from the left by the independent join.
fn check_list(draw: &Draw, seen: &mut Sights) -> Checked {
    let wanted = fold(draw);
    same_joined("a list", &product_list(draw), &wanted)?;
    seen.saw("lists");
    seen.saw(match (draw.shards.len(), wanted) {
        (0, _) => "lists of none",
        (1, Ok(_)) => "lists of one accepted",
        (1, Err(refusal)) if refusal.number == 30 => "lists of one refused 30",
        (1, Err(_)) => "lists of one refused",
        (_, Ok(_)) => "longer lists accepted",
        (_, Err(_)) => "longer lists refused",
    });
    Ok(())
}

/// From the left; where one of two is missing, it is the 144-byte shard.
fn fold(draw: &Draw) -> Joined {
    let mut shards = draw.shards.clone();
    while shards.len() < 2 {
        shards.push(draw::empty(&draw.tag));
    }
    let first = shards.remove(0);
    let mut rest = shards.iter();
    rest.try_fold(first, |both, next| joined(join, &draw.tag, &both, next))
}
