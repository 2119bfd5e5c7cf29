//! Planning: both plans of the same stretches, and what the request says of every answer.

use crate::sights::{Sights, SOME};
use crate::{alike, hex, same, shown, store, Checked};
use checks::generate::Rng;
use checks::plan::{plan, Row};
use checks::reader::Refusal;
use checks::stretch::{Stretch, LARGE_ONES};
use melagbosun::{FetchRow, FileNumber};

/// The rows, or the refusal.
type Planned = Result<Vec<Row>, Refusal>;

/// A part of the count of inputs, and large ones unless there are few.
pub fn compare(inputs: u64, seed: u64, seen: &mut Sights) -> Checked {
    let mut rng = Rng::new(seed);
    for number in 0..inputs / 10 {
        let stretch = Stretch::random(&mut rng, number);
        let checked = check(&stretch, seen);
        checked.map_err(|difference| tell("plan", number, seed, &stretch, difference))?;
    }
    let large = if inputs >= SOME { LARGE_ONES } else { 0 };
    for number in 0..large {
        let stretch = Stretch::large(&mut rng, number);
        let checked = check(&stretch, seen);
        checked.map_err(|difference| tell("large plan", number, seed, &stretch, difference))?;
        seen.saw("the longest shard");
    }
    Ok(())
}

/// A difference, and all that it takes to see it again.
fn tell(what: &str, number: u64, seed: u64, stretch: &Stretch, difference: String) -> String {
    let &Stretch {
        file, a, b, room, ..
    } = stretch;
    let (tag, shard) = (hex(&stretch.known.tag), shown(&stretch.known.shard));
    let mut text = format!("{what} {number} of seed {seed}: {difference}");
    text += &format!("\n  file {file}, from {a} to {b}, into {room} rows");
    text += &format!("\n  tag:   {tag}\n  shard: {shard}");
    text
}

/// Both plans into the same table: the answer, every row of the table, the plan as a list, and what is known beforehand.
fn check(stretch: &Stretch, seen: &mut Sights) -> Checked {
    let mut theirs = pattern(stretch.room);
    let before = same::rows(&theirs);
    let mut ours = before.clone();
    let answer = plan_into(stretch, &mut ours);
    alike("a plan", product_into(stretch, &mut theirs), answer)?;
    same_rows("a plan", &same::rows(&theirs), &ours)?;
    same_planned("a plan as a list", &product(stretch), &with_room(stretch))?;
    seen.saw("plans");
    let grounds = grounds(stretch);
    alike("the ground", answer.err().as_ref(), grounds.first())?;
    let filled = answer.unwrap_or(0);
    same_rows("what stays", &ours[filled..], &before[filled..])?;
    match answer {
        Ok(count) => {
            let rows = &ours[..count];
            add_up(stretch, rows)?;
            note_accepted(stretch, rows, seen);
            from_store(stretch, rows, seen)
        }
        Err(_) => {
            note_refused(stretch, &grounds, seen);
            Ok(())
        }
    }
}

/// What a table holds before a plan: no two numbers in it are the same.
fn pattern(length: usize) -> Vec<FetchRow> {
    let row = |place: u32| FetchRow {
        xorb: melagbosun::Hash([1, 2, 3, 4].map(|word| u64::from(place) << 8 | word)),
        start: melagbosun::ChunkIndex(place << 8 | 5),
        end: melagbosun::ChunkIndex(place << 8 | 6),
        skip: place << 8 | 7,
        take: place << 8 | 8,
    };
    (0..length as u32).map(row).collect()
}

fn product_into(stretch: &Stretch, table: &mut [FetchRow]) -> Result<usize, Refusal> {
    let &Stretch { file, a, b, .. } = stretch;
    let (tag, shard) = (&stretch.known.tag, &stretch.known.shard);
    melagbosun::plan_into(tag, shard, FileNumber(file), a..b, table).map_err(same::refusal)
}

/// The product's plan as a list.
fn product(stretch: &Stretch) -> Planned {
    let &Stretch { file, a, b, .. } = stretch;
    let (tag, shard) = (&stretch.known.tag, &stretch.known.shard);
    let rows = melagbosun::plan(tag, shard, FileNumber(file), a..b);
    rows.map(|rows| same::rows(&rows)).map_err(same::refusal)
}

fn plan_into(stretch: &Stretch, table: &mut [Row]) -> Result<usize, Refusal> {
    let &Stretch { file, a, b, .. } = stretch;
    let (tag, shard) = (&stretch.known.tag, &stretch.known.shard);
    plan(tag, shard, file, a, b, table)
}

/// The independent plan with a row for every segment.
fn with_room(stretch: &Stretch) -> Planned {
    let mut table = same::rows(&pattern(stretch.segments().len()));
    let count = plan_into(stretch, &mut table)?;
    table.truncate(count);
    Ok(table)
}

/// An error that tells the first row that is not the same.
fn same_rows(what: &str, product: &[Row], wanted: &[Row]) -> Checked {
    let mut both = product.iter().zip(wanted);
    match both.position(|(one, other)| one != other) {
        Some(at) => alike(&format!("{what}, row {at}"), product[at], wanted[at]),
        None => alike(&format!("{what}, rows"), product.len(), wanted.len()),
    }
}

fn same_planned(what: &str, product: &Planned, wanted: &Planned) -> Checked {
    match (product, wanted) {
        (Ok(one), Ok(other)) => same_rows(what, one, other),
        _ => {
            let count = |one: &Planned| one.as_ref().map(Vec::len).map_err(|&refusal| refusal);
            alike(what, count(product), count(wanted))
        }
    }
}

/// All grounds to refuse a plan, in the order of the request: the first decides. They are known from what was laid out.
fn grounds(stretch: &Stretch) -> Vec<Refusal> {
    let file = stretch.file().is_some();
    let past = file && stretch.b > stretch.total();
    let list = [
        (!file, 17),
        (stretch.a >= stretch.b || past, 18),
        (stretch.needed() > stretch.room, 15),
    ];
    let holding = list.into_iter().filter(|one| one.0);
    let holding = holding.map(|(_, number)| Refusal::new(number, 0));
    stretch.known.refusal.into_iter().chain(holding).collect()
}

/// No row without a byte, all bytes of the range, at most a row for each segment, and only the first one skips.
fn add_up(stretch: &Stretch, rows: &[Row]) -> Checked {
    let without = rows.iter().position(|row| row.take == 0);
    alike("a row that takes nothing", without, None)?;
    let takes: u64 = rows.iter().map(|row| row.take).sum();
    alike("the sum of the takes", takes, stretch.b - stretch.a)?;
    let edges = stretch.edges();
    let edge = edges.into_iter().rfind(|&edge| edge <= stretch.a);
    let first = edge.map(|edge| edge + rows[0].skip);
    alike("where the first row begins", first, Some(stretch.a))?;
    let later = rows[1..].iter().position(|row| row.skip > 0);
    alike("a later row that skips", later, None)?;
    let beyond = rows.len().saturating_sub(stretch.segments().len());
    alike("rows beyond the segments", beyond, 0)?;
    alike("the rows needed", rows.len(), stretch.needed())
}

/// What the rows fetch from a store is that part of the file, unless the file is too long to be made.
fn from_store(stretch: &Stretch, rows: &[Row], seen: &mut Sights) -> Checked {
    let segments = stretch.segments();
    if segments.iter().any(|one| one.bytes > store::MOST) {
        return Ok(());
    }
    let file = store::file(segments);
    let wanted = &file[stretch.a as usize..stretch.b as usize];
    let fetched = store::fetch(rows);
    seen.saw("fetched from the store");
    alike("what is fetched", hex(&fetched), hex(wanted))
}

fn note_accepted(stretch: &Stretch, rows: &[Row], seen: &mut Sights) {
    let &Stretch { a, b, .. } = stretch;
    let total = stretch.total();
    seen.saw("plans accepted");
    seen.saw_if(a == 0 && b == total, "the whole file");
    seen.saw_if(b - a == 1, "one byte");
    seen.saw(match rows.len() {
        1 => "one row",
        _ => "several rows",
    });
    seen.saw(match stretch.room - rows.len() {
        0 => "exact room",
        _ => "room to spare",
    });
    seen.saw_if(total > 1 << 32, "more than 2^32 bytes");
    seen.saw_if(a > 1 << 32, "begins beyond 2^32");
    seen.saw_if(stretch.file > 0, "not the first file");
    seen.saw_if(stretch.file >= 1 << 16, "a file beyond 2^16");
    let file = stretch.file().expect("an accepted plan has a file");
    seen.saw_if(file.verified, "with verifications");
    seen.saw_if(file.metadata.is_some(), "with metadata");
    seen.saw_if(stretch.known.laid.footer.is_some(), "with a footer");
    note_edges(stretch, seen);
    note_neighbours(rows, seen);
}

fn note_edges(stretch: &Stretch, seen: &mut Sights) {
    let &Stretch { a, b, .. } = stretch;
    let edges = stretch.edges();
    seen.saw(match edges.contains(&a) {
        true => "begins at an edge",
        false => "begins in a segment",
    });
    seen.saw(match edges.contains(&b) {
        true => "ends at an edge",
        false => "ends in a segment",
    });
    let empty = edges.windows(2).filter(|ends| ends[0] == ends[1]);
    let mut places = empty.map(|ends| ends[0]);
    let passed = places.clone().any(|at| a < at && at < b);
    seen.saw_if(passed, "0 bytes between two rows");
    let beside = places.any(|at| at == a || at == b);
    seen.saw_if(beside, "0 bytes beside the range");
}

fn note_neighbours(rows: &[Row], seen: &mut Sights) {
    let chunks = |row: &Row| (row.xorb, row.start, row.end);
    let again = |two: &[Row]| chunks(&two[0]) == chunks(&two[1]);
    let next = |two: &[Row]| (two[0].xorb, two[0].end) == (two[1].xorb, two[1].start);
    seen.saw_if(rows.windows(2).any(again), "a piece once more");
    seen.saw_if(rows.windows(2).any(next), "the chunks after it");
}

fn note_refused(stretch: &Stretch, grounds: &[Refusal], seen: &mut Sights) {
    let &Stretch { a, b, .. } = stretch;
    seen.saw(match grounds[0].number {
        _ if stretch.known.refusal.is_some() => "refused by the shard",
        17 => "refused 17",
        18 if a == b => "18 by a = b",
        18 if a > b => "18 by a > b",
        18 => "18 past the end",
        _ => "refused 15",
    });
    seen.saw_if(grounds.len() > 1, "more than one ground");
    let count = stretch.known.laid.files.len();
    let first = grounds[0].number == 17 && stretch.file as usize == count;
    seen.saw_if(first, "17 by the first too many");
    if grounds[0].number == 18 {
        seen.saw_if(b == stretch.total() + 1, "18 by one byte");
        seen.saw_if(a == u64::MAX, "u64::MAX as a");
        seen.saw_if(b == u64::MAX, "u64::MAX as b");
        seen.saw_if(stretch.segments().is_empty(), "18 without segments");
        seen.saw_if(stretch.total() == 0, "18 in an empty file");
    }
}
