//! `compare N SEED`: N generated inputs, given to the independent reader and to the proved library, shards joined by both,
//! stretches of files planned by both, segments audited by both, and blob files read and written by both. Nothing may differ. Readers
//! and writers are begun and lent as in C too, and some are of other making.

mod audit;
mod blobs;
mod interface;
mod join;
mod lent;
mod plan;
mod puts;
mod read;
mod same;
mod sights;
mod states;
mod store;
mod write;

use checks::cases::{random_cut_case, Case};
use checks::generate::Rng;
use sights::{Sights, AUDITS, BLOBS, JOINS, LENT, PLANS, PUTS, STATES};
use std::env;
use std::process::ExitCode;

/// Shards longer than this are not shown.
const SHOWN: usize = 100_000;

/// What two readers or a writer did differently.
pub type Checked = Result<(), String>;

/// How often each number was seen, 0 being acceptance.
#[derive(Default)]
pub struct Seen {
    read: [u64; 17],
    written: [u64; 17],
    records: u64,
    bytes: u64,
}

/// An error unless both are the same.
pub fn alike<T: PartialEq + std::fmt::Debug>(what: &str, product: T, wanted: T) -> Checked {
    if product == wanted {
        return Ok(());
    }
    Err(format!(
        "{what}\n  product:     {product:?}\n  independent: {wanted:?}"
    ))
}

/// An error that tells the first byte that is not the same.
pub fn same_bytes(what: &str, product: &[u8], wanted: &[u8]) -> Checked {
    let mut both = product.iter().zip(wanted);
    match both.position(|(one, other)| one != other) {
        Some(at) => alike(&format!("{what}, byte {at}"), product[at], wanted[at]),
        None => alike(&format!("{what}, length"), product.len(), wanted.len()),
    }
}

/// What a buffer holds before something is written to it.
pub fn pattern(length: usize) -> Vec<u8> {
    (0..=250).cycle().take(length).collect()
}

fn check(case: &Case, rng: &mut Rng, seen: &mut Seen, lent: &mut Sights) -> Checked {
    let (records, verdict) = read::independent(case);
    seen.read[verdict.map_or_else(|refusal| refusal.number.into(), |_| 0)] += 1;
    seen.records += records.len() as u64;
    seen.bytes += case.shard.len() as u64;
    read::in_steps(case, rng)?;
    let offers = read::in_tables(case, rng, &records, verdict)?;
    read::whole(case, rng, &records, verdict)?;
    lent::check(case, rng, lent)?;
    audit::any(case, verdict)?;
    let read = write::Read {
        case,
        records: &records,
        offers: &offers,
        verdict,
    };
    write::again(&read, rng, seen)
}

fn hex(bytes: &[u8]) -> String {
    bytes.iter().map(|byte| format!("{byte:02x}")).collect()
}

fn shown(shard: &[u8]) -> String {
    match shard.len() {
        0..=SHOWN => hex(shard),
        length => format!("{length} bytes"),
    }
}

fn report(seen: &Seen) {
    println!("{} records in {} bytes", seen.records, seen.bytes);
    println!("{:>14} {:>9} {:>9}", "", "readers", "writer");
    for number in 0..=16 {
        let name = match number {
            0 => "accepted".to_string(),
            _ => format!("refused {number}"),
        };
        let (read, written) = (seen.read[number], seen.written[number]);
        println!("{name:>14} {read:>9} {written:>9}");
    }
}

fn inputs(count: u64, seed: u64, seen: &mut Seen, lent: &mut Sights) -> Checked {
    let mut rng = Rng::new(seed);
    for number in 0..count {
        let case = random_cut_case(&mut rng);
        check(&case, &mut rng, seen, lent).map_err(|difference| {
            let family = case.family;
            let (tag, shard) = (hex(&case.tag), hex(&case.shard));
            format!("input {number} of seed {seed} ({family}): {difference}\n  tag:   {tag}\n  shard: {shard}")
        })?;
    }
    Ok(())
}

/// Compares and reports all; an error is a difference, or something that was seen too seldom.
fn compare(count: u64, seed: u64) -> Checked {
    let mut seen = Seen::default();
    let mut lent = Sights::new("lent", LENT);
    let mut states = Sights::new("states", STATES);
    let mut joins = Sights::new("joins", JOINS);
    let mut plans = Sights::new("plans", PLANS);
    let mut audits = Sights::new("audits", AUDITS);
    let mut blobs = Sights::new("blobs", BLOBS);
    let mut puts = Sights::new("puts", PUTS);
    inputs(count, seed, &mut seen, &mut lent)?;
    states::compare(count, seed, &mut states)?;
    join::compare(count, seed, &mut joins)?;
    plan::compare(count, seed, &mut plans)?;
    audit::compare(count, seed, &mut audits)?;
    blobs::compare(count, seed, &mut blobs)?;
    puts::compare(count, seed, &mut puts)?;
    report(&seen);
    for sights in [&lent, &states, &joins, &plans, &audits, &blobs, &puts] {
        sights.report();
        sights.enough(count)?;
    }
    let made = ["readers of other making", "writers of other making"];
    let [readers, writers] = made.map(|name| states.times(name));
    println!("{readers} readers and {writers} writers of other making, 0 faults");
    let [pairs, triples, lists] = ["pairs", "triples", "lists"].map(|name| joins.times(name));
    println!("{pairs} pairs, {triples} triples and {lists} lists joined, 0 differences");
    println!("{} plans, 0 differences", plans.times("plans"));
    println!("{} audits, 0 differences", audits.times("audits"));
    let (files, puts) = (
        blobs.times("blob files"),
        puts.times("entries to be written"),
    );
    println!("{files} blob files and {puts} entries to be written, 0 differences");
    println!("{count} inputs, 0 differences");
    Ok(())
}

fn main() -> ExitCode {
    let numbers: Vec<u64> = env::args().skip(1).map_while(|n| n.parse().ok()).collect();
    let &[count, seed] = &numbers[..] else {
        eprintln!("usage: compare N SEED");
        return ExitCode::FAILURE;
    };
    if let Err(difference) = compare(count, seed) {
        println!("{difference}");
        return ExitCode::FAILURE;
    }
    ExitCode::SUCCESS
}
