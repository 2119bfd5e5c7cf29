//! The stored casebook: every number is in it, and it is what is written now.

use checks::audit::Audited;
use checks::casebook::{blanks, Entry, CASES, SEED};
use checks::reader::Refusal;
use std::fs;
use std::path::Path;

fn stored() -> (Vec<u8>, String) {
    let folder = Path::new(env!("CARGO_MANIFEST_DIR")).join("../crates/casebook");
    let input = fs::read(folder.join("stdin")).expect("the file stdin");
    let output = fs::read_to_string(folder.join("stdout")).expect("the file stdout");
    (input, output)
}

/// The numbers that these were refused with, 0 if one was not.
fn numbers<T>(answers: impl Iterator<Item = Result<T, Refusal>>) -> Vec<u8> {
    let mut seen: Vec<u8> = answers
        .map(|answer| answer.err().map_or(0, |refusal| refusal.number))
        .collect();
    seen.sort_unstable();
    seen.dedup();
    seen
}

#[test]
fn stored_files_are_current() {
    let entries: Vec<Entry> = (0..CASES).map(|case| Entry::random(SEED, case)).collect();
    let input: Vec<u8> = entries.iter().flat_map(Entry::encode).collect();
    let output: String = entries.iter().map(|entry| entry.lines().0).collect();
    assert_eq!(stored(), (input, output));
}

#[test]
fn every_number_is_seen() {
    let verdicts = (0..CASES).map(|case| Entry::random(SEED, case).lines().1);
    assert_eq!(numbers(verdicts), (0..=14).collect::<Vec<u8>>());
}

/// Joins that are accepted and refused by either shard, and each number of a
/// join but 6, which takes longer shards than the program reads.
#[test]
fn every_join_is_seen() {
    let joins = (0..CASES).map(|case| {
        let mut entry = Entry::random(SEED, case);
        let mut buffer = std::mem::take(&mut entry.buffer);
        entry.joined(&mut buffer)
    });
    let seen = numbers(joins);
    for number in [0, 9, 15, 30] {
        assert!(seen.contains(&number), "{number} is not among {seen:?}");
    }
}

/// Plans of several rows, plans refused by the shard, and each number of a plan.
#[test]
fn every_plan_is_seen() {
    let plans = (0..CASES).map(|case| Entry::random(SEED, case).planned(&mut blanks()));
    let plans: Vec<Result<usize, u8>> = plans
        .map(|planned| planned.map_err(|refusal| refusal.number))
        .collect();
    for number in [15, 17, 18] {
        assert!(plans.contains(&Err(number)), "{number} is not in {plans:?}");
    }
    assert!(plans.iter().any(|planned| planned.is_ok_and(|n| n > 1)));
    assert!(plans.iter().any(|planned| planned.is_err_and(|n| n <= 14)));
}

/// Audits that count both kinds, audits refused by the shard, and 22.
#[test]
fn every_audit_is_seen() {
    let audits = (0..CASES).map(|case| Entry::random(SEED, case).audited());
    let audits: Vec<Result<Audited, u8>> = audits
        .map(|audited| audited.map_err(|refusal| refusal.number))
        .collect();
    let both = |sums: Audited| sums.listed > 0 && sums.unlisted > 0;
    assert!(audits.contains(&Err(22)), "22 is not in {audits:?}");
    assert!(audits.iter().any(|audited| audited.is_ok_and(both)));
    assert!(audits.iter().any(|audited| audited.is_err_and(|n| n <= 14)));
}

/// Blob files and entries of them that are good, and each of their numbers; and
/// each number of an entry to be written.
#[test]
fn every_blob_is_seen() {
    let entries: Vec<Entry> = (0..CASES).map(|case| Entry::random(SEED, case)).collect();
    let all = [0, 24, 25, 26, 27, 28, 29];
    assert_eq!(numbers(entries.iter().map(Entry::scanned)), all);
    assert_eq!(numbers(entries.iter().map(Entry::entry)), all);
    let wrote = entries
        .iter()
        .map(|one| one.wrote(&mut one.put.buffer.clone()));
    assert_eq!(numbers(wrote), [0, 15, 27]);
    let mut tallies = entries.iter().flat_map(Entry::scanned);
    assert!(tallies.any(|tally| tally.entries > 1 && tally.bytes > 0));
}

/// However a case is cut, its lines are the same.
#[test]
fn pieces_change_no_line() {
    for number in 0..300 {
        let mut entry = Entry::random(5, number);
        let lines = entry.lines();
        entry.pieces.clear();
        assert_eq!(entry.lines(), lines);
    }
}
