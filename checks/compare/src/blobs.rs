//! Blob files: both scans and both readers on the same bytes, what is known of every answer, and good files written again.

use crate::sights::{Sights, SOME};
use crate::{alike, pattern, same, same_bytes, shown, Checked};
use checks::blobfiles::{BlobFile, Sort, BESIDE, HEX, LARGE_ONES};
use checks::blobs::{entry_at, scan, Entry, Tally, HEAD};
use checks::generate::Rng;
use checks::reader::Refusal;
use melagbosun::{blobs as product, Position};

/// A part of the count of inputs, each byte of an entry damaged, and large ones unless there are few.
pub fn compare(inputs: u64, seed: u64, seen: &mut Sights) -> Checked {
    let mut rng = Rng::new(seed);
    for number in 0..inputs / 10 {
        let file = BlobFile::random(&mut rng, number);
        let what = || format!("blob file {number} of seed {seed}");
        check(&file, &mut rng, seen).map_err(|difference| tell(what(), &file, difference))?;
    }
    let large = if inputs >= SOME { LARGE_ONES } else { 0 };
    for number in 0..large {
        let file = BlobFile::large(&mut rng, number);
        let what = || format!("large blob file {number} of seed {seed}");
        check(&file, &mut rng, seen).map_err(|difference| tell(what(), &file, difference))?;
        seen.saw("a larger file");
    }
    let file = BlobFile::even(&mut rng, 3, 7);
    (0..HEAD).try_for_each(|byte| every_value(&file, byte, seen))
}

/// A difference, and all that it takes to see it again.
fn tell(what: String, file: &BlobFile, difference: String) -> String {
    format!("{what}: {difference}\n  file: {}", shown(&file.bytes))
}

/// Each other value of this byte in the second entry.
fn every_value(file: &BlobFile, byte: usize, seen: &mut Sights) -> Checked {
    let start = file.starts[1];
    let own = file.bytes[start as usize + byte];
    let mut refused = false;
    for value in (0..=255).filter(|&value| value != own) {
        let other = file.with_byte(start, byte, value);
        let what = || format!("byte {byte} as {value} in the entry at {start}");
        let answer = both_scans(&other).and(both_entries(&other, start));
        let answer = answer.map_err(|difference| tell(what(), &other, difference))?;
        seen.saw("values of a byte");
        seen.saw_if(answer.is_err(), "values refused");
        refused |= answer.is_err();
    }
    seen.saw_if(refused, "bytes of 110 damaged");
    Ok(())
}

/// Both scans of a file, and what is known of it.
fn both_scans(file: &BlobFile) -> Result<Result<Tally, Refusal>, String> {
    let answer = scan(&file.bytes);
    let product = product::scan(&file.bytes);
    let product = product.map(same::tally).map_err(same::refusal);
    alike("a scan", product, answer)?;
    let known = file.tally().unwrap_or(answer);
    alike("what is known of a scan", answer, known)?;
    Ok(answer)
}

/// What both readers find at a position, where it stands, and what is known of it.
fn both_entries(file: &BlobFile, at: u64) -> Result<Result<Entry<'_>, Refusal>, String> {
    let answer = entry_at(&file.bytes, at);
    let product = product::entry_at(&file.bytes, Position(at));
    let product = product.map(same::entry).map_err(same::refusal);
    alike(&format!("the entry at {at}"), product, answer)?;
    let places = |entry: Entry| [entry.digits, entry.data].map(<[u8]>::as_ptr_range);
    alike("where they stand", product.map(places), answer.map(places))?;
    let known = file.entry(at).unwrap_or(answer);
    alike(&format!("what is known at {at}"), answer, known)?;
    Ok(answer)
}

/// A file, and some positions in it and past it.
fn check(file: &BlobFile, rng: &mut Rng, seen: &mut Sights) -> Checked {
    let scanned = both_scans(file)?;
    walk(file, scanned, seen)?;
    seen.saw("blob files");
    seen.saw_if(file.tally().is_some(), "scans known beforehand");
    match scanned {
        Ok(tally) => note_good(file, tally, seen),
        Err(refusal) => note_refused(file, refusal, seen),
    }
    for at in file.positions(rng) {
        let answer = both_entries(file, at)?;
        seen.saw("positions");
        seen.saw_if(file.entry(at).is_some(), "answers known beforehand");
        match answer {
            Ok(entry) => {
                note_found(file, at, entry, seen);
                again(file, at, entry, seen)?;
            }
            Err(refusal) => note_not_found(file, refusal, seen),
        }
    }
    Ok(())
}

/// The product from one entry to the next, up to the first that is refused or the end: each is written again, none is left out,
/// and what they add up to is the scan's answer.
fn walk(file: &BlobFile, scanned: Result<Tally, Refusal>, seen: &mut Sights) -> Checked {
    let (mut at, mut sums, mut refused) = (0, Tally::default(), None);
    for product in product::entries(&file.bytes) {
        alike("what follows a refusal", refused, None)?;
        let product = product.map(same::entry).map_err(same::refusal);
        alike("the next entry", product, entry_at(&file.bytes, at))?;
        match product {
            Ok(entry) => {
                again(file, at, entry, seen)?;
                sums.entries += 1;
                sums.bytes += entry.data.len() as u64;
                at = entry.next;
            }
            Err(refusal) => refused = Some(refusal),
        }
    }
    alike(
        "what the entries add up to",
        refused.map_or(Ok(sums), Err),
        scanned,
    )?;
    if refused.is_none() {
        alike("where the last entry ends", at, file.bytes.len() as u64)?;
        seen.saw("files written again");
    }
    Ok(())
}

/// The product writes an entry that it has read: the same bytes, and none behind them.
fn again(file: &BlobFile, at: u64, entry: Entry, seen: &mut Sights) -> Checked {
    let bytes = &file.bytes[at as usize..entry.next as usize];
    let mut buffer = pattern(bytes.len() + 3);
    let wanted = [bytes, &buffer[bytes.len()..]].concat();
    let size = product::put_entry(entry.digits, entry.data, &mut buffer);
    let size = size.map_err(same::refusal);
    alike(
        "the length of an entry written again",
        size,
        Ok(bytes.len()),
    )?;
    same_bytes("an entry written again", &buffer, &wanted)?;
    seen.saw("entries written again");
    Ok(())
}

fn note_good(file: &BlobFile, tally: Tally, seen: &mut Sights) {
    seen.saw("files good");
    seen.saw(match tally.entries {
        0 => "no byte at all",
        1 => "one entry",
        _ => "several entries",
    });
    let other = file.sort == Sort::OtherLength;
    seen.saw_if(other, "another length that fits");
}

fn note_refused(file: &BlobFile, refusal: Refusal, seen: &mut Sights) {
    seen.saw(&format!("scan refused {}", refusal.number));
    seen.saw(match refusal.position.0 {
        0 => "at the first entry",
        _ => "at a later entry",
    });
    match file.sort {
        Sort::TwoFaults => seen.saw("two faults in an entry"),
        Sort::FaultsInTwo => seen.saw("faults in two entries"),
        Sort::Cut => seen.saw("cut and refused"),
        Sort::Longer => seen.saw("longer and refused"),
        _ => (),
    }
}

fn note_found(file: &BlobFile, at: u64, entry: Entry, seen: &mut Sights) {
    seen.saw("entries found");
    let [lower, upper] = [u8::is_ascii_lowercase, u8::is_ascii_uppercase].map(|of_case| {
        let mut digits = entry.digits.iter();
        digits.any(of_case)
    });
    seen.saw_if(lower && !upper, "of lower case");
    seen.saw_if(upper && !lower, "of upper case");
    seen.saw_if(lower && upper, "of both cases");
    seen.saw_if(entry.data.is_empty(), "no data");
    seen.saw_if(entry.data.len() >= 256, "256 bytes or more");
    let length = file.bytes.len() as u64;
    seen.saw_if(entry.next == length, "up to the end");
    seen.saw_if(length - at == HEAD as u64, "110 bytes left");
    seen.saw_if(!file.starts.contains(&at), "an entry in data");
}

fn note_not_found(file: &BlobFile, refusal: Refusal, seen: &mut Sights) {
    let (number, at) = (refusal.number, refusal.position.0);
    seen.saw(&format!("entry refused {number}"));
    match number {
        24 => note_end(file, at, seen),
        25 => seen.saw_if(!file.starts.contains(&at), "25 inside of an entry"),
        27 => note_digits(file, at, seen),
        29 => note_length(file, at, seen),
        _ => (),
    }
}

fn note_end(file: &BlobFile, at: u64, seen: &mut Sights) {
    let length = file.bytes.len() as u64;
    seen.saw_if(at + 109 == length, "24, 109 bytes left");
    seen.saw_if(at == length, "24 at the end");
    seen.saw_if(at == length + 1, "24 just past the end");
    seen.saw_if(at == u64::MAX, "24 at u64::MAX");
    let wraps = at.checked_add(HEAD as u64).is_none();
    seen.saw_if(wraps, "24, 110 more wrap");
    let low = entry_at(&file.bytes, at & u64::from(u32::MAX));
    seen.saw_if(at > length && low.is_ok(), "24 but for 32 bits");
}

fn note_digits(file: &BlobFile, at: u64, seen: &mut Sights) {
    let digits = &file.bytes[at as usize + 14..at as usize + 78];
    let mut others = digits.iter().filter(|digit| !HEX.contains(digit));
    let beside = others.clone().any(|other| BESIDE.contains(other));
    seen.saw_if(beside, "27 beside the digits");
    let with_bit = others.any(|other| HEX.contains(&(other & 127)));
    seen.saw_if(with_bit, "27, a digit but for 128");
}

fn note_length(file: &BlobFile, at: u64, seen: &mut Sights) {
    let (length, left) = (file.length_at(at), file.left_at(at));
    seen.saw_if(length == left + 1, "29 by one byte");
    seen.saw_if(length.abs_diff(1 << 63) <= 1, "29, about 2^63");
    seen.saw_if(length >= u64::MAX - 110, "29, about 2^64");
    seen.saw_if(length == u64::MAX, "29, u64::MAX");
    let wraps = length.checked_add(at + HEAD as u64).is_none();
    seen.saw_if(wraps, "29, the end wraps");
    let low = length & u64::from(u32::MAX);
    seen.saw_if(low <= left, "29 but for 32 bits");
}
