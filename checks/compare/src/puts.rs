//! Entries of blob files written: both writers into the same buffers, what is known of every answer, and what was written read.

use crate::sights::Sights;
use crate::{alike, hex, same, same_bytes, Checked};
use checks::blobs::{put_entry, DIGITS, HEAD};
use checks::generate::Rng;
use checks::puts::Put;
use checks::reader::Refusal;
use melagbosun::{blobs as product, Position};

/// A part of the count of inputs, and each character in each place of the digits.
pub fn compare(inputs: u64, seed: u64, seen: &mut Sights) -> Checked {
    let mut rng = Rng::new(seed);
    for number in 0..inputs / 10 {
        let put = Put::random(&mut rng, number);
        let what = || format!("entry to be written {number} of seed {seed}");
        let answer = check(&put).map_err(|difference| tell(what(), &put, difference))?;
        note(&put, answer, seen);
    }
    (0..DIGITS).try_for_each(|place| every_character(&mut rng, place, seen))
}

/// Each character in this place.
fn every_character(rng: &mut Rng, place: usize, seen: &mut Sights) -> Checked {
    let mut refused = false;
    for character in 0..=255 {
        let put = Put::with_character(rng, place, character);
        let what = || format!("character {character} in place {place}");
        let answer = check(&put).map_err(|difference| tell(what(), &put, difference))?;
        seen.saw("characters in a place");
        seen.saw_if(answer.is_err(), "characters refused");
        refused |= answer.is_err();
    }
    seen.saw_if(refused, "places of 64 spoilt");
    Ok(())
}

/// A difference, and all that it takes to see it again.
fn tell(what: String, put: &Put, difference: String) -> String {
    let [digits, data, buffer] = [&put.digits, &put.data, &put.buffer].map(|part| hex(part));
    format!("{what}: {difference}\n  digits: {digits}\n  data:   {data}\n  buffer: {buffer}")
}

/// Both writers into the same buffer: the answer, every byte of the buffer, and what is known of both.
fn check(put: &Put) -> Result<Result<usize, Refusal>, String> {
    let Put {
        digits,
        data,
        buffer,
        ..
    } = put;
    let [mut theirs, mut ours] = [buffer.clone(), buffer.clone()];
    let answer = put_entry(digits, data, &mut ours);
    let product = product::put_entry(digits, data, &mut theirs);
    alike("writing an entry", product.map_err(same::refusal), answer)?;
    same_bytes("writing an entry", &theirs, &ours)?;
    alike("what is known of writing", answer, put.answer())?;
    same_bytes("what is known of the buffer", &ours, &put.after())?;
    if let Ok(size) = answer {
        read_again(put, &theirs, size)?;
    }
    Ok(answer)
}

/// The product reads what it wrote.
fn read_again(put: &Put, buffer: &[u8], size: usize) -> Checked {
    let entry = product::entry_at(buffer, Position(0))
        .map_err(|refusal| format!("reading it: {refusal:?}"))?;
    alike("the next position", entry.next.0, size as u64)?;
    same_bytes("the digits read again", entry.digits, &put.digits)?;
    same_bytes("the data read again", entry.data, &put.data)
}

fn note(put: &Put, answer: Result<usize, Refusal>, seen: &mut Sights) {
    seen.saw("entries to be written");
    let (size, room) = (HEAD + put.data.len(), put.buffer.len());
    match answer.map_err(|refusal| refusal.number) {
        Ok(_) => {
            seen.saw("entries written");
            seen.saw_if(put.data.is_empty(), "no data");
            seen.saw(match room - size {
                0 => "exact room",
                _ => "room to spare",
            });
        }
        Err(27) => {
            seen.saw("refused 27");
            note_digits(put.digits.len(), seen);
            seen.saw_if(room < size, "27 without room");
        }
        Err(_) => {
            seen.saw("refused 15");
            seen.saw_if(room + 1 == size, "15 by one byte");
        }
    }
    match room {
        0 => seen.saw("no room"),
        109 => seen.saw("109 bytes of room"),
        110 => seen.saw("110 bytes of room"),
        _ => (),
    }
}

fn note_digits(count: usize, seen: &mut Sights) {
    match count {
        0 => seen.saw("27, no digits"),
        63 => seen.saw("27, 63 digits"),
        64 => seen.saw("27 by a character"),
        65 => seen.saw("27, 65 digits"),
        128 => seen.saw("27, 128 digits"),
        _ => (),
    }
}
