//! Tests of what crosses to the library as it lies in memory: structs that no call gave out, tables without a row, and what a
//! reader's carry holds.

use crate::ffi::{self, Due, Offer, Place, Reader, Row, Writer};
use crate::Record;
use std::mem::MaybeUninit;

/// A tag, and a shard with it.
type Sample = (&'static [u8], &'static [u8]);

macro_rules! sample {
    ($folder:literal, $name:literal) => {
        (
            include_bytes!(concat!("../../samples/", $folder, "/tag.bin")),
            include_bytes!(concat!("../../samples/", $folder, "/", $name, ".shard")),
        )
    };
}

const EVERYTHING: Sample = sample!("test", "everything");
const DAMAGED: Sample = sample!("test", "damaged");

const SAMPLES: [Sample; 9] = [
    EVERYTHING,
    DAMAGED,
    sample!("test", "empty"),
    sample!("test", "truthful"),
    sample!("test", "morning"),
    sample!("test", "evening"),
    sample!("real", "empty"),
    sample!("real", "everything"),
    sample!("real", "truthful"),
];

/// What is said of a refusal.
const REFUSED: u32 = 2;

/// The number of a state that no call gave out.
const STATE: u32 = 255;

/// Every length of a piece that is tried.
const SIZES: std::ops::Range<usize> = 1..600;

/// Places whose code is unknown, or a refusal with the number 0. The first is all zeros.
fn foreign() -> impl Iterator<Item = Place> {
    let unknown = [0, 8, 12, 255, u32::MAX];
    let codes = unknown.map(|code| [0, 1, 255, u32::MAX].map(|left| (code, left)));
    let codes = codes.into_iter().flatten().chain([(11, 0)]);
    codes.flat_map(|(code, left)| {
        [0, 48, u64::MAX].map(|at| Place {
            at,
            due: Due {
                code,
                left,
                ..Default::default()
            },
            ..Default::default()
        })
    })
}

fn reader_at(place: Place) -> Reader {
    Reader {
        tag: [0; 4],
        place,
        carry: [0; 200],
    }
}

/// So many rows, none written yet.
fn table(rows: usize) -> Vec<MaybeUninit<Row>> {
    vec![ffi::no_row(); rows]
}

/// Rows with which a piece of this length is used up or refused.
fn enough(length: usize) -> usize {
    (length + 200) / 48 + 1
}

/// A reader that was offered these bytes.
fn fed((tag, shard): Sample, length: usize) -> Reader {
    let mut reader = ffi::reader_new(tag);
    ffi::reader_read(&mut reader, &shard[..length], &mut table(enough(length)));
    reader
}

/// Each call of the reader, with any piece and any table, refuses so, takes nothing and leaves the reader where it stands.
fn refuses(mut reader: Reader, number: u32, at: u64) {
    let place = reader.place.at;
    for piece in [&[][..], &[0], EVERYTHING.1, &[0xFF; 47]] {
        let step = ffi::reader_step(&mut reader, piece);
        let (found, told) = (step.found, (step.said, step.number, step.at));
        assert_eq!((step.taken, told), (0, (REFUSED, number, at)));
        assert_eq!((found.hash, found.at, found.kind), ([0; 4], 0, 0));
        for rows in [0, 1, 90] {
            let mut table = table(rows);
            let (read, _) = ffi::reader_read(&mut reader, piece, &mut table);
            let told = (read.said, read.number, read.at);
            assert_eq!((read.taken, read.count), (0, 0));
            assert_eq!(told, (REFUSED, number, at));
        }
        let verdict = ffi::reader_verdict(&reader);
        assert_eq!((verdict.number, verdict.at), (number, at));
        assert_eq!((verdict.length, verdict.footer), (0, 0));
        assert_eq!(reader.place.at, place);
    }
}

#[test]
fn a_reader_of_other_making_is_refused() {
    for place in foreign() {
        let verdict = ffi::reader_verdict(&reader_at(place));
        assert_eq!((verdict.number, verdict.at), (STATE, place.at));
        refuses(reader_at(place), STATE, place.at);
    }
}

#[test]
fn a_writer_of_other_making_is_refused() {
    for place in foreign() {
        let mut writer = Writer { tag: [0; 4], place };
        for kind in 0..10 {
            let mut buffer = [7; 200];
            let offer = Offer {
                kind,
                ..Default::default()
            };
            let verdict = ffi::writer_verdict(&writer);
            assert_eq!((verdict.number, verdict.at), (STATE, place.at));
            let written = ffi::writer_put(&mut writer, offer, &mut buffer);
            let told = (written.wrote, written.number, written.at);
            assert_eq!(told, (0, STATE, place.at));
            assert_eq!((writer.place.at, buffer), (place.at, [7; 200]));
        }
    }
}

#[test]
fn a_refusal_is_repeated() {
    refuses(ffi::reader_new(&[1; 31]), 2, 0);
    refuses(fed(DAMAGED, DAMAGED.1.len()), 10, 144);
    let mut late = fed(EVERYTHING, EVERYTHING.1.len());
    assert_eq!(ffi::reader_verdict(&late).number, 0);
    assert_eq!(ffi::reader_step(&mut late, &[0]).number, 14);
    refuses(late, 14, EVERYTHING.1.len() as u64);
}

#[test]
fn a_table_without_a_row_takes_nothing() {
    for sample in SAMPLES {
        let (tag, shard) = sample;
        let whole = ffi::judge(tag, shard);
        let end = if whole.number == 0 {
            shard.len()
        } else {
            whole.at as usize
        };
        for cut in 0..=end {
            let mut reader = fed(sample, cut);
            for piece in [&shard[cut..], &[]] {
                let before = reader;
                let (read, _) = ffi::reader_read(&mut reader, piece, &mut []);
                assert_eq!((read.taken, read.count), (0, 0));
                assert_eq!((read.said, read.number, read.at), (ffi::FOUND, 0, 0));
                assert_eq!(reader, before);
            }
            let mut table = table(enough(shard.len()));
            ffi::reader_read(&mut reader, &shard[cut..], &mut table);
            assert_eq!(ffi::reader_verdict(&reader), whole);
        }
    }
}

/// What the carry holds after a call: the bytes taken of the record due, and zeros.
fn clean(reader: &Reader, shard: &[u8], taken: usize, said: u32) {
    let Place { at, have, .. } = reader.place;
    let (at, have) = (at as usize, have as usize);
    let (kept, unused) = reader.carry.split_at(have);
    if said != REFUSED {
        assert_eq!(at + have, taken);
    }
    if said != ffi::NOTHING {
        assert_eq!(have, 0);
    }
    assert_eq!(kept, &shard[at..at + have]);
    assert!(unused.iter().all(|&byte| byte == 0));
}

/// A sample by steps, in pieces of one length: the records in it.
fn by_steps((tag, shard): Sample, size: usize) -> Vec<Record> {
    let mut reader = ffi::reader_new(tag);
    let mut records = Vec::new();
    let mut taken = 0;
    for mut piece in shard.chunks(size) {
        while !piece.is_empty() {
            let step = ffi::reader_step(&mut reader, piece);
            taken += step.taken as usize;
            clean(&reader, shard, taken, step.said);
            match step.said {
                ffi::NOTHING => (),
                ffi::FOUND => records.push(step.found.into()),
                _ => return records,
            }
            piece = &piece[step.taken as usize..];
        }
    }
    records
}

/// A sample by tables that are never full, in pieces of one length: the records in it.
fn by_tables((tag, shard): Sample, size: usize) -> Vec<Record> {
    let mut reader = ffi::reader_new(tag);
    let mut records = Vec::new();
    let mut taken = 0;
    for piece in shard.chunks(size) {
        let mut table = table(enough(piece.len()));
        let (read, rows) = ffi::reader_read(&mut reader, piece, &mut table);
        records.extend(rows.iter().map(Record::from));
        taken += read.taken as usize;
        assert_ne!(read.said, ffi::FOUND);
        clean(&reader, shard, taken, read.said);
        if read.said == REFUSED {
            break;
        }
        assert_eq!(read.taken, piece.len() as u64);
    }
    assert_eq!(ffi::reader_verdict(&reader), ffi::judge(tag, shard));
    records
}

#[test]
fn the_carry_is_clean_and_the_table_never_full() {
    for sample in SAMPLES {
        let whole = by_tables(sample, sample.1.len());
        for size in SIZES {
            assert_eq!(by_steps(sample, size), whole);
            assert_eq!(by_tables(sample, size), whole);
        }
    }
}

#[test]
fn a_short_table_is_filled_and_reading_goes_on() {
    for (tag, shard) in SAMPLES {
        for rows in 1..4 {
            let mut reader = ffi::reader_new(tag);
            let (mut taken, mut count) = (0, 0);
            loop {
                let mut table = table(rows);
                let (read, _) = ffi::reader_read(&mut reader, &shard[taken..], &mut table);
                (taken, count) = (taken + read.taken as usize, count + read.count);
                clean(&reader, shard, taken, read.said);
                if read.said != ffi::FOUND {
                    break;
                }
                assert_eq!(read.count, rows as u64);
            }
            assert_eq!(ffi::reader_verdict(&reader), ffi::judge(tag, shard));
            let sample = (tag, shard);
            assert_eq!(count, by_tables(sample, 4096).len() as u64);
        }
    }
}

#[test]
fn a_record_crosses_as_it_came() {
    for (tag, shard) in SAMPLES {
        let mut reader = ffi::reader_new(tag);
        let mut left = shard;
        loop {
            let step = ffi::reader_step(&mut reader, left);
            if step.said != ffi::FOUND {
                break;
            }
            let again = ffi::Record::from(&Record::from(step.found));
            assert_eq!(again, step.found);
            left = &left[step.taken as usize..];
        }
    }
}

#[test]
fn a_refused_offer_leaves_the_writer() {
    let (tag, shard) = EVERYTHING;
    let mut writer = ffi::writer_new(tag);
    for record in by_tables(EVERYTHING, shard.len()) {
        let offer = ffi::offer_of((&record).into());
        let size = if offer.kind == 8 { 200 } else { 48 };
        let none = Offer { kind: 9, ..offer };
        let mut buffer = [7; 200];
        let before = writer;
        for (offer, room, number) in [(offer, 0, 15), (offer, size - 1, 15), (none, size, 16)] {
            let written = ffi::writer_put(&mut writer, offer, &mut buffer[..room]);
            let told = (written.wrote, written.number, written.at);
            assert_eq!(told, (0, number, before.place.at));
            assert_eq!((writer, buffer), (before, [7; 200]));
        }
        let written = ffi::writer_put(&mut writer, offer, &mut buffer);
        assert_eq!((written.wrote, written.number), (size as u64, 0));
        let start = before.place.at as usize;
        assert_eq!(buffer[..size], shard[start..][..size]);
    }
    assert_eq!(ffi::writer_verdict(&writer), ffi::judge(tag, shard));
}
