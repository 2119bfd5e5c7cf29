//! The old blob files: examples made by hand, every byte of an entry damaged,
//! each refusal at its position and in its order, and writing and reading as
//! each other's reverse.

use checks::blobfiles::{BlobFile, LARGE_ONES, LONGEST};
use checks::blobs::{entry_at, put_entry, scan, Entry, Tally};
use checks::generate::Rng;
use checks::puts::Put;
use checks::reader::Refusal;

/// All digits of either case, and some again.
const DIGITS: &[u8; 64] = b"0123456789abcdefABCDEF0123456789ABCDEFabcdef00000000ffffffffFFFF";

/// What a byte of the buffer has before.
const BEFORE: u8 = 0xA5;

/// An entry that says it has so many bytes of data, and these behind it.
fn saying(length: u64, data: &[u8]) -> Vec<u8> {
    let mut bytes = b"MSHB\x01\x00".to_vec();
    bytes.extend(length.to_le_bytes());
    bytes.extend(DIGITS);
    bytes.extend([0; 32]);
    bytes.extend(data);
    bytes
}

fn entry(data: &[u8]) -> Vec<u8> {
    saying(data.len() as u64, data)
}

/// The entry there has these data, and those digits.
fn found(file: &[u8], at: u64, data: &[u8], next: u64) {
    let digits = &DIGITS[..];
    let wanted = Entry { digits, data, next };
    assert_eq!(entry_at(file, at), Ok(wanted));
}

fn counted(file: &[u8], entries: u64, bytes: u64) {
    assert_eq!(scan(file), Ok(Tally { entries, bytes }));
}

fn not_there(file: &[u8], number: u8, at: u64) {
    assert_eq!(entry_at(file, at), Err(Refusal::new(number, at)));
}

/// Refused by the scan too.
fn refused(file: &[u8], number: u8, at: u64) {
    not_there(file, number, at);
    assert_eq!(scan(file), Err(Refusal::new(number, at)));
}

/// Writing answers that, and the buffer begins with these bytes; all others
/// are as before.
fn put(digits: &[u8], data: &[u8], room: usize, answer: Result<usize, u8>, written: &[u8]) {
    let mut buffer = vec![BEFORE; room];
    let wanted = answer.map_err(|number| Refusal::new(number, 0));
    assert_eq!(put_entry(digits, data, &mut buffer), wanted);
    let mut after = written.to_vec();
    after.resize(room, BEFORE);
    assert_eq!(buffer, after);
}

/// Nothing is written.
fn not_put(digits: &[u8], data: &[u8], room: usize, number: u8) {
    put(digits, data, room, Err(number), &[]);
}

#[test]
fn one_entry() {
    let mut bytes = b"MSHB\x01\x00\x03\x00\x00\x00\x00\x00\x00\x00".to_vec();
    bytes.extend(b"0123456789abcdefABCDEF0123456789ABCDEFabcdef00000000ffffffffFFFF");
    bytes.extend([0; 32]);
    bytes.extend([7, 0, 255]);
    assert_eq!(bytes.len(), 113);
    found(&bytes, 0, &[7, 0, 255], 113);
    counted(&bytes, 1, 3);
    put(DIGITS, &[7, 0, 255], 113, Ok(113), &bytes);
}

#[test]
fn several_entries() {
    let long = [9; 300];
    let file = [entry(b"one"), entry(b""), entry(&long), entry(b"")].concat();
    found(&file, 0, b"one", 113);
    found(&file, 113, b"", 223);
    found(&file, 223, &long, 633);
    found(&file, 633, b"", 743);
    counted(&file, 4, 303);
    counted(&file[..633], 3, 303);
    counted(&file[..223], 2, 3);
    counted(&file[113..223], 1, 0);
}

/// The end is no fault of a scan, but the reader has no entry there.
#[test]
fn the_end() {
    counted(&[], 0, 0);
    not_there(&[], 24, 0);
    let file = [entry(b"one"), entry(b"")].concat();
    counted(&file, 2, 3);
    for at in [223, 224, 1 << 31, 1 << 32, 1 << 63] {
        not_there(&file, 24, at);
    }
    for less in [0, 1, 109, 110, 111, 223] {
        not_there(&file, 24, u64::MAX - less);
        not_there(&[], 24, u64::MAX - less);
    }
}

/// Whatever they are.
#[test]
fn fewer_than_110_bytes() {
    let file = [entry(b"one"), entry(b"")].concat();
    for length in 114..223 {
        refused(&file[..length], 24, 113);
    }
    for length in 1..110 {
        refused(&file[..length], 24, 0);
        refused(&vec![0; length], 24, 0);
        refused(&[&file[..], &vec![b'M'; length]].concat(), 24, 223);
        not_there(&file, 24, 223 - length as u64);
    }
    refused(&[0; 110], 25, 0);
    refused(&[&file[..], &[b'M'; 110]].concat(), 25, 223);
}

/// What another byte brings at this place of the entry whose length is 3, with
/// 223 bytes behind the head.
fn by_place(place: usize, value: u8) -> Result<usize, u8> {
    match place {
        0..=3 => Err(25),
        4..=5 => Err(26),
        6 if value <= 223 => Ok(value.into()),
        6..=13 => Err(29),
        14..=77 => match value {
            b'0'..=b'9' | b'A'..=b'F' | b'a'..=b'f' => Ok(3),
            _ => Err(27),
        },
        _ => Err(28),
    }
}

/// Each of the 110, with each other value. The file goes on behind the entry.
#[test]
fn every_byte_of_an_entry() {
    let file = [entry(b"before"), entry(b"one"), entry(&[3; 110])].concat();
    for place in 0..110 {
        let at = 116 + place;
        for value in (0..=255).filter(|&value| value != file[at]) {
            let mut other = file.clone();
            other[at] = value;
            found(&other, 0, b"before", 116);
            match by_place(place, value) {
                Err(number) => refused(&other, number, 116),
                Ok(length) => {
                    let (digits, data) = (&other[130..194], &other[226..226 + length]);
                    let next = 226 + length as u64;
                    let wanted = Entry { digits, data, next };
                    assert_eq!(entry_at(&other, 116), Ok(wanted));
                }
            }
        }
    }
}

/// Faults of an entry, in their order: bytes that make them.
const FAULTS: [(u8, usize, u8); 5] = [
    (25, 3, b'b'),
    (26, 5, 1),
    (27, 77, b'g'),
    (28, 109, 1),
    (29, 13, 128),
];

/// Any of the faults together, and the end inside of the entry before all.
#[test]
fn the_order() {
    let good = entry(b"one");
    for chosen in 1..32 {
        let mut faulty = good.clone();
        let faults = (0..5).filter(|fault| chosen >> fault & 1 == 1);
        let faults: Vec<_> = faults.map(|fault| FAULTS[fault]).collect();
        for &(_, place, value) in &faults {
            faulty[place] = value;
        }
        refused(&faulty, faults[0].0, 0);
        refused(&[&good[..], &faulty].concat(), faults[0].0, 113);
        refused(&faulty[..109], 24, 0);
        refused(&[&good[..], &faulty[..109]].concat(), 24, 113);
    }
}

/// The first entry with a fault decides, whatever the faults are.
#[test]
fn the_first_entry_decides() {
    let good = entry(b"one");
    for (first, place, value) in FAULTS {
        let mut faulty = good.clone();
        faulty[place] = value;
        for (second, place, value) in FAULTS {
            let mut later = good.clone();
            later[place] = value;
            let file = [&good[..], &faulty, &later].concat();
            refused(&file, first, 113);
            not_there(&file, second, 226);
            found(&file, 0, b"one", 113);
        }
    }
}

#[test]
fn versions() {
    let good = entry(b"one");
    for version in (0..=u16::MAX).filter(|&version| version != 1) {
        let mut other = good.clone();
        other[4..6].copy_from_slice(&version.to_le_bytes());
        refused(&other, 26, 0);
    }
}

/// All of them up to the end, and none past it, in 64 bits.
#[test]
fn lengths() {
    let behind = [5; 400];
    for length in 0..=400 {
        found(
            &saying(length, &behind),
            0,
            &behind[..length as usize],
            110 + length,
        );
    }
    counted(&saying(400, &behind), 1, 400);
    for length in [
        401,
        402,
        510,
        65_536,
        65_936,
        1 << 24,
        1 << 32,
        400 + (1 << 32),
    ] {
        refused(&saying(length, &behind), 29, 0);
    }
    refused(&saying(1, b""), 29, 0);
    for bit in 9..64 {
        for length in [1 << bit, 400 + (1 << bit), (1 << bit) - 1] {
            refused(&saying(length, &behind), 29, 0);
        }
    }
}

/// The end of the data is not told by a sum that is cut to 64 bits.
#[test]
fn lengths_that_wrap() {
    let before = [entry(b"one"), entry(b"two")].concat();
    for less in 0..700 {
        let file = [&before[..], &saying(u64::MAX - less, b"data")].concat();
        refused(&file, 29, 226);
    }
    let middle = 1 << 63;
    for length in [middle - 1, middle, middle + 1, middle + 4, middle - 336] {
        refused(&[&before[..], &saying(length, b"data")].concat(), 29, 226);
    }
}

/// A file's bytes are read the same wherever they stand.
#[test]
fn any_position() {
    let inner = [entry(b"one"), entry(b"")].concat();
    let file = [entry(b"before"), entry(&inner)].concat();
    found(&file, 116, &inner, 449);
    found(&file, 226, b"one", 339);
    found(&file, 339, b"", 449);
    counted(&file, 2, 229);
    counted(&file[226..], 2, 3);
    let starts = [0, 116, 226, 339];
    for at in (0..=339).filter(|at| !starts.contains(at)) {
        not_there(&file, 25, at);
    }
    for at in 340..449 {
        not_there(&file, 24, at);
    }
    let mut short = file.clone();
    short[116 + 6..][..8].fill(0);
    counted(&short, 4, 9);
}

#[test]
fn written() {
    for length in [0, 1, 2, 109, 110, 255, 256, 65_535, 65_536, 70_000] {
        let data = vec![3; length];
        let bytes = entry(&data);
        for more in [0, 1, 110, 300] {
            let room = 110 + length + more;
            put(DIGITS, &data, room, Ok(110 + length), &bytes);
        }
        for room in [0, 1, 64, 109, 109 + length] {
            not_put(DIGITS, &data, room, 15);
        }
    }
    not_put(DIGITS, b"one", 112, 15);
    not_put(DIGITS, b"one", 110, 15);
}

/// Of no other count, and no other character; whatever the room is.
#[test]
fn the_digits_written() {
    let many = DIGITS.repeat(3);
    for count in (0..=192).filter(|&count| count != 64) {
        for room in [0, 109, 113, 400] {
            not_put(&many[..count], b"one", room, 27);
        }
    }
    for place in 0..64 {
        for value in 0..=255 {
            let mut digits = *DIGITS;
            digits[place] = value;
            let mut bytes = entry(b"one");
            bytes[14 + place] = value;
            match value {
                b'0'..=b'9' | b'A'..=b'F' | b'a'..=b'f' => {
                    put(&digits, b"one", 115, Ok(113), &bytes);
                    not_put(&digits, b"one", 112, 15);
                }
                _ => {
                    not_put(&digits, b"one", 115, 27);
                    not_put(&digits, b"one", 112, 27);
                }
            }
        }
    }
}

/// Every entry that can be read, written again, is the bytes it was read from,
/// and those of a file from end to end are the file.
#[test]
fn read_and_written_again() {
    let mut rng = Rng::new(3);
    let mut files = 0;
    for number in 0..2_000 {
        let file = BlobFile::random(&mut rng, number).bytes;
        let (mut again, mut tally) = (Vec::new(), Tally::default());
        while let Ok(entry) = entry_at(&file, again.len() as u64) {
            let start = again.len();
            again.resize(entry.next as usize, BEFORE);
            let size = put_entry(entry.digits, entry.data, &mut again[start..]);
            assert_eq!(size, Ok(again.len() - start));
            tally.entries += 1;
            tally.bytes += entry.data.len() as u64;
        }
        assert_eq!(again, file[..again.len()]);
        if scan(&file).is_ok() {
            assert_eq!((again, Ok(tally)), (file.clone(), scan(&file)));
            files += 1;
        }
    }
    assert!(files > 400, "{files} good files");
}

/// What is written can be read: the same digits, the same data, and the end.
#[test]
fn written_and_read_again() {
    let mut rng = Rng::new(4);
    let mut written = 0;
    for number in 0..2_000 {
        let Put {
            digits,
            data,
            mut buffer,
            ..
        } = Put::random(&mut rng, number);
        if let Ok(size) = put_entry(&digits, &data, &mut buffer) {
            let (digits, data, next) = (&digits[..], &data[..], size as u64);
            let wanted = Entry { digits, data, next };
            assert_eq!(entry_at(&buffer, 0), Ok(wanted));
            assert_eq!(entry_at(&buffer[..size], 0), Ok(wanted));
            let bytes = data.len() as u64;
            assert_eq!(scan(&buffer[..size]), Ok(Tally { entries: 1, bytes }));
            written += 1;
        }
    }
    assert!(written > 400, "{written} written");
}

/// The same seed draws the same files, and the same entries.
#[test]
fn drawn_again() {
    let [mut rng, mut again] = [Rng::new(1), Rng::new(1)];
    for number in 0..500 {
        let [one, other] = [&mut rng, &mut again].map(|rng| {
            let file = BlobFile::random(rng, number);
            let positions = file.positions(rng);
            format!("{file:?} {positions:?} {:?}", Put::random(rng, number))
        });
        assert_eq!(one, other);
    }
}

/// A drawn file brings what the draw says, wherever it says something, and is
/// not too long.
#[test]
fn drawn_files() {
    let mut rng = Rng::new(2);
    let mut unknown = 0;
    for number in 0..4_000 {
        let file = BlobFile::random(&mut rng, number);
        assert!(file.bytes.len() <= LONGEST);
        match file.tally() {
            Some(known) => assert_eq!(scan(&file.bytes), known),
            None => unknown += 1,
        }
        for at in file.positions(&mut rng) {
            match file.entry(at) {
                Some(known) => assert_eq!(entry_at(&file.bytes, at), known),
                None => unknown += 1,
            }
        }
    }
    assert!(unknown < 4_000, "{unknown} unknown");
}

/// Sums of more than 2^16 and more than 2^24 bytes, and many entries.
#[test]
fn larger_files() {
    let mut rng = Rng::new(7);
    let tallies = (0..LARGE_ONES).map(|number| scan(&BlobFile::large(&mut rng, number).bytes));
    let counts = |tally: Tally| (tally.entries, tally.bytes);
    let counts: Vec<_> = tallies.map(|tally| tally.map(counts)).collect();
    let wanted = [(3, 210_003), (1, 16_777_219), (20_000, 140_000)];
    assert_eq!(counts, wanted.map(Ok));
}

/// Each byte of a drawn entry, with each value.
#[test]
fn drawn_bytes() {
    let mut rng = Rng::new(5);
    let file = BlobFile::even(&mut rng, 3, 7);
    let start = file.starts[1];
    for place in 0..110 {
        for value in (0..=255).filter(|&one| one != file.bytes[start as usize + place]) {
            let other = file.with_byte(start, place, value);
            let known = other.entry(start).expect("an entry that is known");
            assert_eq!(entry_at(&other.bytes, start), known);
        }
    }
}

/// A drawn entry brings what the draw says.
#[test]
fn drawn_puts() {
    let mut rng = Rng::new(6);
    for number in 0..4_000 {
        let put = Put::random(&mut rng, number);
        let mut buffer = put.buffer.clone();
        let answer = put_entry(&put.digits, &put.data, &mut buffer);
        assert_eq!((answer, buffer), (put.answer(), put.after()));
    }
}
