//! Blob files: entries read at any position, written and read again, counted, and what is refused of them.

use melagbosun::blobs::{entries, entry_at, put_entry, scan, Entry, Tally, HEAD_SIZE};
use melagbosun::{Position, Refusal};

const SMALL: &[u8; 64] = b"0123456789abcdef0123456789abcdef0123456789abcdef0123456789abcdef";
const CAPITAL: &[u8; 64] = b"0123456789ABCDEF0123456789ABCDEF0123456789ABCDEF0123456789ABCDEF";
const BOTH: &[u8; 64] = b"fedcba98FEDCBA98fedcba98FEDCBA98fedcba98FEDCBA98fedcba98FEDCBA98";

/// The entries of the samples.
fn parts() -> [(&'static [u8; 64], Vec<u8>); 3] {
    [
        (SMALL, b"deck 1, forward\n".to_vec()),
        (CAPITAL, Vec::new()),
        (BOTH, (0..=255).collect()),
    ]
}

/// An entry, by the paper.
fn spelled(digits: &[u8; 64], data: &[u8]) -> Vec<u8> {
    let length = (data.len() as u64).to_le_bytes();
    [b"MSHB\x01\x00", &length[..], digits, &[0; 32], data].concat()
}

fn file() -> Vec<u8> {
    let spelled = parts().map(|(digits, data)| spelled(digits, &data));
    spelled.concat()
}

fn refusal(number: u32, at: u64) -> Refusal {
    let position = Position(at);
    Refusal { number, position }
}

/// What the entry of these bytes is refused with.
fn fault(file: &[u8]) -> Option<u32> {
    let answer = entry_at(file, Position(0));
    let refused = answer.err();
    assert!(refused.is_none_or(|refusal| refusal.position == Position(0)));
    refused.map(|refusal| refusal.number)
}

#[test]
fn entries_where_they_stand() {
    let file = file();
    let mut at = 0;
    for (digits, data) in parts() {
        let next = Position(at + 110 + data.len() as u64);
        let (digits, data) = (&digits[..], &data[..]);
        assert_eq!(
            entry_at(&file, Position(at)),
            Ok(Entry { digits, data, next })
        );
        at = next.0;
    }
    assert_eq!(at, file.len() as u64);
}

#[test]
fn the_parts_are_the_buffers_own() {
    let file = file();
    let entry = entry_at(&file, Position(0)).expect("an entry");
    assert!(std::ptr::eq(entry.digits, &file[14..78]));
    assert!(std::ptr::eq(entry.data, &file[110..126]));
}

#[test]
fn any_position() {
    let file = file();
    let length = file.len() as u64;
    for at in 0..length {
        match entry_at(&file, Position(at)) {
            Ok(_) => assert!([0, 126, 236].contains(&at)),
            Err(refused) if length - at < 110 => assert_eq!(refused, refusal(24, at)),
            Err(refused) => assert_eq!(refused, refusal(25, at)),
        }
    }
    let past = [0, 1, 1 << 32, 1 << 63].map(|more| length + more);
    let most = [1, 110, 126, 236].map(|less| u64::MAX - less + 1);
    for at in past.into_iter().chain(most) {
        assert_eq!(entry_at(&file, Position(at)), Err(refusal(24, at)));
    }
}

#[test]
fn an_entry_in_the_data_of_another() {
    let inner = spelled(CAPITAL, b"deck 2");
    let outer = spelled(SMALL, &inner);
    assert_eq!(
        entry_at(&outer, Position(110)).map(|entry| entry.data),
        Ok(&b"deck 2"[..])
    );
    let counts = Tally {
        entries: 1,
        bytes: 116,
    };
    assert_eq!(scan(&outer), Ok(counts));
}

#[test]
fn fewer_than_110_bytes() {
    let file = spelled(SMALL, b"");
    for length in 0..HEAD_SIZE {
        assert_eq!(fault(&file[..length]), Some(24));
        assert_eq!(fault(&vec![0xAA; length]), Some(24));
    }
    assert_eq!(fault(&file), None);
}

/// One bit after the other is turned in each byte of the head.
#[test]
fn each_bit_of_the_head() {
    let good = spelled(SMALL, b"");
    for byte in 0..HEAD_SIZE {
        for bit in 0..8 {
            let mut file = good.clone();
            file[byte] ^= 1 << bit;
            let wanted = match byte {
                0..4 => Some(25),
                4..6 => Some(26),
                6..14 => Some(29),
                14..78 if file[byte].is_ascii_hexdigit() => None,
                14..78 => Some(27),
                _ => Some(28),
            };
            assert_eq!(fault(&file), wanted, "bit {bit} of byte {byte}");
        }
    }
}

#[test]
fn every_digit_and_no_other() {
    for place in [0, 1, 31, 62, 63] {
        for byte in 0..=255 {
            let mut digits = *BOTH;
            digits[place] = byte;
            let file = spelled(&digits, b"x");
            let mut buffer = [0; 111];
            let put = put_entry(&digits, b"x", &mut buffer);
            if byte.is_ascii_hexdigit() {
                let read = entry_at(&file, Position(0)).expect("a digit");
                assert_eq!(read.digits, digits);
                assert_eq!((put, &buffer[..]), (Ok(111), &file[..]));
            } else {
                assert_eq!(fault(&file), Some(27));
                assert_eq!((put, buffer), (Err(refusal(27, 0)), [0; 111]));
            }
        }
    }
}

/// From the last check to the first, one more is made to fail each time.
#[test]
fn the_first_check_that_fails() {
    let mut file = spelled(SMALL, b"deck");
    for (byte, number) in [(6, 29), (109, 28), (77, 27), (5, 26), (3, 25)] {
        file[byte] = 0xFF;
        assert_eq!(fault(&file), Some(number));
    }
    assert_eq!(fault(&file[..109]), Some(24));
}

#[test]
fn lengths_up_to_64_bits() {
    let two = [spelled(SMALL, b""), spelled(BOTH, b"deck")].concat();
    let with = |length: u64| {
        let mut file = two.clone();
        file[110 + 6..][..8].copy_from_slice(&length.to_le_bytes());
        entry_at(&file, Position(110)).map(|entry| entry.next)
    };
    for length in 0..=4 {
        assert_eq!(with(length), Ok(Position(220 + length)));
    }
    let wrapping = [1, 106, 110, 216, 220, 224].map(u64::wrapping_neg);
    let long = [5, 1 << 16, 1 << 32, 1 << 63];
    for length in wrapping.into_iter().chain(long) {
        assert_eq!(with(length), Err(refusal(29, 110)));
    }
}

#[test]
fn written_and_read_again() {
    for (digits, data) in parts() {
        let size = HEAD_SIZE + data.len();
        for more in [0, 1, 200] {
            let mut buffer = vec![0xAA; size + more];
            assert_eq!(put_entry(digits, &data, &mut buffer), Ok(size));
            assert_eq!(buffer[..size], spelled(digits, &data));
            assert_eq!(buffer[size..], vec![0xAA; more]);
            let entry = entry_at(&buffer, Position(0)).expect("an entry");
            assert_eq!((entry.digits, entry.data), (&digits[..], &data[..]));
            assert_eq!(entry.next, Position(size as u64));
        }
    }
}

#[test]
fn read_and_written_again() {
    let file = file();
    let mut again = vec![0xAA; file.len()];
    let mut at = 0;
    for entry in entries(&file) {
        let entry = entry.expect("an entry");
        let wrote = put_entry(entry.digits, entry.data, &mut again[at..]);
        at += wrote.expect("room enough");
        assert_eq!(at as u64, entry.next.0);
    }
    assert_eq!(again, file);
}

#[test]
fn a_refused_writer_changes_no_byte() {
    let long = [b'0'; 65];
    let bad = [b'g'; 64];
    let data = [7; 300];
    for (digits, length, room, number) in [
        (&long[..0], 0, 500, 27),
        (&long[..63], 0, 500, 27),
        (&long[..65], 300, 500, 27),
        (&long[..63], 300, 0, 27),
        (&bad[..], 300, 500, 27),
        (&bad[..], 300, 0, 27),
        (&long[..64], 0, 0, 15),
        (&long[..64], 0, 109, 15),
        (&long[..64], 1, 110, 15),
        (&long[..64], 300, 109, 15),
        (&long[..64], 300, 409, 15),
    ] {
        let mut buffer = vec![0xAA; room];
        let answer = put_entry(digits, &data[..length], &mut buffer);
        assert_eq!(answer, Err(refusal(number, 0)));
        assert_eq!(buffer, vec![0xAA; room]);
    }
}

#[test]
fn all_counted() {
    assert_eq!(scan(&[]), Ok(Tally::default()));
    let file = file();
    let ends = [(0, 0, 0), (126, 1, 16), (236, 2, 16), (602, 3, 272)];
    for (end, entries, bytes) in ends {
        assert_eq!(scan(&file[..end]), Ok(Tally { entries, bytes }));
    }
    for length in 0..=file.len() {
        let cut = &file[..length];
        let before = ends.into_iter().rfind(|(end, ..)| *end <= length);
        let start = before.map_or(0, |(end, ..)| end);
        let left = length - start;
        let number = if left < HEAD_SIZE { 24 } else { 29 };
        let refused = (left > 0).then(|| refusal(number, start as u64));
        assert_eq!(scan(cut).err(), refused);
        let mut walk = entries(cut).skip_while(Result::is_ok);
        assert_eq!(walk.next().and_then(Result::err), refused);
        assert!(walk.next().is_none());
    }
}

#[test]
fn none_after_a_refusal() {
    let mut file = file();
    file[126] = b'm';
    assert_eq!(scan(&file), Err(refusal(25, 126)));
    let mut walk = entries(&file);
    let first = walk.next().expect("one").expect("an entry");
    assert_eq!(first.next, Position(126));
    assert_eq!(walk.next(), Some(Err(refusal(25, 126))));
    assert_eq!([(); 3].map(|()| walk.next()), [None; 3]);
    assert!(entry_at(&file, Position(236)).is_ok());
}

#[test]
fn samples() {
    let scans = include_bytes!("../../samples/test/scans.dat");
    let damaged = include_bytes!("../../samples/test/damaged.dat");
    assert_eq!(scans[..], file());
    assert_eq!(damaged, &scans[..601]);
    let counts = Tally {
        entries: 3,
        bytes: 272,
    };
    assert_eq!(scan(scans), Ok(counts));
    assert_eq!(scan(damaged), Err(refusal(29, 236)));
}
