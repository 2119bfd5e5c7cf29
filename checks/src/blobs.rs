//! The old blob files, written from the request T-13: entries of 110 bytes, each
//! with its data behind it. One is taken off the front of the bytes that are left.

use crate::reader::{blank, refuse_if, Refusal};

/// The bytes of an entry before its data.
pub const HEAD: usize = 110;

/// The digits of a hash.
pub const DIGITS: usize = 64;

/// How every entry begins.
const MAGIC: [u8; 4] = *b"MSHB";

/// The only version.
const VERSION: u16 = 1;

/// The bytes between the digits and the data.
const RESERVED: [u8; 32] = [0; 32];

/// An entry, as it stands in its file.
#[derive(Clone, Copy, Debug, PartialEq, Eq)]
pub struct Entry<'a> {
    /// The digits of its hash.
    pub digits: &'a [u8],
    /// Its data.
    pub data: &'a [u8],
    /// The position behind them.
    pub next: u64,
}

/// What a scan counts.
#[derive(Clone, Copy, Debug, Default, PartialEq, Eq)]
pub struct Tally {
    /// The entries.
    pub entries: u64,
    /// The sum of their data lengths.
    pub bytes: u64,
}

/// The fields before the data.
struct Head<'a> {
    magic: [u8; 4],
    version: u16,
    length: u64,
    digits: &'a [u8; DIGITS],
    reserved: &'a [u8; RESERVED.len()],
}

/// An entry without a position, and what is left behind it.
struct Taken<'a> {
    digits: &'a [u8],
    data: &'a [u8],
    left: &'a [u8],
}

impl<'a> Head<'a> {
    /// Off the front, unless there are too few bytes; and what is left.
    fn take(bytes: &'a [u8]) -> Option<(Self, &'a [u8])> {
        let (&magic, bytes) = bytes.split_first_chunk()?;
        let (&version, bytes) = bytes.split_first_chunk()?;
        let (&length, bytes) = bytes.split_first_chunk()?;
        let (digits, bytes) = bytes.split_first_chunk()?;
        let (reserved, left) = bytes.split_first_chunk()?;
        let head = Head {
            magic,
            version: u16::from_le_bytes(version),
            length: u64::from_le_bytes(length),
            digits,
            reserved,
        };
        Some((head, left))
    }
}

impl<'a> Taken<'a> {
    /// Off the front, or the number of the first fault.
    fn take(bytes: &'a [u8]) -> Result<Self, u8> {
        let (head, left) = Head::take(bytes).ok_or(24)?;
        refuse_if(head.magic != MAGIC, 25)?;
        refuse_if(head.version != VERSION, 26)?;
        refuse_if(!are_digits(head.digits), 27)?;
        refuse_if(!blank(head.reserved), 28)?;
        let length = usize::try_from(head.length).map_err(|_| 29)?;
        let (data, left) = left.split_at_checked(length).ok_or(29)?;
        let digits = head.digits;
        Ok(Taken { digits, data, left })
    }
}

/// The entry at this position, which may be any.
pub fn entry_at(buf: &[u8], at: u64) -> Result<Entry<'_>, Refusal> {
    let start = usize::try_from(at).ok();
    let there = start.and_then(|start| buf.get(start..)).unwrap_or(&[]);
    let taken = Taken::take(there).map_err(|number| Refusal::new(number, at))?;
    Ok(Entry {
        digits: taken.digits,
        data: taken.data,
        next: (buf.len() - taken.left.len()) as u64,
    })
}

/// Counts the entries of a file and sums their data lengths, unless one of them
/// is refused. The end is no fault.
pub fn scan(buf: &[u8]) -> Result<Tally, Refusal> {
    let mut tally = Tally::default();
    let mut left = buf;
    while !left.is_empty() {
        let at = (buf.len() - left.len()) as u64;
        let taken = Taken::take(left).map_err(|number| Refusal::new(number, at))?;
        tally.entries += 1;
        tally.bytes += taken.data.len() as u64;
        left = taken.left;
    }
    Ok(tally)
}

/// Writes an entry to the start of `out`, and answers its length. No other byte
/// changes, and none at all if it is refused.
pub fn put_entry(digits: &[u8], data: &[u8], out: &mut [u8]) -> Result<usize, Refusal> {
    if digits.len() != DIGITS || !are_digits(digits) {
        return Err(Refusal::new(27, 0));
    }
    let (version, length) = (VERSION.to_le_bytes(), (data.len() as u64).to_le_bytes());
    let entry = [&MAGIC[..], &version, &length, digits, &RESERVED, data].concat();
    let place = out.get_mut(..entry.len()).ok_or(Refusal::new(15, 0))?;
    place.copy_from_slice(&entry);
    Ok(entry.len())
}

/// Whether all are hex digits, of either case.
fn are_digits(characters: &[u8]) -> bool {
    characters.iter().all(u8::is_ascii_hexdigit)
}
