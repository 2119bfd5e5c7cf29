//! The old blob files: an entry read at any position, one written, and all of a file counted.
//!
//! A blob file is entries, each right behind the one before. An entry has 110 bytes and then its data:
//!
//! | bytes | what they are |
//! |---|---|
//! | 0 to 4 | `MSHB` |
//! | 4 to 6 | the version, 1 |
//! | 6 to 14 | the data's length |
//! | 14 to 78 | the 64 hex digits of a hash, of either case |
//! | 78 to 110 | zeros |
//!
//! Digits are kept as they stand: nothing here asks whether the hash is that of the data.

use crate::error::refusal;
use crate::{ffi, Position, Refusal};
use std::iter::FusedIterator;

/// What an entry has before its data, in bytes.
pub const HEAD_SIZE: usize = 110;

/// The digits of a hash.
const DIGITS: usize = 64;

/// An entry of a blob file. Its parts are those of the buffer that was lent.
#[derive(Clone, Copy, Debug, PartialEq, Eq, Hash)]
pub struct Entry<'a> {
    /// The 64 digits of its hash, as they stand.
    pub digits: &'a [u8],
    /// Its data.
    pub data: &'a [u8],
    /// The position behind the data: that of the next entry, or the end.
    pub next: Position,
}

/// How many entries a blob file has, and how many bytes their data are.
#[derive(Clone, Copy, Debug, Default, PartialEq, Eq)]
pub struct Tally {
    /// The entries.
    pub entries: u64,
    /// The sum of their data lengths.
    pub bytes: u64,
}

/// The entry at a position, any position.
///
/// ```
/// use melagbosun::blobs::{entry_at, put_entry};
/// use melagbosun::Position;
///
/// let digits = "00ff00FF".repeat(8);
/// let mut file = [0; 114];
/// assert_eq!(put_entry(digits.as_bytes(), b"scan", &mut file)?, 114);
///
/// let entry = entry_at(&file, Position(0))?;
/// assert_eq!(entry.digits, digits.as_bytes());
/// assert_eq!(entry.data, b"scan");
/// assert_eq!(entry.next, Position(114));
///
/// // There is none behind it.
/// let refusal = entry_at(&file, entry.next).unwrap_err();
/// assert_eq!((refusal.number, refusal.position), (24, Position(114)));
/// # Ok::<(), melagbosun::Refusal>(())
/// ```
///
/// # Errors
///
/// In this order, at the position asked for: 24 if fewer than 110 bytes are left, at the buffer's end and past it too; 25 if they
/// do not begin with `MSHB`; 26 if the version is not 1; 27 if one of the digits is none; 28 if one of the 32 reserved bytes is not
/// 0; 29 if the data end past the buffer's end.
#[inline]
pub fn entry_at(buf: &[u8], at: Position) -> Result<Entry<'_>, Refusal> {
    let answer = ffi::blob_entry_at(buf, at.0);
    match answer.number {
        // It is proved that both parts lie within the buffer, so neither slice can panic.
        0 => Ok(Entry {
            digits: &buf[answer.digits as usize..][..DIGITS],
            data: &buf[answer.data as usize..][..answer.length as usize],
            next: Position(answer.next),
        }),
        number => Err(refusal(number, answer.at)),
    }
}

/// Writes an entry of a hash of these digits and of these data at the start of a lent buffer, and answers its length: 110 bytes
/// and those of the data. No byte behind it changes.
///
/// To add an entry to a file that grows, make room behind the last one, and take it away again where the entry is refused:
///
/// ```
/// use melagbosun::blobs::{put_entry, scan, Tally, HEAD_SIZE};
/// use melagbosun::Refusal;
///
/// fn add(file: &mut Vec<u8>, digits: &[u8], data: &[u8]) -> Result<(), Refusal> {
///     let end = file.len();
///     file.resize(end + HEAD_SIZE + data.len(), 0);
///     put_entry(digits, data, &mut file[end..]).inspect_err(|_| file.truncate(end))?;
///     Ok(())
/// }
///
/// let mut file = Vec::new();
/// add(&mut file, &[b'a'; 64], b"deck 1")?;
/// add(&mut file, &[b'B'; 64], b"deck 2, aft")?;
/// assert_eq!(add(&mut file, &[b'g'; 64], b"deck 3").unwrap_err().number, 27);
/// assert_eq!(scan(&file)?, Tally { entries: 2, bytes: 17 });
/// # Ok::<(), Refusal>(())
/// ```
///
/// # Errors
///
/// 27 if the digits are not 64 hex digits, then 15 if the buffer is shorter than the entry; both at position 0. Then no byte has
/// changed.
#[inline]
pub fn put_entry(digits: &[u8], data: &[u8], out: &mut [u8]) -> Result<usize, Refusal> {
    let answer = ffi::blob_put_entry(digits, data, out);
    match answer.number {
        0 => Ok(answer.wrote as usize),
        number => Err(refusal(number, answer.at)),
    }
}

/// Counts the entries of a blob file, from position 0 on, and sums their data lengths. An empty file has none.
///
/// # Errors
///
/// The first refusal of an entry, as [`entry_at`] says.
pub fn scan(buf: &[u8]) -> Result<Tally, Refusal> {
    let answer = ffi::blob_scan(buf);
    match answer.number {
        0 => Ok(Tally {
            entries: answer.entries,
            bytes: answer.bytes,
        }),
        number => Err(refusal(number, answer.at)),
    }
}

/// The entries of a blob file, one after the other from position 0 on. After a refusal there are no more.
///
/// ```
/// use melagbosun::blobs::{entries, put_entry};
///
/// let mut file = [0; 2 * 110 + 5];
/// let first = put_entry(&[b'a'; 64], b"abc", &mut file)?;
/// put_entry(&[b'A'; 64], b"de", &mut file[first..])?;
///
/// let data = entries(&file).map(|entry| Ok(entry?.data));
/// let data: Vec<&[u8]> = data.collect::<Result<_, melagbosun::Refusal>>()?;
/// assert_eq!(data.concat(), b"abcde");
/// # Ok::<(), melagbosun::Refusal>(())
/// ```
pub fn entries(buf: &[u8]) -> Entries<'_> {
    let at = Position(0);
    Entries { buf, at }
}

/// What [`entries`] gives.
#[derive(Clone, Debug)]
pub struct Entries<'a> {
    buf: &'a [u8],
    at: Position,
}

impl<'a> Iterator for Entries<'a> {
    type Item = Result<Entry<'a>, Refusal>;

    #[inline]
    fn next(&mut self) -> Option<Self::Item> {
        let end = Position(self.buf.len() as u64);
        if self.at == end {
            return None;
        }
        let entry = entry_at(self.buf, self.at);
        self.at = entry.map_or(end, |entry| entry.next);
        Some(entry)
    }
}

impl FusedIterator for Entries<'_> {}
