//! Blob files as one would read, write and count them in Rust. It shares no code with the proved functions but the types handed
//! out.

use melagbosun::blobs::{Entry, Tally};
use melagbosun::{Position, Refusal};

const HEAD: usize = 110;
const DIGITS: usize = 64;
const MAGIC: [u8; 4] = *b"MSHB";
const VERSION: [u8; 2] = 1_u16.to_le_bytes();

fn refusal(number: u32, position: Position) -> Refusal {
    Refusal { number, position }
}

/// Whether all are digits. No digit is asked before the next, so that many are looked at together.
#[inline]
fn are_digits(digits: &[u8; DIGITS]) -> bool {
    digits
        .iter()
        .fold(true, |good, digit| good & digit.is_ascii_hexdigit())
}

/// The first check of a head that fails, or the length of the data.
#[inline]
fn length(head: &[u8; HEAD]) -> Result<u64, u32> {
    let digits = head[14..78].try_into().expect("64 bytes");
    if head[..4] != MAGIC {
        Err(25)
    } else if head[4..6] != VERSION {
        Err(26)
    } else if !are_digits(digits) {
        Err(27)
    } else if head[78..] != [0; 32] {
        Err(28)
    } else {
        let length = head[6..14].try_into().expect("eight bytes");
        Ok(u64::from_le_bytes(length))
    }
}

/// The entry at a position.
#[inline]
pub fn entry_at(buf: &[u8], at: Position) -> Result<Entry<'_>, Refusal> {
    let left = buf.get(at.0 as usize..).unwrap_or_default();
    let (head, rest) = left.split_first_chunk().ok_or_else(|| refusal(24, at))?;
    let length = length(head).map_err(|number| refusal(number, at))?;
    let data = rest.get(..length as usize).ok_or_else(|| refusal(29, at))?;
    Ok(Entry {
        digits: &head[14..78],
        data,
        next: Position(at.0 + HEAD as u64 + length),
    })
}

/// Writes an entry at the start of a buffer, and answers its length.
#[inline]
pub fn put_entry(digits: &[u8], data: &[u8], out: &mut [u8]) -> Result<usize, Refusal> {
    let digits: Option<&[u8; DIGITS]> = digits.try_into().ok();
    let digits = digits.filter(|digits| are_digits(digits));
    let digits = digits.ok_or_else(|| refusal(27, Position(0)))?;
    let size = HEAD + data.len();
    let out = out
        .get_mut(..size)
        .ok_or_else(|| refusal(15, Position(0)))?;
    let (head, rest) = out.split_at_mut(HEAD);
    head[..4].copy_from_slice(&MAGIC);
    head[4..6].copy_from_slice(&VERSION);
    head[6..14].copy_from_slice(&(data.len() as u64).to_le_bytes());
    head[14..78].copy_from_slice(digits);
    head[78..].fill(0);
    rest.copy_from_slice(data);
    Ok(size)
}

/// Counts the entries and sums their data lengths.
pub fn scan(buf: &[u8]) -> Result<Tally, Refusal> {
    let mut tally = Tally::default();
    let mut at = Position(0);
    while at.0 < buf.len() as u64 {
        let entry = entry_at(buf, at)?;
        tally.entries += 1;
        tally.bytes += entry.data.len() as u64;
        at = entry.next;
    }
    Ok(tally)
}
