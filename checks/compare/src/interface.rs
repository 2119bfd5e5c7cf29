//! The C interface as `melagbosun.h` declares it, apart from the Rust crate. Whatever is lent stands between two fences, and after
//! each call they must be whole.

use crate::{alike, Checked};
use checks::reader::{Refusal, Summary, Verdict as Judged};
use std::fmt::Debug;
use std::ptr;

/// The numbers of a row.
pub const ROW: usize = 9;

/// A row of the table: kind, position, offset, the hash, a and b, c and d.
pub type Row = [u64; ROW];

/// `mdb_writer`, and the first part of `mdb_reader`, with the parts of its parts one after the other.
#[repr(C)]
#[derive(Clone, Copy, Debug, PartialEq)]
pub struct State {
    pub tag: [u64; 4],
    pub at: u64,
    pub offset: u64,
    pub totals: [u64; 5],
    pub sum: u64,
    pub total: u64,
    pub code: u32,
    pub left: u32,
    pub flags: u32,
    pub entries: u32,
    pub footer: u32,
    pub have: u32,
}

/// `mdb_reader`.
#[repr(C)]
#[derive(Clone, Copy, Debug, PartialEq)]
pub struct Reader {
    pub state: State,
    pub carry: [u8; 200],
}

/// `mdb_record`.
#[repr(C)]
#[derive(Clone, Copy, Debug, Default, PartialEq)]
pub struct Record {
    pub hash: [u64; 4],
    pub at: u64,
    pub offset: u64,
    pub kind: u32,
    pub a: u32,
    pub b: u32,
    pub c: u32,
    pub d: u32,
}

/// `mdb_offer`.
#[repr(C)]
#[derive(Clone, Copy, Debug, PartialEq)]
pub struct Offer {
    pub hash: [u64; 4],
    pub x: u64,
    pub y: u64,
    pub kind: u32,
    pub a: u32,
    pub b: u32,
    pub c: u32,
    pub d: u32,
}

/// `mdb_step`.
#[repr(C)]
#[derive(Clone, Copy, Debug, PartialEq)]
pub struct Step {
    pub found: Record,
    pub taken: u64,
    pub at: u64,
    pub said: u32,
    pub number: u32,
}

/// `mdb_read`.
#[repr(C)]
#[derive(Clone, Copy, Debug, PartialEq)]
pub struct Read {
    pub taken: u64,
    pub count: u64,
    pub at: u64,
    pub said: u32,
    pub number: u32,
}

/// `mdb_written`.
#[repr(C)]
#[derive(Clone, Copy, Debug, PartialEq)]
pub struct Written {
    pub wrote: u64,
    pub at: u64,
    pub number: u32,
}

/// `mdb_verdict`.
#[repr(C)]
#[derive(Clone, Copy, Debug, PartialEq)]
pub struct Verdict {
    pub length: u64,
    pub totals: [u64; 5],
    pub at: u64,
    pub number: u32,
    pub footer: u32,
}

extern "C" {
    fn mdb_reader_new(tag: *const u8, length: usize) -> Reader;
    fn mdb_reader_step(reader: *mut Reader, piece: *const u8, length: usize) -> Step;
    fn mdb_reader_read(
        reader: *mut Reader,
        piece: *const u8,
        length: usize,
        table: *mut u64,
        numbers: usize,
    ) -> Read;
    fn mdb_reader_verdict(reader: *const Reader) -> Verdict;
    fn mdb_writer_new(tag: *const u8, length: usize) -> State;
    fn mdb_writer_put(writer: *mut State, offer: Offer, buffer: *mut u8, length: usize) -> Written;
    fn mdb_writer_verdict(writer: *const State) -> Verdict;
    fn mdb_offer_of(record: Record) -> Offer;
}

/// So many bytes, or numbers, stand in a fence.
const FENCE: usize = 64;

/// What a fence is made of.
const POST: u8 = 0x5A;

/// A struct that is lent, between two fences.
#[repr(C)]
pub struct Lent<T> {
    before: [u8; FENCE],
    pub state: T,
    after: [u8; FENCE],
}

impl<T: Copy + PartialEq + Debug> Lent<T> {
    pub fn new(state: T) -> Self {
        let [before, after] = [[POST; FENCE]; 2];
        Lent {
            before,
            state,
            after,
        }
    }

    /// The address of the struct. It may be used to look at the fences too, so that the compiler expects them to change.
    fn address(&mut self) -> *mut T {
        let whole = ptr::from_mut(self);
        // SAFETY: the pointer is that of `self`; nothing is read.
        unsafe { &raw mut (*whole).state }
    }

    fn fenced<A>(&self, answer: A) -> Result<A, String> {
        alike("the bytes before the struct", self.before, [POST; FENCE])?;
        alike("the bytes behind the struct", self.after, [POST; FENCE])?;
        Ok(answer)
    }
}

/// A table or a buffer that is lent, between two fences. It and they are of one and the same value.
pub struct Room<T> {
    all: Vec<T>,
    fill: T,
}

impl<T: Copy + PartialEq + Debug> Room<T> {
    pub fn new(length: usize, fill: T) -> Self {
        let all = vec![fill; length + 2 * FENCE];
        Room { all, fill }
    }

    fn length(&self) -> usize {
        self.all.len() - 2 * FENCE
    }

    /// The address of what is lent.
    fn address(&mut self) -> *mut T {
        // SAFETY: the first fence is so long.
        unsafe { self.all.as_mut_ptr().add(FENCE) }
    }

    /// What is lent.
    pub fn inside(&self) -> &[T] {
        &self.all[FENCE..][..self.length()]
    }

    /// An error if more than the first so many of what is lent have changed.
    pub fn changed(&self, count: usize) -> Checked {
        let (before, rest) = self.all.split_at(FENCE);
        let behind = rest.get(count..).unwrap_or_default();
        let strange = |one: &&T| **one != self.fill;
        alike(
            "a change before what is lent",
            before.iter().find(strange),
            None,
        )?;
        alike(
            "a change behind what was told",
            behind.iter().find(strange),
            None,
        )?;
        alike("no more than is lent is told", count <= self.length(), true)
    }
}

impl Lent<Reader> {
    /// A fresh reader.
    pub fn begun(tag: &[u8]) -> Self {
        // SAFETY: the slice outlives the call, which only reads it; the pointer of an empty slice is not null.
        Lent::new(unsafe { mdb_reader_new(tag.as_ptr(), tag.len()) })
    }

    pub fn step(&mut self, piece: &[u8]) -> Result<Step, String> {
        // SAFETY: reader and piece outlive the call and do not overlap; of numbers all are good.
        let step = unsafe { mdb_reader_step(self.address(), piece.as_ptr(), piece.len()) };
        self.fenced(step)
    }

    pub fn read(&mut self, piece: &[u8], table: &mut Room<u64>) -> Result<Read, String> {
        let (address, numbers) = (table.address(), table.length());
        // SAFETY: reader, piece and table outlive the call and do not overlap; of numbers all are good.
        let read = unsafe {
            mdb_reader_read(
                self.address(),
                piece.as_ptr(),
                piece.len(),
                address,
                numbers,
            )
        };
        self.fenced(read)
    }

    /// The verdict, which must change nothing.
    pub fn verdict(&mut self) -> Result<Verdict, String> {
        let before = self.state;
        // SAFETY: the reader outlives the call.
        let verdict = unsafe { mdb_reader_verdict(self.address()) };
        alike("a reader asked for its verdict", self.state, before)?;
        self.fenced(verdict)
    }
}

impl Lent<State> {
    /// A fresh writer.
    pub fn begun(tag: &[u8]) -> Self {
        // SAFETY: the slice outlives the call, which only reads it; the pointer of an empty slice is not null.
        Lent::new(unsafe { mdb_writer_new(tag.as_ptr(), tag.len()) })
    }

    pub fn put(&mut self, offer: Offer, buffer: &mut Room<u8>) -> Result<Written, String> {
        let (address, length) = (buffer.address(), buffer.length());
        // SAFETY: writer and buffer outlive the call and do not overlap; of numbers all are good.
        let written = unsafe { mdb_writer_put(self.address(), offer, address, length) };
        self.fenced(written)
    }

    /// The verdict, which must change nothing.
    pub fn verdict(&mut self) -> Result<Verdict, String> {
        let before = self.state;
        // SAFETY: the writer outlives the call.
        let verdict = unsafe { mdb_writer_verdict(self.address()) };
        alike("a writer asked for its verdict", self.state, before)?;
        self.fenced(verdict)
    }
}

impl Record {
    pub fn from_row(row: &Row) -> Self {
        let &[kind, at, offset, h0, h1, h2, h3, ab, cd] = row;
        let [a, c] = [ab, cd].map(|both| both as u32);
        let [b, d] = [ab, cd].map(|both| (both >> 32) as u32);
        let (hash, kind) = ([h0, h1, h2, h3], kind as u32);
        Record {
            hash,
            at,
            offset,
            kind,
            a,
            b,
            c,
            d,
        }
    }

    /// The offer of this record by the library, which must be what the header says.
    pub fn offer(self) -> Result<Offer, String> {
        let Record {
            hash,
            kind,
            a,
            b,
            c,
            d,
            ..
        } = self;
        let [low, high] =
            [[a, b], [c, d]].map(|[low, high]| u64::from(low) | u64::from(high) << 32);
        let wanted = Offer {
            hash,
            x: if kind == 0 { high } else { low },
            y: high,
            kind,
            a,
            b,
            c,
            d,
        };
        // SAFETY: no memory is lent.
        let offer = unsafe { mdb_offer_of(self) };
        alike("the offer of a record", offer, wanted)?;
        Ok(offer)
    }
}

impl Verdict {
    /// In the words of the independent reader, to which no number above 255 is known.
    pub fn told(&self) -> Result<Judged, String> {
        let [files, segments, xorbs, chunks, bytes] = self.totals;
        let summary = Summary {
            length: self.length,
            files,
            segments,
            xorbs,
            chunks,
            bytes,
            footer: self.footer != 0,
        };
        if self.number == 0 {
            alike("the position of no refusal", self.at, 0)?;
            return Ok(Ok(summary));
        }
        let number = u8::try_from(self.number).map_err(|_| format!("{self:?}"))?;
        alike("the counts of a refused shard", summary, Summary::default())?;
        Ok(Err(Refusal::new(number, self.at)))
    }
}
