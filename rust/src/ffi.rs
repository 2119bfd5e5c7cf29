//! The C boundary of the archive, as `melagbosun.h` declares it, and a safe function over each call.
#![allow(unsafe_code)]

use crate::FetchRow;
use std::mem::MaybeUninit;
use std::ptr;

#[derive(Clone, Copy, Debug, Default, PartialEq)]
#[repr(C)]
pub struct Totals {
    pub files: u64,
    pub segments: u64,
    pub xorbs: u64,
    pub chunks: u64,
    pub bytes: u64,
}

#[derive(Clone, Copy, Debug, Default, PartialEq)]
#[repr(C)]
pub struct Due {
    pub sum: u64,
    pub total: u64,
    pub code: u32,
    pub left: u32,
}

#[derive(Clone, Copy, Debug, Default, PartialEq)]
#[repr(C)]
pub struct Place {
    pub at: u64,
    pub offset: u64,
    pub totals: Totals,
    pub due: Due,
    pub flags: u32,
    pub entries: u32,
    pub footer: u32,
    pub have: u32,
}

#[derive(Clone, Copy, Debug, PartialEq)]
#[repr(C)]
pub struct Reader {
    pub tag: [u64; 4],
    pub place: Place,
    pub carry: [u8; 200],
}

#[derive(Clone, Copy, Debug, PartialEq)]
#[repr(C)]
pub struct Writer {
    pub tag: [u64; 4],
    pub place: Place,
}

#[derive(Clone, Copy, Debug, PartialEq)]
#[repr(C)]
pub struct Record {
    pub hash: [u64; 4],
    pub at: u64,
    pub offset: u64,
    pub kind: u32,
    pub a: u32,
    pub b: u32,
    pub c: u32,
    pub d: u32,
}

#[derive(Clone, Copy, Debug, PartialEq)]
#[repr(C)]
pub struct Verdict {
    pub length: u64,
    pub totals: Totals,
    pub at: u64,
    pub number: u32,
    pub footer: u32,
}

#[derive(Clone, Copy, Debug)]
#[repr(C)]
pub struct Step {
    pub found: Record,
    pub taken: u64,
    pub at: u64,
    pub said: u32,
    pub number: u32,
}

#[derive(Clone, Copy, Debug)]
#[repr(C)]
pub struct Read {
    pub taken: u64,
    pub count: u64,
    pub at: u64,
    pub said: u32,
    pub number: u32,
}

#[derive(Clone, Copy, Debug, Default)]
#[repr(C)]
pub struct Offer {
    pub hash: [u64; 4],
    pub x: u64,
    pub y: u64,
    pub kind: u32,
    pub a: u32,
    pub b: u32,
    pub c: u32,
    pub d: u32,
}

#[derive(Clone, Copy, Debug)]
#[repr(C)]
pub struct Written {
    pub wrote: u64,
    pub at: u64,
    pub number: u32,
}

#[derive(Clone, Copy, Debug)]
#[repr(C)]
pub struct Hash {
    pub hash: [u64; 4],
}

#[derive(Clone, Copy, Debug)]
#[repr(C)]
pub struct FoundChunk {
    pub at: u64,
    pub said: u32,
    pub number: u32,
    pub block: u32,
    pub index: u32,
}

#[derive(Clone, Copy, Debug)]
#[repr(C)]
pub struct FoundFile {
    pub at: u64,
    pub said: u32,
    pub number: u32,
    pub file: u32,
}

#[derive(Clone, Copy, Debug)]
#[repr(C)]
pub struct Joined {
    pub wrote: u64,
    pub at: u64,
    pub number: u32,
}

#[derive(Clone, Copy, Debug)]
#[repr(C)]
pub struct Planned {
    pub rows: u64,
    pub at: u64,
    pub number: u32,
}

#[derive(Clone, Copy, Debug)]
#[repr(C)]
pub struct Audited {
    pub listed: u64,
    pub unlisted: u64,
    pub at: u64,
    pub number: u32,
}

#[derive(Clone, Copy, Debug)]
#[repr(C)]
pub struct BlobEntry {
    pub digits: u64,
    pub data: u64,
    pub length: u64,
    pub next: u64,
    pub at: u64,
    pub number: u32,
}

#[derive(Clone, Copy, Debug)]
#[repr(C)]
pub struct BlobPut {
    pub wrote: u64,
    pub at: u64,
    pub number: u32,
}

#[derive(Clone, Copy, Debug)]
#[repr(C)]
pub struct BlobScanned {
    pub entries: u64,
    pub bytes: u64,
    pub at: u64,
    pub number: u32,
}

/// What a call of the reader says: nothing yet, a record, a refusal. A search: absent, found, refused.
pub const NOTHING: u32 = 0;
pub const FOUND: u32 = 1;

/// A row of the table that [`reader_read`] fills: kind, at, offset, the hash, a and b, c and d.
pub type Row = [u64; 9];

extern "C" {
    fn mdb_reader_new(tag: *const u8, length: usize) -> Reader;
    fn mdb_reader_step(reader: *mut Reader, piece: *const u8, length: usize) -> Step;
    fn mdb_reader_read(
        reader: *mut Reader,
        piece: *const u8,
        length: usize,
        table: *mut u64,
        numbers: usize,
    ) -> Read;
    fn mdb_reader_verdict(reader: *const Reader) -> Verdict;
    fn mdb_writer_new(tag: *const u8, length: usize) -> Writer;
    fn mdb_writer_put(writer: *mut Writer, offer: Offer, buffer: *mut u8, length: usize)
        -> Written;
    fn mdb_writer_verdict(writer: *const Writer) -> Verdict;
    fn mdb_offer_of(record: Record) -> Offer;
    fn mdb_judge(tag: *const u8, tag_length: usize, shard: *const u8, length: usize) -> Verdict;
    fn mdb_find_chunk(
        tag: *const u8,
        tag_length: usize,
        shard: *const u8,
        length: usize,
        hash: Hash,
    ) -> FoundChunk;
    fn mdb_find_file(
        tag: *const u8,
        tag_length: usize,
        shard: *const u8,
        length: usize,
        hash: Hash,
    ) -> FoundFile;
    fn mdb_join(
        tag: *const u8,
        tag_length: usize,
        first: *const u8,
        first_length: usize,
        second: *const u8,
        second_length: usize,
        out: *mut u8,
        out_length: usize,
    ) -> Joined;
    fn mdb_plan(
        tag: *const u8,
        tag_length: usize,
        shard: *const u8,
        length: usize,
        file: u32,
        a: u64,
        b: u64,
        table: *mut FetchRow,
        table_length: usize,
    ) -> Planned;
    fn mdb_audit(tag: *const u8, tag_length: usize, shard: *const u8, length: usize) -> Audited;
    fn mdb_blob_entry_at(buffer: *const u8, length: usize, at: u64) -> BlobEntry;
    fn mdb_blob_put_entry(
        digits: *const u8,
        digits_length: usize,
        data: *const u8,
        data_length: usize,
        out: *mut u8,
        out_length: usize,
    ) -> BlobPut;
    fn mdb_blob_scan(buffer: *const u8, length: usize) -> BlobScanned;
}

pub fn reader_new(tag: &[u8]) -> Reader {
    // SAFETY: the slice outlives the call, which only reads it; the pointer of an empty slice is not null.
    unsafe { mdb_reader_new(tag.as_ptr(), tag.len()) }
}

#[inline]
pub fn reader_step(reader: &mut Reader, piece: &[u8]) -> Step {
    // SAFETY: reader and piece outlive the call, which writes within the first and only reads the second; being `&mut`, the
    // first overlaps nothing. The pointer of an empty slice is not null. The struct holds numbers alone, of which all are good.
    unsafe { mdb_reader_step(reader, piece.as_ptr(), piece.len()) }
}

#[inline]
pub fn reader_read<'a>(
    reader: &mut Reader,
    piece: &[u8],
    table: &'a mut [MaybeUninit<Row>],
) -> (Read, &'a [Row]) {
    // SAFETY: reader, piece and table outlive the call, which writes within the reader, reads the piece, and writes whole numbers
    // within the table, of which it reads none; being `&mut`, reader and table overlap nothing. The pointer of an empty slice
    // is not null. The struct holds numbers alone, of which all are good.
    let read = unsafe {
        mdb_reader_read(
            reader,
            piece.as_ptr(),
            piece.len(),
            table.as_mut_ptr().cast(),
            size_of::<Row>() / size_of::<u64>() * table.len(),
        )
    };
    let filled = &table[..read.count as usize];
    // SAFETY: the call has written the rows that it counts; a row that it may have written is as long as one that it has.
    (read, unsafe { &*(ptr::from_ref(filled) as *const [Row]) })
}

/// A row that is not written yet.
pub const fn no_row() -> MaybeUninit<Row> {
    MaybeUninit::uninit()
}

pub fn reader_verdict(reader: &Reader) -> Verdict {
    // SAFETY: the reader outlives the call, which only reads it.
    unsafe { mdb_reader_verdict(reader) }
}

pub fn writer_new(tag: &[u8]) -> Writer {
    // SAFETY: the slice outlives the call, which only reads it; the pointer of an empty slice is not null.
    unsafe { mdb_writer_new(tag.as_ptr(), tag.len()) }
}

#[inline]
pub fn writer_put(writer: &mut Writer, offer: Offer, buffer: &mut [u8]) -> Written {
    // SAFETY: writer and buffer outlive the call, which writes within them and nowhere else; being `&mut`, they do not overlap.
    // The pointer of an empty slice is not null. The struct holds numbers alone, of which all are good.
    unsafe { mdb_writer_put(writer, offer, buffer.as_mut_ptr(), buffer.len()) }
}

pub fn writer_verdict(writer: &Writer) -> Verdict {
    // SAFETY: the writer outlives the call, which only reads it.
    unsafe { mdb_writer_verdict(writer) }
}

pub fn offer_of(record: Record) -> Offer {
    // SAFETY: no memory is lent; the record goes by value, and every record gets an answer.
    unsafe { mdb_offer_of(record) }
}

pub fn judge(tag: &[u8], shard: &[u8]) -> Verdict {
    // SAFETY: both slices outlive the call, which only reads them; the pointer of an empty slice is not null.
    unsafe { mdb_judge(tag.as_ptr(), tag.len(), shard.as_ptr(), shard.len()) }
}

pub fn find_chunk(tag: &[u8], shard: &[u8], hash: Hash) -> FoundChunk {
    // SAFETY: both slices outlive the call, which only reads them; the pointer of an empty slice is not null.
    unsafe { mdb_find_chunk(tag.as_ptr(), tag.len(), shard.as_ptr(), shard.len(), hash) }
}

pub fn find_file(tag: &[u8], shard: &[u8], hash: Hash) -> FoundFile {
    // SAFETY: both slices outlive the call, which only reads them; the pointer of an empty slice is not null.
    unsafe { mdb_find_file(tag.as_ptr(), tag.len(), shard.as_ptr(), shard.len(), hash) }
}

pub fn join(tag: &[u8], first: &[u8], second: &[u8], out: &mut [u8]) -> Joined {
    // SAFETY: all four slices outlive the call, which only reads the first three and writes within the last; being `&mut`, that
    // overlaps none of them. The pointer of an empty slice is not null.
    unsafe {
        mdb_join(
            tag.as_ptr(),
            tag.len(),
            first.as_ptr(),
            first.len(),
            second.as_ptr(),
            second.len(),
            out.as_mut_ptr(),
            out.len(),
        )
    }
}

pub fn plan(
    tag: &[u8],
    shard: &[u8],
    file: u32,
    a: u64,
    b: u64,
    table: &mut [FetchRow],
) -> Planned {
    // SAFETY: all three slices outlive the call, which only reads the first two and writes whole rows within the last; being
    // `&mut`, that overlaps none of them. The pointer of an empty slice is not null.
    unsafe {
        mdb_plan(
            tag.as_ptr(),
            tag.len(),
            shard.as_ptr(),
            shard.len(),
            file,
            a,
            b,
            table.as_mut_ptr(),
            table.len(),
        )
    }
}

pub fn audit(tag: &[u8], shard: &[u8]) -> Audited {
    // SAFETY: both slices outlive the call, which only reads them; the pointer of an empty slice is not null.
    unsafe { mdb_audit(tag.as_ptr(), tag.len(), shard.as_ptr(), shard.len()) }
}

#[inline]
pub fn blob_entry_at(buffer: &[u8], at: u64) -> BlobEntry {
    // SAFETY: the slice outlives the call, which only reads it; the pointer of an empty slice is not null.
    unsafe { mdb_blob_entry_at(buffer.as_ptr(), buffer.len(), at) }
}

#[inline]
pub fn blob_put_entry(digits: &[u8], data: &[u8], out: &mut [u8]) -> BlobPut {
    // SAFETY: all three slices outlive the call, which only reads the first two and writes within the last; being `&mut`, that
    // overlaps neither of them. The pointer of an empty slice is not null.
    unsafe {
        mdb_blob_put_entry(
            digits.as_ptr(),
            digits.len(),
            data.as_ptr(),
            data.len(),
            out.as_mut_ptr(),
            out.len(),
        )
    }
}

pub fn blob_scan(buffer: &[u8]) -> BlobScanned {
    // SAFETY: the slice outlives the call, which only reads it; the pointer of an empty slice is not null.
    unsafe { mdb_blob_scan(buffer.as_ptr(), buffer.len()) }
}

/// The sizes that the C declarations have.
const _: () = {
    assert!(size_of::<Totals>() == 40);
    assert!(size_of::<Due>() == 24);
    assert!(size_of::<Place>() == 96);
    assert!(size_of::<Reader>() == 328);
    assert!(size_of::<Writer>() == 128);
    assert!(size_of::<Record>() == 72);
    assert!(size_of::<Verdict>() == 64);
    assert!(size_of::<Step>() == 96);
    assert!(size_of::<Read>() == 32);
    assert!(size_of::<Offer>() == 72);
    assert!(size_of::<Written>() == 24);
    assert!(size_of::<Hash>() == 32);
    assert!(size_of::<FoundChunk>() == 24);
    assert!(size_of::<FoundFile>() == 24);
    assert!(size_of::<Joined>() == 24);
    assert!(size_of::<FetchRow>() == 48);
    assert!(size_of::<Planned>() == 24);
    assert!(size_of::<Audited>() == 32);
    assert!(size_of::<BlobEntry>() == 48);
    assert!(size_of::<BlobPut>() == 24);
    assert!(size_of::<BlobScanned>() == 32);
};
