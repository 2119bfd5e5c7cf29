//! The reading side of the paper: a state machine fed in pieces, judging a
//! whole shard, and finding a chunk or a file by hash.

/// The largest shard, in bytes.
pub const LIMIT: u64 = 16_777_216;
/// The size of every record but the footer.
pub const ENTRY_SIZE: usize = 48;
/// The size of the footer.
pub const FOOTER_SIZE: usize = 200;
/// The length a tag must have.
pub const TAG_SIZE: usize = 32;
/// Flag bit 31 of a file head: verifications follow the segments.
pub const WITH_VERIFICATION: u32 = 1 << 31;
/// Flag bit 30 of a file head: one metadata record ends the block.
pub const WITH_METADATA: u32 = 1 << 30;

/// A hash as stored: four little-endian 64-bit numbers.
pub type Hash = [u64; 4];

/// The hash that marks a bookend where a head is expected.
pub const ALL_ONES: Hash = [u64::MAX; 4];

/// A byte position in the shard.
#[derive(Clone, Copy, Debug, PartialEq, Eq, PartialOrd, Ord)]
pub struct Position(pub u64);

/// The number of a file, from 0.
#[derive(Clone, Copy, Debug, PartialEq, Eq, PartialOrd, Ord)]
pub struct FileNumber(pub u64);

/// The index of a chunk within its xorb, from 0.
#[derive(Clone, Copy, Debug, PartialEq, Eq, PartialOrd, Ord)]
pub struct ChunkIndex(pub u64);

/// The kinds of record, one for each row of the paper's table.
#[derive(Clone, Copy, Debug, PartialEq, Eq, PartialOrd, Ord)]
pub enum Kind {
    /// The first record.
    Header,
    /// The start of a file block.
    FileHead,
    /// A stretch of chunks of one xorb.
    Segment,
    /// The verification hash of a segment.
    Verification,
    /// The SHA-256 value of a file.
    Metadata,
    /// The start of a xorb block.
    XorbHead,
    /// A chunk of a xorb.
    Chunk,
    /// The end of a section.
    Bookend,
    /// The last record, if there is one.
    Footer,
}

impl Kind {
    /// All nine kinds in the order of the table.
    pub const ALL: [Kind; 9] = [
        Kind::Header,
        Kind::FileHead,
        Kind::Segment,
        Kind::Verification,
        Kind::Metadata,
        Kind::XorbHead,
        Kind::Chunk,
        Kind::Bookend,
        Kind::Footer,
    ];

    /// The size of a record of this kind.
    pub const fn size(self) -> usize {
        match self {
            Kind::Footer => FOOTER_SIZE,
            _ => ENTRY_SIZE,
        }
    }
}

/// The fields of a good record; reserved bytes are left out, being zero.
#[derive(Clone, Copy, Debug, PartialEq, Eq)]
pub enum Fields {
    /// The header; its footer size is 0 or 200.
    Header {
        /// The tag, equal to the reader's.
        tag: [u8; 32],
        /// The version, 2.
        version: u64,
        /// The footer size.
        footer_size: u64,
    },
    /// A file head.
    FileHead {
        /// The file hash.
        hash: Hash,
        /// The flags; only bits 31 and 30 may be set.
        flags: u32,
        /// The count of segments.
        entries: u32,
    },
    /// A segment.
    Segment {
        /// The xorb hash.
        hash: Hash,
        /// The unpacked bytes.
        bytes: u32,
        /// The first chunk.
        start: ChunkIndex,
        /// The chunk after the last.
        end: ChunkIndex,
    },
    /// A verification.
    Verification {
        /// The hash.
        hash: Hash,
    },
    /// A metadata record.
    Metadata {
        /// The SHA-256 value.
        hash: Hash,
    },
    /// A xorb head.
    XorbHead {
        /// The xorb hash.
        hash: Hash,
        /// The count of chunks.
        entries: u32,
        /// The bytes in the xorb.
        bytes: u32,
        /// The bytes on disk.
        on_disk: u32,
    },
    /// A chunk.
    Chunk {
        /// The chunk hash.
        hash: Hash,
        /// The byte where it starts in its xorb.
        start: u32,
        /// The unpacked bytes.
        bytes: u32,
    },
    /// A bookend.
    Bookend,
    /// The footer.
    Footer {
        /// The version, 1.
        version: u64,
        /// Where the files start.
        file_offset: Position,
        /// Where the xorbs start.
        xorb_offset: Position,
        /// The key.
        key: Hash,
        /// The time of creation.
        created: u64,
        /// The time of expiry.
        expiry: u64,
        /// Where the footer starts.
        footer_offset: Position,
    },
}

impl Fields {
    /// The kind of record these fields belong to.
    pub fn kind(&self) -> Kind {
        match self {
            Fields::Header { .. } => Kind::Header,
            Fields::FileHead { .. } => Kind::FileHead,
            Fields::Segment { .. } => Kind::Segment,
            Fields::Verification { .. } => Kind::Verification,
            Fields::Metadata { .. } => Kind::Metadata,
            Fields::XorbHead { .. } => Kind::XorbHead,
            Fields::Chunk { .. } => Kind::Chunk,
            Fields::Bookend => Kind::Bookend,
            Fields::Footer { .. } => Kind::Footer,
        }
    }
}

/// One good record.
#[derive(Clone, Copy, Debug, PartialEq, Eq)]
pub struct Record {
    /// Its kind.
    pub kind: Kind,
    /// Where it starts.
    pub position: Position,
    /// Its fields.
    pub fields: Fields,
}

/// A refusal: the paper's number and the position it carries.
#[derive(Clone, Copy, Debug, PartialEq, Eq)]
pub struct Refusal {
    /// The number; a reader's is 1 to 14.
    pub number: u8,
    /// The position.
    pub position: Position,
}

impl Refusal {
    /// The refusal of this number at this byte.
    pub const fn new(number: u8, position: u64) -> Self {
        let position = Position(position);
        Refusal { number, position }
    }
}

/// What judging an accepted shard answers.
#[derive(Clone, Copy, Debug, Default, PartialEq, Eq)]
pub struct Summary {
    /// The length in bytes.
    pub length: u64,
    /// The count of files.
    pub files: u64,
    /// The count of segments.
    pub segments: u64,
    /// The count of xorbs.
    pub xorbs: u64,
    /// The count of chunks.
    pub chunks: u64,
    /// The sum of all segments' unpacked bytes.
    pub bytes: u64,
    /// Whether there is a footer.
    pub footer: bool,
}

/// A verdict: done with the totals, or a refusal.
pub type Verdict = Result<Summary, Refusal>;

/// The answer of one call of [`Reader::feed`].
#[derive(Clone, Copy, Debug, PartialEq, Eq)]
pub enum Answer {
    /// No record was completed.
    Nothing,
    /// One good record was completed.
    Record(Record),
    /// The reader has refused, now or before.
    Refused(Refusal),
}

/// How many bytes a call took and what it answers.
#[derive(Clone, Copy, Debug, PartialEq, Eq)]
pub struct Fed {
    /// The bytes taken from the start of the piece.
    pub taken: usize,
    /// The answer.
    pub answer: Answer,
}

/// What the reader waits for.
#[derive(Clone, Copy, Debug, PartialEq, Eq)]
enum Due {
    Header,
    FileHead,
    Segment,
    Verification,
    Metadata,
    XorbHead,
    Chunk,
    Footer,
    Nothing,
}

impl Due {
    fn size(self) -> usize {
        match self {
            Due::Nothing => 0,
            Due::Footer => FOOTER_SIZE,
            _ => ENTRY_SIZE,
        }
    }
}

/// What is left of the file block being read.
#[derive(Clone, Copy, Debug, Default)]
struct FileLeft {
    segments: u64,
    verifications: u64,
    metadata: bool,
}

/// What is left of the xorb block being read, and its sum so far.
#[derive(Clone, Copy, Debug, Default)]
struct XorbLeft {
    chunks: u64,
    sum: u64,
    bytes: u64,
}

/// A reader of one shard, fed in pieces.
#[derive(Clone, Debug)]
pub struct Reader {
    tag: [u8; TAG_SIZE],
    refusal: Option<Refusal>,
    due: Due,
    at: u64,
    carry: [u8; FOOTER_SIZE],
    held: usize,
    footer_size: u64,
    xorb_offset: u64,
    verified: Option<bool>,
    file: FileLeft,
    xorb: XorbLeft,
    totals: Summary,
}

impl Reader {
    /// A fresh reader; with a tag that is not 32 bytes it has refused with 2.
    pub fn new(tag: &[u8]) -> Self {
        let wanted = <[u8; TAG_SIZE]>::try_from(tag);
        Reader {
            tag: wanted.unwrap_or_default(),
            refusal: wanted.err().map(|_| Refusal::new(2, 0)),
            due: Due::Header,
            at: 0,
            carry: [0; FOOTER_SIZE],
            held: 0,
            footer_size: 0,
            xorb_offset: 0,
            verified: None,
            file: FileLeft::default(),
            xorb: XorbLeft::default(),
            totals: Summary::default(),
        }
    }

    /// Takes bytes from the start of the piece, at most up to the end of the
    /// record due, and answers that record once it is complete.
    pub fn feed(&mut self, piece: &[u8]) -> Fed {
        if let Some(refusal) = self.refusal {
            return fed(0, Answer::Refused(refusal));
        }
        if piece.is_empty() {
            return fed(0, Answer::Nothing);
        }
        if self.due == Due::Nothing {
            return fed(0, self.refuse(14));
        }
        let missing = self.due.size() - self.held;
        let part = &piece[..missing.min(piece.len())];
        fed(part.len(), self.take(part))
    }

    /// The refusal if there was one, the totals after the end, else 1 at the
    /// record due. Changes nothing.
    pub fn verdict(&self) -> Verdict {
        match (self.refusal, self.due) {
            (Some(refusal), _) => Err(refusal),
            (None, Due::Nothing) => Ok(self.totals),
            (None, _) => Err(Refusal::new(1, self.at)),
        }
    }

    /// Takes a part no longer than what is missing.
    fn take(&mut self, part: &[u8]) -> Answer {
        if part.len() == self.due.size() {
            return self.complete(part);
        }
        let end = self.held + part.len();
        self.carry[self.held..end].copy_from_slice(part);
        self.held = end;
        if end < self.due.size() {
            return Answer::Nothing;
        }
        let carried = std::mem::replace(&mut self.carry, [0; FOOTER_SIZE]);
        self.held = 0;
        self.complete(&carried[..end])
    }

    /// Judges a complete record and moves past it if it is good.
    fn complete(&mut self, bytes: &[u8]) -> Answer {
        match self.examine(bytes) {
            Err(number) => self.refuse(number),
            Ok(fields) => {
                let position = Position(self.at);
                self.at += bytes.len() as u64;
                self.advance(fields);
                Answer::Record(Record {
                    kind: fields.kind(),
                    position,
                    fields,
                })
            }
        }
    }

    fn refuse(&mut self, number: u8) -> Answer {
        let refusal = Refusal::new(number, self.at);
        self.refusal = Some(refusal);
        Answer::Refused(refusal)
    }

    /// The fields of the record due, or the number of its first fault.
    fn examine(&self, bytes: &[u8]) -> Result<Fields, u8> {
        match self.due {
            Due::Header => self.examine_header(bytes),
            Due::FileHead => self.examine_file_head(bytes),
            Due::Segment => examine_segment(bytes),
            Due::Verification => examine_plain(bytes).map(|hash| Fields::Verification { hash }),
            Due::Metadata => examine_plain(bytes).map(|hash| Fields::Metadata { hash }),
            Due::XorbHead => self.examine_xorb_head(bytes),
            Due::Chunk => self.examine_chunk(bytes),
            Due::Footer => self.examine_footer(bytes),
            Due::Nothing => unreachable!("nothing is due after the end"),
        }
    }

    fn examine_header(&self, bytes: &[u8]) -> Result<Fields, u8> {
        let version = u64_at(bytes, 32);
        let footer_size = u64_at(bytes, 40);
        refuse_if(bytes[..TAG_SIZE] != self.tag, 3)?;
        refuse_if(version != 2, 4)?;
        refuse_if(footer_size != 0 && footer_size != FOOTER_SIZE as u64, 5)?;
        Ok(Fields::Header {
            tag: self.tag,
            version,
            footer_size,
        })
    }

    fn examine_file_head(&self, bytes: &[u8]) -> Result<Fields, u8> {
        let hash = hash_at(bytes, 0);
        if hash == ALL_ONES {
            return examine_bookend(bytes);
        }
        let flags = u32_at(bytes, 32);
        let entries = u32_at(bytes, 36);
        let unnamed = flags & !(WITH_VERIFICATION | WITH_METADATA);
        refuse_if(unnamed != 0 || !blank(&bytes[40..48]), 7)?;
        let verified = flags & WITH_VERIFICATION != 0;
        refuse_if(self.verified.is_some_and(|first| first != verified), 9)?;
        refuse_if(!self.fits(further(flags, entries), 96), 6)?;
        Ok(Fields::FileHead {
            hash,
            flags,
            entries,
        })
    }

    fn examine_xorb_head(&self, bytes: &[u8]) -> Result<Fields, u8> {
        let hash = hash_at(bytes, 0);
        if hash == ALL_ONES {
            return examine_bookend(bytes);
        }
        let entries = u32_at(bytes, 36);
        let total = u32_at(bytes, 40);
        refuse_if(u32_at(bytes, 32) != 0, 7)?;
        refuse_if(!self.fits(u64::from(entries), 48), 6)?;
        refuse_if(entries == 0 && total != 0, 11)?;
        Ok(Fields::XorbHead {
            hash,
            entries,
            bytes: total,
            on_disk: u32_at(bytes, 44),
        })
    }

    fn examine_chunk(&self, bytes: &[u8]) -> Result<Fields, u8> {
        let start = u32_at(bytes, 32);
        let length = u32_at(bytes, 36);
        let sum = self.xorb.sum + u64::from(length);
        let last = self.xorb.chunks == 1;
        refuse_if(!blank(&bytes[40..48]), 7)?;
        refuse_if(u64::from(start) != self.xorb.sum, 11)?;
        refuse_if(sum > self.xorb.bytes, 11)?;
        refuse_if(last && sum != self.xorb.bytes, 11)?;
        Ok(Fields::Chunk {
            hash: hash_at(bytes, 0),
            start,
            bytes: length,
        })
    }

    fn examine_footer(&self, bytes: &[u8]) -> Result<Fields, u8> {
        let version = u64_at(bytes, 0);
        let offsets = [u64_at(bytes, 8), u64_at(bytes, 16), u64_at(bytes, 192)];
        refuse_if(version != 1, 12)?;
        refuse_if(offsets != [48, self.xorb_offset, self.at], 13)?;
        refuse_if(!blank(&bytes[24..72]) || !blank(&bytes[120..192]), 7)?;
        Ok(Fields::Footer {
            version,
            file_offset: Position(offsets[0]),
            xorb_offset: Position(offsets[1]),
            key: hash_at(bytes, 72),
            created: u64_at(bytes, 104),
            expiry: u64_at(bytes, 112),
            footer_offset: Position(offsets[2]),
        })
    }

    /// Whether a head at the record due may declare so many further records,
    /// given the bookends still to come.
    fn fits(&self, further: u64, bookends: u64) -> bool {
        let entry = ENTRY_SIZE as u64;
        self.at + entry + entry * further + bookends + self.footer_size <= LIMIT
    }

    /// Moves past a good record; `at` already stands after it.
    fn advance(&mut self, fields: Fields) {
        match fields {
            Fields::Header { footer_size, .. } => {
                self.footer_size = footer_size;
                self.due = Due::FileHead;
            }
            Fields::FileHead { flags, entries, .. } => self.open_file(flags, entries),
            Fields::Segment { bytes, .. } => {
                self.totals.segments += 1;
                self.totals.bytes += u64::from(bytes);
                self.file.segments -= 1;
                self.due = self.due_in_file();
            }
            Fields::Verification { .. } => {
                self.file.verifications -= 1;
                self.due = self.due_in_file();
            }
            Fields::Metadata { .. } => {
                self.file.metadata = false;
                self.due = self.due_in_file();
            }
            Fields::XorbHead { entries, bytes, .. } => self.open_xorb(entries, bytes),
            Fields::Chunk { bytes, .. } => {
                self.totals.chunks += 1;
                self.xorb.chunks -= 1;
                self.xorb.sum += u64::from(bytes);
                self.due = self.due_in_xorb();
            }
            Fields::Bookend => self.close_section(),
            Fields::Footer { .. } => self.end(),
        }
    }

    fn open_file(&mut self, flags: u32, entries: u32) {
        let verified = flags & WITH_VERIFICATION != 0;
        self.totals.files += 1;
        self.verified = Some(verified);
        self.file = FileLeft {
            segments: u64::from(entries),
            verifications: if verified { u64::from(entries) } else { 0 },
            metadata: flags & WITH_METADATA != 0,
        };
        self.due = self.due_in_file();
    }

    fn open_xorb(&mut self, entries: u32, bytes: u32) {
        self.totals.xorbs += 1;
        self.xorb = XorbLeft {
            chunks: u64::from(entries),
            sum: 0,
            bytes: u64::from(bytes),
        };
        self.due = self.due_in_xorb();
    }

    fn due_in_file(&self) -> Due {
        match self.file {
            FileLeft { segments: 1.., .. } => Due::Segment,
            FileLeft {
                verifications: 1.., ..
            } => Due::Verification,
            FileLeft { metadata: true, .. } => Due::Metadata,
            _ => Due::FileHead,
        }
    }

    fn due_in_xorb(&self) -> Due {
        match self.xorb.chunks {
            0 => Due::XorbHead,
            _ => Due::Chunk,
        }
    }

    fn close_section(&mut self) {
        if self.due == Due::FileHead {
            self.xorb_offset = self.at;
            self.due = Due::XorbHead;
        } else if self.footer_size == 0 {
            self.end();
        } else {
            self.due = Due::Footer;
        }
    }

    fn end(&mut self) {
        self.totals.length = self.at;
        self.totals.footer = self.footer_size != 0;
        self.due = Due::Nothing;
    }
}

/// Judges a whole shard.
pub fn judge(tag: &[u8], shard: &[u8]) -> Verdict {
    walk(tag, shard, |_| ())
}

/// Hands each good record before the first faulty one to `visit`, in order,
/// and answers the verdict on the whole shard.
pub fn walk(tag: &[u8], shard: &[u8], mut visit: impl FnMut(&Record)) -> Verdict {
    let mut reader = Reader::new(tag);
    let mut left = shard;
    while !left.is_empty() {
        let step = reader.feed(left);
        left = &left[step.taken..];
        match step.answer {
            Answer::Record(record) => visit(&record),
            Answer::Refused(refusal) => return Err(refusal),
            Answer::Nothing => (),
        }
    }
    reader.verdict()
}

/// Where a chunk was found.
#[derive(Clone, Copy, Debug, PartialEq, Eq)]
pub struct ChunkFound {
    /// The number of its xorb block, from 0.
    pub block: u64,
    /// Its index within the xorb.
    pub index: ChunkIndex,
    /// Where its record starts.
    pub position: Position,
}

/// Where a file was found.
#[derive(Clone, Copy, Debug, PartialEq, Eq)]
pub struct FileFound {
    /// Its number.
    pub number: FileNumber,
    /// Where its head starts.
    pub position: Position,
}

/// Finds the first chunk with this hash; a refused shard gives its refusal.
pub fn find_chunk(tag: &[u8], shard: &[u8], hash: Hash) -> Result<Option<ChunkFound>, Refusal> {
    let (mut blocks, mut chunks, mut found) = (0, 0, None);
    walk(tag, shard, |record| match record.fields {
        Fields::XorbHead { .. } => (blocks, chunks) = (blocks + 1, 0),
        Fields::Chunk { hash: here, .. } => {
            if here == hash && found.is_none() {
                found = Some(ChunkFound {
                    block: blocks - 1,
                    index: ChunkIndex(chunks),
                    position: record.position,
                });
            }
            chunks += 1;
        }
        _ => (),
    })?;
    Ok(found)
}

/// Finds the first file with this hash; a refused shard gives its refusal.
pub fn find_file(tag: &[u8], shard: &[u8], hash: Hash) -> Result<Option<FileFound>, Refusal> {
    let (mut files, mut found) = (0, None);
    walk(tag, shard, |record| {
        if let Fields::FileHead { hash: here, .. } = record.fields {
            if here == hash && found.is_none() {
                found = Some(FileFound {
                    number: FileNumber(files),
                    position: record.position,
                });
            }
            files += 1;
        }
    })?;
    Ok(found)
}

/// The 48 bytes at a position, or an empty part where they don't fit.
pub fn entry_at(buffer: &[u8], position: Position) -> &[u8] {
    let start = usize::try_from(position.0).ok();
    let end = start.and_then(|start| start.checked_add(ENTRY_SIZE));
    match (start, end) {
        (Some(start), Some(end)) => buffer.get(start..end).unwrap_or(&[]),
        _ => &[],
    }
}

/// The 64-bit number at this byte.
pub fn u64_at(bytes: &[u8], at: usize) -> u64 {
    let mut word = [0; 8];
    word.copy_from_slice(&bytes[at..at + 8]);
    u64::from_le_bytes(word)
}

/// The 32-bit number at this byte.
pub fn u32_at(bytes: &[u8], at: usize) -> u32 {
    let mut word = [0; 4];
    word.copy_from_slice(&bytes[at..at + 4]);
    u32::from_le_bytes(word)
}

/// The hash at this byte.
pub fn hash_at(bytes: &[u8], at: usize) -> Hash {
    [0, 8, 16, 24].map(|step| u64_at(bytes, at + step))
}

fn examine_segment(bytes: &[u8]) -> Result<Fields, u8> {
    let start = u32_at(bytes, 40);
    let end = u32_at(bytes, 44);
    refuse_if(u32_at(bytes, 32) != 0, 7)?;
    refuse_if(start >= end, 10)?;
    Ok(Fields::Segment {
        hash: hash_at(bytes, 0),
        bytes: u32_at(bytes, 36),
        start: ChunkIndex(u64::from(start)),
        end: ChunkIndex(u64::from(end)),
    })
}

/// A hash followed by sixteen reserved bytes.
fn examine_plain(bytes: &[u8]) -> Result<Hash, u8> {
    refuse_if(!blank(&bytes[32..48]), 7)?;
    Ok(hash_at(bytes, 0))
}

/// A record with a hash of all ones where a head is due.
fn examine_bookend(bytes: &[u8]) -> Result<Fields, u8> {
    refuse_if(!blank(&bytes[32..48]), 8)?;
    Ok(Fields::Bookend)
}

/// The records a file head declares after itself.
fn further(flags: u32, entries: u32) -> u64 {
    let verified = u64::from(flags & WITH_VERIFICATION != 0);
    let metadata = u64::from(flags & WITH_METADATA != 0);
    u64::from(entries) * (1 + verified) + metadata
}

/// Whether all bytes are zero.
pub(crate) fn blank(bytes: &[u8]) -> bool {
    bytes.iter().all(|&byte| byte == 0)
}

/// The number of a fault, if there is one.
pub(crate) fn refuse_if(fault: bool, number: u8) -> Result<(), u8> {
    if fault {
        Err(number)
    } else {
        Ok(())
    }
}

fn fed(taken: usize, answer: Answer) -> Fed {
    Fed { taken, answer }
}

#[cfg(test)]
mod tests {
    use super::*;
    use crate::cases::random_case;
    use crate::generate::Rng;

    /// The unused bytes of the carry are zero, all of them between records.
    #[test]
    fn carry_is_clean() {
        let mut rng = Rng::new(77);
        for _ in 0..500 {
            let case = random_case(&mut rng);
            let mut reader = Reader::new(&case.tag);
            let mut left = &case.shard[..];
            while !left.is_empty() && reader.refusal.is_none() {
                let cut = 1 + rng.below(60) as usize;
                let step = reader.feed(&left[..cut.min(left.len())]);
                left = &left[step.taken..];
                assert!(blank(&reader.carry[reader.held..]));
                assert!(step.answer == Answer::Nothing || reader.held == 0);
            }
        }
    }
}
