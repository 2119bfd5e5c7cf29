//! A reader of shards as one would write it in Rust: a state changed in place, records decoded straight from the piece, and
//! only a record that a cut goes through kept in a carry. It shares no code with the proved one but the types it hands out.

use melagbosun::{ChunkIndex, Hash, Position, Record, Refusal, Summary, Totals, Verdict};

const LIMIT: u64 = 16_777_216;
const ENTRY: usize = 48;
const FOOTER: usize = 200;
const ALL_ONES: Hash = Hash([u64::MAX; 4]);

#[derive(Clone, Copy, Debug, PartialEq, Eq)]
enum Due {
    Header,
    FileHead,
    Segment,
    Verification,
    Metadata,
    XorbHead,
    Chunk,
    Footer,
    End,
}

/// An ordinary reader.
#[derive(Clone, Debug)]
pub struct Ordinary {
    tag: Hash,
    due: Due,
    refusal: Option<Refusal>,
    at: u64,
    left: u32,
    file: (u32, u32),
    sum: u64,
    bytes: u64,
    footer_size: u64,
    xorb_offset: u64,
    totals: Totals,
    held: usize,
    carry: [u8; FOOTER],
}

impl Ordinary {
    /// A fresh reader.
    pub fn new(tag: &[u8]) -> Self {
        let wanted = <[u8; 32]>::try_from(tag);
        Ordinary {
            tag: wanted.unwrap_or_default().into(),
            due: Due::Header,
            refusal: wanted.err().map(|_| refusal(2, 0)),
            at: 0,
            left: 0,
            file: (0, 0),
            sum: 0,
            bytes: 0,
            footer_size: 0,
            xorb_offset: 0,
            totals: Totals::default(),
            held: 0,
            carry: [0; FOOTER],
        }
    }

    /// Takes a whole piece, and hands each record that it completes to `visit`.
    pub fn read(&mut self, mut piece: &[u8], mut visit: impl FnMut(Record)) -> Result<(), Refusal> {
        if let Some(refusal) = self.refusal {
            return Err(refusal);
        }
        if self.held > 0 {
            let missing = (self.size() - self.held).min(piece.len());
            let (part, rest) = piece.split_at(missing);
            self.keep(part);
            piece = rest;
            if self.held < self.size() {
                return Ok(());
            }
            let carry = self.carry;
            visit(self.complete(&carry[..self.held])?);
            self.held = 0;
        }
        while let Some((record, rest)) = piece.split_at_checked(self.size()) {
            if self.due == Due::End {
                break;
            }
            visit(self.complete(record)?);
            piece = rest;
        }
        if self.due == Due::End && !piece.is_empty() {
            return Err(self.refuse(14));
        }
        self.keep(piece);
        Ok(())
    }

    /// The verdict so far.
    pub fn verdict(&self) -> Verdict {
        match (self.refusal, self.due) {
            (Some(refusal), _) => Err(refusal),
            (None, Due::End) => Ok(Summary {
                length: self.at,
                totals: self.totals,
                footer: self.footer_size != 0,
            }),
            _ => Err(refusal(1, self.at)),
        }
    }

    fn size(&self) -> usize {
        match self.due {
            Due::Footer => FOOTER,
            _ => ENTRY,
        }
    }

    fn keep(&mut self, part: &[u8]) {
        let end = self.held + part.len();
        self.carry[self.held..end].copy_from_slice(part);
        self.held = end;
    }

    #[cold]
    fn refuse(&mut self, number: u32) -> Refusal {
        let refusal = refusal(number, self.at);
        self.refusal = Some(refusal);
        refusal
    }

    #[inline(always)]
    fn complete(&mut self, bytes: &[u8]) -> Result<Record, Refusal> {
        let judged = match <&[u8; ENTRY]>::try_from(bytes) {
            Ok(entry) => self.entry(entry),
            Err(_) => self.footer(bytes),
        };
        match judged {
            Ok(record) => {
                self.at += bytes.len() as u64;
                Ok(record)
            }
            Err(number) => Err(self.refuse(number)),
        }
    }

    #[inline(always)]
    fn entry(&mut self, bytes: &[u8; ENTRY]) -> Result<Record, u32> {
        let position = Position(self.at);
        let hash = Hash([0, 8, 16, 24].map(|at| word(bytes, at)));
        let [a, b, c, d] = [32, 36, 40, 44].map(|at| word(bytes, at) as u32);
        match self.due {
            Due::Chunk => {
                let sum = self.sum + u64::from(b);
                let last = self.left == 1;
                check(c | d == 0, 7)?;
                check(u64::from(a) == self.sum && sum <= self.bytes, 11)?;
                check(!last || sum == self.bytes, 11)?;
                self.sum = sum;
                self.totals.chunks += 1;
                self.left -= 1;
                if last {
                    self.due = Due::XorbHead;
                }
                Ok(Record::Chunk {
                    position,
                    hash,
                    start: a,
                    bytes: b,
                })
            }
            Due::FileHead | Due::XorbHead if hash == ALL_ONES => {
                check(a | b | c | d == 0, 8)?;
                self.end_section();
                Ok(Record::Bookend { position })
            }
            Due::FileHead => {
                let (checked, last) = (a >> 31, a >> 30 & 1);
                check(a << 2 | c | d == 0, 7)?;
                check(self.totals.files == 0 || checked == self.file.0 >> 31, 9)?;
                let more = u64::from(b) * (1 + u64::from(checked)) + u64::from(last);
                check(self.fits(more, 96), 6)?;
                self.totals.files += 1;
                self.file = (a, b);
                self.left = b;
                self.due = Due::Segment;
                self.next_in_file();
                Ok(Record::FileHead {
                    position,
                    hash,
                    flags: a,
                    entries: b,
                })
            }
            Due::Segment => {
                check(a == 0, 7)?;
                check(c < d, 10)?;
                self.totals.segments += 1;
                self.totals.bytes += u64::from(b);
                self.left -= 1;
                self.next_in_file();
                Ok(Record::Segment {
                    position,
                    hash,
                    flags: a,
                    bytes: b,
                    start: ChunkIndex(c),
                    end: ChunkIndex(d),
                })
            }
            Due::Verification => {
                check(a | b | c | d == 0, 7)?;
                self.left -= 1;
                self.next_in_file();
                Ok(Record::Verification { position, hash })
            }
            Due::Metadata => {
                check(a | b | c | d == 0, 7)?;
                self.due = Due::FileHead;
                Ok(Record::Metadata { position, hash })
            }
            Due::XorbHead => {
                check(a == 0, 7)?;
                check(self.fits(b.into(), 48), 6)?;
                check(b != 0 || c == 0, 11)?;
                self.totals.xorbs += 1;
                (self.left, self.sum, self.bytes) = (b, 0, c.into());
                if b > 0 {
                    self.due = Due::Chunk;
                }
                Ok(Record::XorbHead {
                    position,
                    hash,
                    flags: a,
                    entries: b,
                    bytes: c,
                    on_disk: d,
                })
            }
            _ => {
                let (version, footer_size) = (word(bytes, 32), word(bytes, 40));
                check(hash == self.tag, 3)?;
                check(version == 2, 4)?;
                check(footer_size == 0 || footer_size == 200, 5)?;
                self.footer_size = footer_size;
                self.due = Due::FileHead;
                Ok(Record::Header {
                    position,
                    tag: hash,
                    version,
                    footer_size,
                })
            }
        }
    }

    fn fits(&self, more: u64, rest: u64) -> bool {
        self.at + 48 + 48 * more + rest + self.footer_size <= LIMIT
    }

    /// Goes on in a file block whose part is done.
    fn next_in_file(&mut self) {
        let (flags, entries) = self.file;
        if self.left == 0 && self.due == Due::Segment && flags >> 31 == 1 {
            (self.due, self.left) = (Due::Verification, entries);
        }
        if self.left == 0 {
            let last = flags >> 30 & 1 == 1;
            self.due = if last { Due::Metadata } else { Due::FileHead };
        }
    }

    fn end_section(&mut self) {
        self.due = match self.due {
            Due::FileHead => {
                self.xorb_offset = self.at + 48;
                Due::XorbHead
            }
            _ if self.footer_size == 0 => Due::End,
            _ => Due::Footer,
        };
    }

    #[inline(never)]
    fn footer(&mut self, bytes: &[u8]) -> Result<Record, u32> {
        let offsets = [8, 16, 192].map(|at| word(bytes, at));
        let mut reserved = bytes[24..72].iter().chain(&bytes[120..192]);
        check(word(bytes, 0) == 1, 12)?;
        check(offsets == [48, self.xorb_offset, self.at], 13)?;
        check(reserved.all(|&byte| byte == 0), 7)?;
        self.due = Due::End;
        Ok(Record::Footer {
            position: Position(self.at),
            xorb_offset: Position(self.xorb_offset),
            key: Hash([72, 80, 88, 96].map(|at| word(bytes, at))),
            created: word(bytes, 104),
            expiry: word(bytes, 112),
        })
    }
}

fn refusal(number: u32, at: u64) -> Refusal {
    let position = Position(at);
    Refusal { number, position }
}

fn check(good: bool, number: u32) -> Result<(), u32> {
    if good {
        Ok(())
    } else {
        Err(number)
    }
}

/// The 64-bit number at this byte, or the 32 bits that are left there.
#[inline(always)]
fn word(bytes: &[u8], at: usize) -> u64 {
    match bytes[at..].first_chunk::<8>() {
        Some(&eight) => u64::from_le_bytes(eight),
        None => bytes[at..]
            .first_chunk()
            .map_or(0, |&four| u32::from_le_bytes(four).into()),
    }
}
