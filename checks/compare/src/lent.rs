//! Readers and writers that C begins, keeps and lends: steps and tables of any length in any order beside the independent reader, what
//! the carry holds after each call, and every record written again.

use crate::interface::{Lent, Offer, Reader, Record, Room, Row, State, ROW};
use crate::sights::Sights;
use crate::{alike, same_bytes, Checked};
use checks::cases::Case;
use checks::generate::Rng;
use checks::reader::{self as own, u64_at, Answer, Kind, Refusal};

/// What a number of the table is before it is filled.
const BEFORE: u64 = 0xA5A5_5A5A_C3C3_3C3C;

/// What is said, and the number and the position of a refusal.
type Said = (u32, u32, u64);

const NOTHING: Said = (0, 0, 0);
const RECORD: Said = (1, 0, 0);

fn refused(refusal: Refusal) -> Said {
    (2, refusal.number.into(), refusal.position.0)
}

/// Both readers of one shard.
struct Lending<'a> {
    reader: Lent<Reader>,
    other: own::Reader,
    /// All bytes taken so far.
    bytes: Vec<u8>,
    found: Vec<Record>,
    seen: &'a mut Sights,
}

/// One input to a reader that is lent, its records to a writer, and calls after the last byte or the refusal.
pub fn check(case: &Case, rng: &mut Rng, seen: &mut Sights) -> Checked {
    seen.saw("readers lent");
    let mut lending = Lending {
        reader: Lent::<Reader>::begun(&case.tag),
        other: own::Reader::new(&case.tag),
        bytes: Vec::new(),
        found: Vec::new(),
        seen,
    };
    lending.standing(NOTHING, 1)?;
    let longest = rng.pick(&[5, 50, 300, 5000]);
    let mut left = &case.shard[..];
    while lending.refusal().is_none() && !left.is_empty() {
        let length = left.len().min(rng.place(longest + 1));
        lending.call(&left[..length], rng)?;
        left = &case.shard[lending.bytes.len()..];
    }
    lending.write_again(&case.tag, rng)?;
    for piece in [&[][..], left, &[0], &[0]] {
        lending.read(piece, rng.place(ROW))?;
        lending.step(piece)?;
        lending.read(piece, ROW)?;
    }
    Ok(())
}

impl Lending<'_> {
    /// The refusal, if the reader has refused.
    fn refusal(&self) -> Option<Refusal> {
        self.other.verdict().err().filter(|one| one.number != 1)
    }

    /// Any call with this piece.
    fn call(&mut self, piece: &[u8], rng: &mut Rng) -> Checked {
        match rng.below(4) {
            0 => self.step(piece),
            1 => self.read(piece, rng.place(ROW)),
            2 => self.read(piece, ROW + rng.place(4 * ROW)),
            _ => self.read_whole(piece, rng.place(ROW)),
        }
    }

    /// A record of the independent reader as a row, its numbers taken from the bytes.
    fn row(&self, record: &own::Record) -> Row {
        let at = record.position.0;
        let bytes = &self.bytes[at as usize..];
        let (from, offset) = match record.kind {
            Kind::Footer => (72, u64_at(bytes, 16)),
            _ => (0, 0),
        };
        let [h0, h1, h2, h3, ab, cd] = [0, 8, 16, 24, 32, 40].map(|i| u64_at(bytes, from + i));
        [record.kind as u64, at, offset, h0, h1, h2, h3, ab, cd]
    }

    /// One record a call.
    fn step(&mut self, piece: &[u8]) -> Checked {
        let carried = self.reader.state.state.have;
        let fed = self.other.feed(piece);
        self.bytes.extend(&piece[..fed.taken]);
        let (said, found) = match fed.answer {
            Answer::Nothing => (NOTHING, Record::default()),
            Answer::Record(one) => (RECORD, Record::from_row(&self.row(&one))),
            Answer::Refused(one) => (refused(one), Record::default()),
        };
        let step = self.reader.step(piece)?;
        let told = (step.said, step.number, step.at);
        alike("a step", (told, step.taken), (said, fed.taken as u64))?;
        alike("the record of a step", step.found, found)?;
        self.seen.saw("calls of step");
        if said == RECORD {
            self.found.push(found);
            self.seen.saw("records by steps");
            self.seen.saw_if(carried > 0, "begun in another piece");
        }
        self.standing(said, 1)
    }

    /// What the independent reader gives for a piece and a table of so many rows: the bytes taken, the rows, and what is said.
    fn wanted(&mut self, piece: &[u8], rows: usize) -> (usize, Vec<Row>, Said) {
        let (mut taken, mut filled) = (0, Vec::new());
        while filled.len() < rows {
            let fed = self.other.feed(&piece[taken..]);
            self.bytes.extend(&piece[taken..][..fed.taken]);
            taken += fed.taken;
            match fed.answer {
                Answer::Nothing => return (taken, filled, NOTHING),
                Answer::Record(one) => filled.push(self.row(&one)),
                Answer::Refused(one) => return (taken, filled, refused(one)),
            }
        }
        (taken, filled, self.refusal().map_or(RECORD, refused))
    }

    /// A piece, with a table of so many numbers.
    fn read(&mut self, piece: &[u8], numbers: usize) -> Checked {
        let carried = self.reader.state.state.have;
        let (before, ended) = (self.reader.state, self.other.verdict().is_ok());
        let (taken, filled, said) = self.wanted(piece, numbers / ROW);
        let mut table = Room::new(numbers, BEFORE);
        let read = self.reader.read(piece, &mut table)?;
        let (told, count) = ((read.said, read.number, read.at), filled.len());
        alike("reading a piece", (told, read.taken), (said, taken as u64))?;
        alike("the rows filled", read.count, count as u64)?;
        table.changed(ROW * count)?;
        let (rows, _) = table.inside().as_chunks::<ROW>();
        alike("the rows", &rows[..count], &filled)?;
        self.found.extend(filled.iter().map(Record::from_row));
        self.note_read(numbers / ROW, count, carried, said);
        if numbers < ROW {
            alike("a reader without a row", self.reader.state, before)?;
            self.seen.saw_if(ended, "no row at the end");
        }
        self.standing(said, numbers / ROW)
    }

    /// A piece, with a table that can't be full, and some numbers more.
    fn read_whole(&mut self, piece: &[u8], more: usize) -> Checked {
        let rows = (piece.len() + 200) / 48 + 1;
        let before = self.bytes.len();
        self.read(piece, ROW * rows + more)?;
        let whole = self.bytes.len() - before == piece.len();
        let done = whole || self.refusal().is_some();
        alike("a piece used up or refused", done, true)?;
        self.seen.saw("rows enough");
        Ok(())
    }

    fn note_read(&mut self, rows: usize, count: usize, carried: u32, said: Said) {
        let seen = &mut self.seen;
        seen.saw("calls of read");
        match (rows, said) {
            (0, RECORD) => {
                seen.saw("no row");
                seen.saw_if(carried > 0, "no row, bytes carried");
            }
            (0, _) => seen.saw("no row, refused"),
            (_, RECORD) => seen.saw("a full table"),
            (_, NOTHING) => seen.saw("rows to spare"),
            _ => seen.saw("refused with rows"),
        }
        seen.saw_times(count as u64, "records by rows");
        seen.saw_if(count > 0 && carried > 0, "begun in another piece");
    }

    /// Where the reader stands after a call that said so, with room for so many records: its verdict, and its carry, the bytes
    /// taken of the record due and zeros.
    fn standing(&mut self, said: Said, rows: usize) -> Checked {
        let verdict = self.reader.verdict()?.told()?;
        alike("a lent reader's verdict", verdict, self.other.verdict())?;
        let Reader { state, carry } = self.reader.state;
        let kept = match self.refusal() {
            Some(_) => &[],
            None => self.bytes.get(state.at as usize..).unwrap_or_default(),
        };
        let have = state.have as usize;
        alike("how many bytes are carried", have, kept.len())?;
        let (carried, unused) = carry.split_at(have);
        same_bytes("the bytes carried", carried, kept)?;
        let clean = unused.iter().all(|&byte| byte == 0);
        alike("the unused bytes are zero", clean, true)?;
        self.seen.saw_if(have > 0, "bytes in the carry");
        self.seen.saw_if(have > 48, "of a footer");
        match (rows, said.0) {
            (0, _) => (),
            (_, 0) => self.seen.saw("zeros behind them"),
            (_, 1) => {
                alike("what is carried after a record", have, 0)?;
                self.seen.saw("zeros after a record");
            }
            _ => self.seen.saw("zeros after a refusal"),
        }
        Ok(())
    }

    /// The records found, each offered by the library to a writer that is lent: the same bytes.
    fn write_again(&mut self, tag: &[u8], rng: &mut Rng) -> Checked {
        let mut writer = Lent::<State>::begun(tag);
        let fresh = writer.verdict()?.told()?;
        alike("a fresh writer", fresh, own::Reader::new(tag).verdict())?;
        for record in &self.found {
            let offer = record.offer()?;
            let start = record.at as usize;
            let size = Kind::ALL[record.kind as usize].size();
            let bytes = &self.bytes[start..][..size];
            if rng.once_in(8) {
                put_short(&mut writer, offer, rng.place(size))?;
                self.seen.saw("15 for a record");
            }
            let mut room = Room::new(size + rng.place(20), !bytes[0]);
            let written = writer.put(offer, &mut room)?;
            let told = (written.wrote, written.number, written.at);
            alike("writing a record again", told, (size as u64, 0, 0))?;
            room.changed(size)?;
            same_bytes("a record written again", &room.inside()[..size], bytes)?;
            self.seen.saw("records written again");
        }
        if let Ok(sum) = self.other.verdict() {
            alike(
                "a lent writer's verdict",
                writer.verdict()?.told()?,
                Ok(sum),
            )?;
        }
        Ok(())
    }
}

/// An offer into fewer bytes than it needs: the writer and the buffer stay as they are.
fn put_short(writer: &mut Lent<State>, offer: Offer, length: usize) -> Checked {
    let before = writer.state;
    let mut room = Room::new(length, 7);
    let written = writer.put(offer, &mut room)?;
    let told = (written.wrote, written.number, written.at);
    alike("a buffer too short", told, (0, 15, before.at))?;
    alike("a writer that refused", writer.state, before)?;
    room.changed(0)
}
