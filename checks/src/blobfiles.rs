//! Blob files to be read, drawn so that every answer is frequent. What they
//! must bring is known from how they were laid out and damaged.

use std::collections::BTreeMap;

use crate::blobs::{Entry, Tally, DIGITS, HEAD};
use crate::damage::set;
use crate::generate::Rng;
use crate::reader::{u64_at, Refusal};

/// No drawn file is longer, but for large ones.
pub const LONGEST: usize = 5_700;

/// The hex digits, those of lower case first, each once.
pub const HEX: &[u8] = b"0123456789abcdefABCDEF";

/// What the digits of a hash are drawn from.
const ALPHABETS: [&[u8]; 5] = [
    HEX,
    b"0123456789abcdef",
    b"0123456789ABCDEF",
    b"09afAF",
    b"0123456789",
];

/// The characters before and behind the ranges of digits.
pub const BESIDE: &[u8] = b"/:@G`g";

/// Where the length stands in an entry, and how wide it is.
const LENGTH: (usize, usize) = (6, 8);

/// What a file is.
#[derive(Clone, Copy, Debug, PartialEq, Eq)]
pub enum Sort {
    /// As it was laid out.
    Good,
    /// An entry has this fault.
    Fault(u8),
    /// An entry has two faults.
    TwoFaults,
    /// Two entries have one each.
    FaultsInTwo,
    /// Cut at any byte.
    Cut,
    /// Something follows the last entry.
    Longer,
    /// An entry has another length, which doesn't pass the end.
    OtherLength,
}

/// The sorts in their order, a turn each.
const SORTS: [Sort; 20] = [
    Sort::Good,
    Sort::Fault(24),
    Sort::Fault(25),
    Sort::Fault(26),
    Sort::Fault(27),
    Sort::Fault(28),
    Sort::Fault(29),
    Sort::Good,
    Sort::Cut,
    Sort::TwoFaults,
    Sort::OtherLength,
    Sort::Longer,
    Sort::FaultsInTwo,
    Sort::Good,
    Sort::Fault(29),
    Sort::TwoFaults,
    Sort::Cut,
    Sort::Fault(27),
    Sort::OtherLength,
    Sort::Fault(29),
];

/// What is drawn of larger files: how many entries, and the bytes of each.
const LARGE: [(usize, usize); 3] = [(3, 70_001), (1, (1 << 24) + 3), (20_000, 7)];

/// So many there are of these.
pub const LARGE_ONES: u64 = LARGE.len() as u64;

/// A blob file, and what is known of it.
#[derive(Clone, Debug)]
pub struct BlobFile {
    /// Its bytes.
    pub bytes: Vec<u8>,
    /// What it is.
    pub sort: Sort,
    /// Where the entries start that were laid out one behind the other.
    pub starts: Vec<u64>,
    /// What the reader must answer where those start, and where the entries
    /// start that are data of them, if 110 bytes are left: the length of the
    /// data, or the number of the fault.
    known: BTreeMap<u64, Result<u64, u8>>,
}

impl BlobFile {
    /// The file of this number.
    pub fn random(rng: &mut Rng, number: u64) -> Self {
        let sort = SORTS[number as usize % SORTS.len()];
        let least = match sort {
            Sort::Good | Sort::Cut | Sort::Longer => 0,
            Sort::FaultsInTwo => 2,
            _ => 1,
        };
        let entries = least + rng.place(4);
        let mut file = BlobFile::good(rng, entries);
        file.sort = sort;
        file.damage(rng);
        file
    }

    /// The file of this number among the large ones.
    pub fn large(rng: &mut Rng, number: u64) -> Self {
        let (entries, length) = LARGE[number as usize % LARGE.len()];
        BlobFile::even(rng, entries, length)
    }

    /// A good file of so many entries with so many bytes each.
    pub fn even(rng: &mut Rng, entries: usize, length: usize) -> Self {
        let mut file = BlobFile::empty();
        for _ in 0..entries {
            let data = rng.bytes(length);
            file.add(rng, &data);
        }
        file
    }

    /// A good file of so many entries. The data of some are entries.
    pub fn good(rng: &mut Rng, entries: usize) -> Self {
        let mut file = BlobFile::empty();
        for _ in 0..entries {
            let inner = match rng.below(4) {
                0 => BlobFile::plain(rng),
                _ => BlobFile::empty(),
            };
            let data = [inner.bytes, some_data(rng)].concat();
            let start = file.add(rng, &data) + HEAD as u64;
            let inside = inner.known.into_iter();
            file.known
                .extend(inside.map(|(at, known)| (start + at, known)));
        }
        file
    }

    /// One or two entries whose data are no entries.
    fn plain(rng: &mut Rng) -> Self {
        let mut file = BlobFile::empty();
        for _ in 0..rng.pick(&[1, 2]) {
            let data = some_data(rng);
            file.add(rng, &data);
        }
        file
    }

    fn empty() -> Self {
        BlobFile {
            bytes: Vec::new(),
            sort: Sort::Good,
            starts: Vec::new(),
            known: BTreeMap::new(),
        }
    }

    /// Adds an entry with these data, and answers where it starts.
    fn add(&mut self, rng: &mut Rng, data: &[u8]) -> u64 {
        let start = self.bytes.len() as u64;
        self.bytes.extend(lay(&some_digits(rng), data));
        self.starts.push(start);
        self.known.insert(start, Ok(data.len() as u64));
        start
    }

    /// The same with another byte somewhere in the head of an entry that is good.
    pub fn with_byte(&self, start: u64, offset: usize, value: u8) -> Self {
        let mut file = self.clone();
        file.bytes[start as usize + offset] = value;
        let known = match offset {
            0..4 => Err(25),
            4..6 => Err(26),
            6..14 => file.with_length(start, file.length_at(start)),
            14..78 if HEX.contains(&value) => file.known[&start],
            14..78 => Err(27),
            _ => Err(28),
        };
        file.known.insert(start, known);
        file
    }

    /// What the entry there says of the length of its data.
    pub fn length_at(&self, start: u64) -> u64 {
        u64_at(&self.bytes, start as usize + LENGTH.0)
    }

    /// The bytes behind the head of the entry there.
    pub fn left_at(&self, start: u64) -> u64 {
        (self.bytes.len() - HEAD) as u64 - start
    }

    /// What an entry there brings that is good but perhaps for this length.
    fn with_length(&self, start: u64, length: u64) -> Result<u64, u8> {
        match length <= self.left_at(start) {
            true => Ok(length),
            false => Err(29),
        }
    }

    /// Makes the file what its sort says.
    fn damage(&mut self, rng: &mut Rng) {
        let length = self.bytes.len();
        match self.sort {
            Sort::Good => (),
            Sort::Fault(number) => {
                let start = rng.pick(&self.starts);
                self.spoil(rng, start, number);
            }
            Sort::TwoFaults => {
                let start = rng.pick(&self.starts);
                let first = rng.below(5);
                let second = first + 1 + rng.below(5 - first);
                for number in [second, first] {
                    self.spoil(rng, start, 24 + number as u8);
                }
            }
            Sort::FaultsInTwo => {
                let second = 1 + rng.place(self.starts.len() - 1);
                for place in [rng.place(second), second] {
                    let number = 25 + rng.below(5) as u8;
                    self.spoil(rng, self.starts[place], number);
                }
            }
            Sort::Cut => self.cut(rng.place(length + 1)),
            Sort::Longer => self.lengthen(rng),
            Sort::OtherLength => self.change_length(rng),
        }
    }

    /// Gives an entry this fault; of several the first number decides.
    fn spoil(&mut self, rng: &mut Rng, start: u64, number: u8) {
        let at = start as usize;
        match number {
            24 => return self.cut(at + 1 + rng.place(HEAD - 1)),
            29 => {
                let length = self.too_long(rng, start);
                set(&mut self.bytes[at..], LENGTH, length);
            }
            _ => spoil_head(rng, &mut self.bytes[at..], number),
        }
        let before = self.known[&start].err();
        let first = before.map_or(number, |before| before.min(number));
        self.known.insert(start, Err(first));
    }

    /// A length that passes the file's end; some don't where the end of the data
    /// is cut to 64 bits, or the length to fewer.
    fn too_long(&self, rng: &mut Rng, start: u64) -> u64 {
        let (own, left) = (self.length_at(start), self.left_at(start));
        let to_wrap = u64::MAX - start - 109;
        let wrapped = to_wrap + rng.below(start + 110);
        let middle = 1_u64 << 63;
        let bit = 1 << (24 + rng.below(39));
        rng.pick(&[
            left + 1,
            left + 1,
            left + 1,
            left + 110,
            middle - 1,
            middle,
            middle + 1,
            middle + own,
            u64::MAX,
            u64::MAX,
            u64::MAX - 109,
            u64::MAX - 110,
            to_wrap,
            to_wrap - 1,
            wrapped,
            own + (1 << 32),
            own + bit,
        ])
    }

    /// Cuts the file; good entries that it cuts have 29, or 24.
    fn cut(&mut self, length: usize) {
        self.bytes.truncate(length);
        for (&start, known) in &mut self.known {
            let end = known.map_or(0, |data| start + HEAD as u64 + data);
            if end > length as u64 {
                *known = Err(29);
            }
        }
    }

    /// Adds some bytes that are no entry: the start of one, or one byte over
    /// and over.
    fn lengthen(&mut self, rng: &mut Rng) {
        let end = self.bytes.len() as u64;
        let any = 1 + rng.place(200);
        let count = rng.pick(&[1, 2, 4, 109, 110, 111, any]);
        let mut more = lay(&some_digits(rng), &[]);
        if count >= HEAD || rng.once_in(2) {
            more = vec![rng.pick(b"\0M0\xFF"); count];
        }
        self.bytes.extend(&more[..count]);
        self.known.insert(end, Err(25));
    }

    /// Gives an entry another length: up to where another one ends, none, or any
    /// that does not pass the end.
    fn change_length(&mut self, rng: &mut Rng) {
        let place = rng.place(self.starts.len());
        let start = self.starts[place];
        let left = self.left_at(start);
        let later = self.starts[place + 1..].iter();
        let mut ends: Vec<u64> = later.map(|end| end - start - HEAD as u64).collect();
        ends.push(left);
        let (end, any) = (rng.pick(&ends), rng.below(left + 1));
        let length = rng.pick(&[0, left, end, any]);
        set(&mut self.bytes[start as usize..], LENGTH, length);
        self.known.insert(start, self.with_length(start, length));
    }

    /// Some positions: where entries start, inside of one, near the end and far
    /// past it, and any.
    pub fn positions(&self, rng: &mut Rng) -> Vec<u64> {
        let end = self.bytes.len() as u64;
        let mut list: Vec<u64> = self.known.keys().copied().collect();
        let start = list.get(rng.place(list.len().max(1)));
        let start = start.copied().unwrap_or(0);
        list.extend([
            start + 1 + rng.below(109),
            start + (1 << 32),
            start + (1 << 63),
            end.saturating_sub(HEAD as u64),
            end.saturating_sub(HEAD as u64 - 1),
            end,
            end + 1,
            u64::MAX,
            u64::MAX - 109,
            u64::MAX - 110,
            rng.below(end + 1),
            rng.wide(),
        ]);
        list
    }

    /// One of them, mostly that where a scan is refused, or one where an entry
    /// starts.
    pub fn position(&self, rng: &mut Rng) -> u64 {
        let mut positions = self.positions(rng);
        if rng.once_in(4) {
            return rng.pick(&positions);
        }
        positions.truncate(self.known.len().max(1));
        match self.tally() {
            Some(Err(refusal)) => refusal.position.0,
            _ => rng.pick(&positions),
        }
    }

    /// What the reader must answer there, if that is known: the length of the
    /// data, or a number. No entry starts inside of a head.
    fn known_at(&self, at: u64) -> Option<Result<u64, u8>> {
        let left = (self.bytes.len() as u64).checked_sub(at);
        if left.is_none_or(|left| left < HEAD as u64) {
            return Some(Err(24));
        }
        let (&start, &known) = self.known.range(..=at).next_back()?;
        match at - start {
            0 => Some(known),
            1..110 => Some(Err(25)),
            _ => None,
        }
    }

    /// What the reader must answer there, if that is known.
    pub fn entry(&self, at: u64) -> Option<Result<Entry<'_>, Refusal>> {
        let known = self.known_at(at)?;
        let entry = |length| {
            let [digits, data] = [at as usize + 14, at as usize + HEAD];
            let end = data + length as usize;
            Entry {
                digits: &self.bytes[digits..digits + DIGITS],
                data: &self.bytes[data..end],
                next: end as u64,
            }
        };
        let refusal = |number| Refusal::new(number, at);
        Some(known.map(entry).map_err(refusal))
    }

    /// What a scan must answer, if that is known of every entry up to the first
    /// that is refused.
    pub fn tally(&self) -> Option<Result<Tally, Refusal>> {
        let mut tally = Tally::default();
        let mut at = 0;
        while at < self.bytes.len() as u64 {
            let length = match self.known_at(at)? {
                Ok(length) => length,
                Err(number) => return Some(Err(Refusal::new(number, at))),
            };
            tally.entries += 1;
            tally.bytes += length;
            at += HEAD as u64 + length;
        }
        Some(Ok(tally))
    }
}

/// The bytes of an entry with these 64 digits and these data.
pub fn lay(digits: &[u8], data: &[u8]) -> Vec<u8> {
    let mut bytes = vec![0; HEAD];
    bytes[..4].copy_from_slice(b"MSHB");
    set(&mut bytes, (4, 2), 1);
    set(&mut bytes, LENGTH, data.len() as u64);
    bytes[14..78].copy_from_slice(digits);
    bytes.extend(data);
    bytes
}

/// Makes a fault of the magic, the version, the digits or the reserved bytes.
fn spoil_head(rng: &mut Rng, head: &mut [u8], number: u8) {
    match number {
        25 => head[rng.place(4)] ^= 1 << rng.below(8),
        26 => set(head, (4, 2), rng.pick(&[0, 2, 255, 256, 257, 65_535])),
        27 => head[14 + rng.place(DIGITS)] = no_digit(rng),
        _ => head[78 + rng.place(32)] = 1 << rng.below(8),
    }
}

/// The digits of a hash.
pub(crate) fn some_digits(rng: &mut Rng) -> Vec<u8> {
    let alphabet = rng.pick(&ALPHABETS);
    (0..DIGITS).map(|_| rng.pick(alphabet)).collect()
}

/// Data of an entry, often none.
pub(crate) fn some_data(rng: &mut Rng) -> Vec<u8> {
    let length = match rng.below(8) {
        0 | 1 => 0,
        2 => 1,
        3 => 100 + rng.place(20),
        4 => 250 + rng.place(20),
        _ => rng.place(40),
    };
    rng.bytes(length)
}

/// A character that is no hex digit: one beside their ranges, a digit with a
/// bit more, or any.
pub(crate) fn no_digit(rng: &mut Rng) -> u8 {
    loop {
        let character = match rng.below(3) {
            0 => rng.pick(BESIDE),
            1 => 0x80 | rng.pick(HEX),
            _ => rng.word() as u8,
        };
        if !HEX.contains(&character) {
            return character;
        }
    }
}
