//! A second reading of the paper: a plain descent over the whole buffer that
//! shares nothing with the state machine but the types of its answer. Both
//! must agree on records and verdict.

use checks::cases::{catalogue, random_case};
use checks::generate::Rng;
use checks::reader::{walk, Kind, Position, Refusal, Summary};

type Seen = Vec<(Kind, Position)>;

struct Descent<'a> {
    shard: &'a [u8],
    at: usize,
    seen: Seen,
    sums: Summary,
}

fn number(bytes: &[u8], at: usize, width: usize) -> u128 {
    let part = bytes[at..at + width].iter().rev();
    part.fold(0, |value, &byte| value * 256 + u128::from(byte))
}

fn zero(bytes: &[u8]) -> bool {
    bytes.iter().map(|&byte| u32::from(byte)).sum::<u32>() == 0
}

impl<'a> Descent<'a> {
    fn fail(&self, number: u8) -> Refusal {
        Refusal::new(number, self.at as u64)
    }

    fn peek(&self, size: usize) -> Result<&'a [u8], Refusal> {
        let rest = &self.shard[self.at..];
        if rest.len() < size {
            return Err(self.fail(1));
        }
        Ok(&rest[..size])
    }

    fn accept(&mut self, kind: Kind, size: usize) {
        self.seen.push((kind, Position(self.at as u64)));
        self.at += size;
    }

    fn whole(&mut self, tag: &[u8]) -> Result<Summary, Refusal> {
        if tag.len() != 32 {
            return Err(Refusal::new(2, 0));
        }
        let footer = self.header(tag)?;
        self.files(footer)?;
        let xorbs = self.at;
        self.xorbs(footer)?;
        if footer == 200 {
            self.footer(xorbs)?;
        }
        if self.at < self.shard.len() {
            return Err(self.fail(14));
        }
        self.sums.length = self.at as u64;
        self.sums.footer = footer == 200;
        Ok(self.sums)
    }

    fn header(&mut self, tag: &[u8]) -> Result<u128, Refusal> {
        let bytes = self.peek(48)?;
        let footer = number(bytes, 40, 8);
        if &bytes[..32] != tag {
            return Err(self.fail(3));
        }
        if number(bytes, 32, 8) != 2 {
            return Err(self.fail(4));
        }
        if ![0, 200].contains(&footer) {
            return Err(self.fail(5));
        }
        self.accept(Kind::Header, 48);
        Ok(footer)
    }

    /// A head's bytes, or none for a bookend.
    fn head(&mut self) -> Result<Option<&'a [u8]>, Refusal> {
        let bytes = self.peek(48)?;
        if bytes[..32] != [255; 32] {
            return Ok(Some(bytes));
        }
        if !zero(&bytes[32..]) {
            return Err(self.fail(8));
        }
        self.accept(Kind::Bookend, 48);
        Ok(None)
    }

    fn too_many(&self, records: u128, rest: u128) -> bool {
        self.at as u128 + 48 + 48 * records + rest > 16_777_216
    }

    fn files(&mut self, footer: u128) -> Result<(), Refusal> {
        let mut first = None;
        while let Some(bytes) = self.head()? {
            let flags = number(bytes, 32, 4);
            let entries = number(bytes, 36, 4);
            let verified = flags / (1 << 31);
            let metadata = flags / (1 << 30) % 2;
            if flags & 0x3FFF_FFFF != 0 || !zero(&bytes[40..]) {
                return Err(self.fail(7));
            }
            if *first.get_or_insert(verified) != verified {
                return Err(self.fail(9));
            }
            let records = entries + entries * verified + metadata;
            if self.too_many(records, 96 + footer) {
                return Err(self.fail(6));
            }
            self.accept(Kind::FileHead, 48);
            self.sums.files += 1;
            for _ in 0..entries {
                self.segment()?;
            }
            for _ in 0..entries * verified {
                self.plain(Kind::Verification)?;
            }
            for _ in 0..metadata {
                self.plain(Kind::Metadata)?;
            }
        }
        Ok(())
    }

    fn segment(&mut self) -> Result<(), Refusal> {
        let bytes = self.peek(48)?;
        if !zero(&bytes[32..36]) {
            return Err(self.fail(7));
        }
        if number(bytes, 40, 4) >= number(bytes, 44, 4) {
            return Err(self.fail(10));
        }
        self.sums.segments += 1;
        self.sums.bytes += number(bytes, 36, 4) as u64;
        self.accept(Kind::Segment, 48);
        Ok(())
    }

    fn plain(&mut self, kind: Kind) -> Result<(), Refusal> {
        if !zero(&self.peek(48)?[32..]) {
            return Err(self.fail(7));
        }
        self.accept(kind, 48);
        Ok(())
    }

    fn xorbs(&mut self, footer: u128) -> Result<(), Refusal> {
        while let Some(bytes) = self.head()? {
            let entries = number(bytes, 36, 4);
            let total = number(bytes, 40, 4);
            if !zero(&bytes[32..36]) {
                return Err(self.fail(7));
            }
            if self.too_many(entries, 48 + footer) {
                return Err(self.fail(6));
            }
            if entries == 0 && total > 0 {
                return Err(self.fail(11));
            }
            self.accept(Kind::XorbHead, 48);
            self.sums.xorbs += 1;
            let mut sum = 0;
            for left in (0..entries).rev() {
                sum = self.chunk(sum, total, left == 0)?;
            }
        }
        Ok(())
    }

    fn chunk(&mut self, sum: u128, total: u128, last: bool) -> Result<u128, Refusal> {
        let bytes = self.peek(48)?;
        let next = sum + number(bytes, 36, 4);
        if !zero(&bytes[40..]) {
            return Err(self.fail(7));
        }
        let bad_end = if last { next != total } else { next > total };
        if number(bytes, 32, 4) != sum || bad_end {
            return Err(self.fail(11));
        }
        self.sums.chunks += 1;
        self.accept(Kind::Chunk, 48);
        Ok(next)
    }

    fn footer(&mut self, xorbs: usize) -> Result<(), Refusal> {
        let bytes = self.peek(200)?;
        let places = [(8, 48), (16, xorbs), (192, self.at)];
        if number(bytes, 0, 8) != 1 {
            return Err(self.fail(12));
        }
        if places
            .iter()
            .any(|&(at, due)| number(bytes, at, 8) != due as u128)
        {
            return Err(self.fail(13));
        }
        if !zero(&bytes[24..72]) || !zero(&bytes[120..192]) {
            return Err(self.fail(7));
        }
        self.accept(Kind::Footer, 200);
        Ok(())
    }
}

fn descend(tag: &[u8], shard: &[u8]) -> (Seen, Result<Summary, Refusal>) {
    let mut descent = Descent {
        shard,
        at: 0,
        seen: Seen::new(),
        sums: Summary::default(),
    };
    let verdict = descent.whole(tag);
    (descent.seen, verdict)
}

fn agree(tag: &[u8], shard: &[u8]) {
    let mut seen = Seen::new();
    let verdict = walk(tag, shard, |one| seen.push((one.kind, one.position)));
    assert_eq!((seen, verdict), descend(tag, shard));
}

#[test]
fn both_agree_on_the_catalogue() {
    for seed in 0..20 {
        for case in catalogue(seed) {
            agree(&case.tag, &case.shard);
        }
    }
}

#[test]
fn both_agree_on_random_cases() {
    let mut rng = Rng::new(5);
    for _ in 0..40_000 {
        let case = random_case(&mut rng);
        agree(&case.tag, &case.shard);
    }
}

#[test]
fn both_agree_where_single_bits_change() {
    let mut rng = Rng::new(6);
    for _ in 0..12 {
        let mut case = random_case(&mut rng);
        for bit in 0..case.shard.len() * 8 {
            case.shard[bit / 8] ^= 1 << (bit % 8);
            agree(&case.tag, &case.shard);
            case.shard[bit / 8] ^= 1 << (bit % 8);
        }
    }
}
