//! Reading in pieces gives the same records and verdict as one piece, and
//! each call takes exactly what the paper says.

use checks::cases::{random_case, Case};
use checks::generate::Rng;
use checks::reader::{judge, walk, Answer, Fields, Kind, Reader, Record, Refusal, Verdict};

const SIZES: [usize; 7] = [1, 7, 47, 48, 49, 100, 4096];

fn whole(case: &Case) -> (Vec<Record>, Verdict) {
    let mut records = Vec::new();
    let verdict = walk(&case.tag, &case.shard, |record| records.push(*record));
    (records, verdict)
}

/// The size of the record due after these, 0 if none is.
fn due(records: &[Record]) -> usize {
    let marks = records.iter().filter(|one| one.kind == Kind::Bookend);
    let footed = match records.first().map(|one| one.fields) {
        Some(Fields::Header { footer_size, .. }) => footer_size as usize,
        _ => 0,
    };
    match (marks.count(), records.last().map(|one| one.kind)) {
        (_, Some(Kind::Footer)) => 0,
        (2, _) => footed,
        _ => 48,
    }
}

struct Feeding<'a> {
    reader: Reader,
    left: &'a [u8],
    records: Vec<Record>,
    held: usize,
}

impl Feeding<'_> {
    /// One call; false once the reader has refused.
    fn call(&mut self, size: usize) -> bool {
        let piece = &self.left[..size.min(self.left.len())];
        let missing = due(&self.records) - self.held;
        let fed = self.reader.feed(piece);
        assert_eq!(fed.taken, piece.len().min(missing));
        self.left = &self.left[fed.taken..];
        self.held += fed.taken;
        match fed.answer {
            Answer::Nothing => assert!(fed.taken < missing),
            Answer::Record(record) => self.keep(record, fed.taken == missing),
            Answer::Refused(refusal) => {
                assert_eq!(fed.taken, missing);
                assert_eq!(self.reader.verdict(), Err(refusal));
                return false;
            }
        }
        self.between();
        true
    }

    fn keep(&mut self, record: Record, whole: bool) {
        assert!(whole && self.held == record.kind.size());
        self.records.push(record);
        self.held = 0;
    }

    /// The verdict and an empty piece change nothing.
    fn between(&mut self) {
        let last = self.records.last();
        let start = last.map_or(0, |one| one.position.0 + one.kind.size() as u64);
        let verdict = self.reader.verdict();
        match due(&self.records) {
            0 => assert_eq!(verdict.expect("the end").length, start),
            _ => assert_eq!(verdict, Err(Refusal::new(1, start))),
        }
        let nothing = self.reader.feed(&[]);
        assert_eq!((nothing.taken, nothing.answer), (0, Answer::Nothing));
        assert_eq!(self.reader.verdict(), verdict);
    }
}

fn in_pieces(case: &Case, mut size: impl FnMut() -> usize) -> (Vec<Record>, Verdict) {
    let mut feeding = Feeding {
        reader: Reader::new(&case.tag),
        left: &case.shard,
        records: Vec::new(),
        held: 0,
    };
    while !feeding.left.is_empty() && feeding.call(size()) {}
    let verdict = feeding.reader.verdict();
    stays(&mut feeding.reader, verdict);
    (feeding.records, verdict)
}

/// A reader that has refused or ended takes nothing more.
fn stays(reader: &mut Reader, verdict: Verdict) {
    let mut refusal = match verdict {
        Ok(sums) => Refusal::new(14, sums.length),
        Err(refusal) => refusal,
    };
    if refusal.number == 1 {
        return;
    }
    for piece in [&[0_u8; 300][..], &[5], &[]] {
        let fed = reader.feed(piece);
        assert_eq!((fed.taken, fed.answer), (0, Answer::Refused(refusal)));
        refusal = reader.verdict().expect_err("it has refused");
        assert!(refusal.number > 1);
    }
}

#[test]
fn pieces_of_fixed_size() {
    let mut rng = Rng::new(1);
    for _ in 0..4_000 {
        let case = random_case(&mut rng);
        if case.tag.len() == 32 {
            let wanted = whole(&case);
            for size in SIZES {
                assert_eq!(in_pieces(&case, || size), wanted);
            }
        }
    }
}

#[test]
fn pieces_of_random_size() {
    let mut rng = Rng::new(2);
    for _ in 0..8_000 {
        let case = random_case(&mut rng);
        if case.tag.len() == 32 {
            let longest = rng.pick(&[2, 10, 60, 300]);
            let wanted = whole(&case);
            let found = in_pieces(&case, || 1 + rng.below(longest) as usize);
            assert_eq!(found, wanted);
        }
    }
}

#[test]
fn a_bad_tag_takes_nothing() {
    for length in [0, 1, 31, 33, 64] {
        let mut reader = Reader::new(&vec![1; length]);
        let refusal = Refusal::new(2, 0);
        assert_eq!(reader.verdict(), Err(refusal));
        for piece in [&[][..], &[1; 48]] {
            let fed = reader.feed(piece);
            assert_eq!((fed.taken, fed.answer), (0, Answer::Refused(refusal)));
        }
        assert_eq!(judge(&vec![1; length], &[]), Err(refusal));
    }
}
