//! A small shard with every kind of record: read, written again, damaged, and read in pieces.

use melagbosun::{
    ChunkIndex, Hash, Offer, Position, Reader, Record, Refusal, Said, Verdict, Writer,
};

const SIZES: [usize; 9] = [1, 7, 47, 48, 49, 100, 200, 4096, 100_000];

fn tag() -> [u8; 32] {
    std::array::from_fn(|i| i as u8 + 1)
}

fn hash(n: u64) -> Hash {
    Hash([n, n + 1, n + 2, u64::MAX - n])
}

/// Two files with verifications, the second with metadata, one xorb of two chunks and an empty one, and a footer.
fn offers() -> Vec<Offer> {
    let segment = |n: u64, bytes| Offer::Segment {
        hash: hash(n),
        flags: 0,
        bytes,
        start: ChunkIndex(5),
        end: ChunkIndex(6),
    };
    let file = |n: u64, flags, entries| Offer::FileHead {
        hash: hash(n),
        flags,
        entries,
    };
    let xorb = |n: u64, entries, bytes| Offer::XorbHead {
        hash: hash(n),
        flags: 0,
        entries,
        bytes,
        on_disk: 9,
    };
    let chunk = |n: u64, start, bytes| Offer::Chunk {
        hash: hash(n),
        start,
        bytes,
    };
    vec![
        Offer::Header { footer_size: 200 },
        file(10, 1 << 31, 2),
        segment(11, u32::MAX),
        segment(12, 7),
        Offer::Verification { hash: hash(13) },
        Offer::Verification { hash: hash(14) },
        file(20, 3 << 30, 0),
        Offer::Metadata { hash: hash(21) },
        Offer::SectionEnd,
        xorb(30, 2, 30),
        chunk(31, 0, 10),
        chunk(32, 10, 20),
        xorb(40, 0, 0),
        Offer::SectionEnd,
        Offer::Footer {
            key: hash(50),
            created: 1 << 40,
            expiry: u64::MAX,
        },
    ]
}

fn written(offers: &[Offer]) -> Vec<u8> {
    let mut writer = Writer::new(&tag());
    let mut shard = Vec::new();
    for offer in offers {
        let mut buffer = [0xAA; 256];
        let size = writer.put(offer, &mut buffer).expect("a good offer");
        assert!(buffer[size..].iter().all(|&byte| byte == 0xAA));
        shard.extend(&buffer[..size]);
    }
    assert_eq!(
        writer.verdict().map(|sum| sum.length),
        Ok(shard.len() as u64)
    );
    shard
}

fn read(shard: &[u8], size: usize) -> (Vec<Record>, Verdict) {
    let mut reader = Reader::new(&tag());
    let mut records = Vec::new();
    for piece in shard.chunks(size) {
        if let Err(refusal) = reader.read(piece, |record| records.push(record)) {
            assert_eq!(reader.read(&[1], |_| panic!("a record")), Err(refusal));
            assert_eq!(reader.verdict(), Err(refusal));
        }
    }
    (records, reader.verdict())
}

fn refused(number: u32, at: u64) -> Refusal {
    let position = Position(at);
    Refusal { number, position }
}

#[test]
fn round_trip_in_pieces() {
    let shard = written(&offers());
    for size in SIZES {
        let (records, verdict) = read(&shard, size);
        let again: Vec<Offer> = records.iter().map(|&record| record.into()).collect();
        assert_eq!(again, offers());
        assert_eq!(written(&again), shard);
        let sum = verdict.expect("a good shard");
        assert_eq!(
            sum.to_string(),
            "files 2\nsegments 2\nxorbs 2\nchunks 2\nbytes 4294967302\nfooter yes\nok 872"
        );
    }
}

#[test]
fn records_carry_their_fields() {
    let (records, _) = read(&written(&offers()), 4096);
    let starts: Vec<u64> = (0..15).map(|i| i * 48).collect();
    let found: Vec<u64> = records.iter().map(|record| record.position().0).collect();
    assert_eq!(found, starts);
    let header = Record::Header {
        position: Position(0),
        tag: tag().into(),
        version: 2,
        footer_size: 200,
    };
    let footer = Record::Footer {
        position: Position(672),
        xorb_offset: Position(432),
        key: hash(50),
        created: 1 << 40,
        expiry: u64::MAX,
    };
    assert_eq!((records[0], records[14]), (header, footer));
}

#[test]
fn each_step_gives_one_record() {
    let shard = written(&offers());
    let mut reader = Reader::new(&tag());
    assert_eq!(reader.step(&[]).said, Said::Nothing);
    let mut at = 0;
    while at < shard.len() {
        assert_eq!(reader.verdict(), Err(refused(1, at as u64)));
        let step = reader.step(&shard[at..]);
        assert_eq!(step.taken, if at == 672 { 200 } else { 48 });
        assert!(matches!(step.said, Said::Record(one) if one.position().0 == at as u64));
        at += step.taken;
    }
    let late = reader.step(&[0]);
    assert_eq!(
        (late.taken, late.said),
        (0, Said::Refused(refused(14, 872)))
    );
}

#[test]
fn damage_is_refused() {
    let good = written(&offers());
    let cases = [
        (0, 3, 0),
        (32, 4, 0),
        (41, 5, 0),
        (48 + 38, 6, 48),
        (48 + 40, 7, 48),
        (384 + 47, 8, 384),
        (288 + 35, 9, 288),
        (96 + 40, 10, 96),
        (480 + 36, 11, 480),
        (672, 12, 672),
        (672 + 192, 13, 672),
        (672 + 120, 7, 672),
    ];
    for (byte, number, at) in cases {
        let mut shard = good.clone();
        shard[byte] ^= 0x80;
        for size in SIZES {
            let (records, verdict) = read(&shard, size);
            assert_eq!(verdict, Err(refused(number, at)), "byte {byte}");
            assert_eq!(records.len() as u64, at / 48);
        }
    }
    assert_eq!(read(&good[..871], 50).1, Err(refused(1, 672)));
    assert_eq!(read(&[], 1).1, Err(refused(1, 0)));
    assert_eq!(Reader::new(&[1; 31]).verdict(), Err(refused(2, 0)));
}

#[test]
fn a_writer_refuses() {
    let mut writer = Writer::new(&tag());
    let mut buffer = [7; 48];
    let header = Offer::Header { footer_size: 0 };
    assert_eq!(
        writer.put(&Offer::SectionEnd, &mut buffer),
        Err(refused(16, 0))
    );
    assert_eq!(writer.put(&header, &mut buffer[..47]), Err(refused(15, 0)));
    assert_eq!(writer.put(&header, &mut []), Err(refused(15, 0)));
    assert_eq!(buffer, [7; 48]);
    assert_eq!(writer.put(&header, &mut buffer), Ok(48));
    let head = Offer::FileHead {
        hash: Hash([u64::MAX; 4]),
        flags: 0,
        entries: 0,
    };
    assert_eq!(writer.put(&head, &mut buffer), Err(refused(8, 48)));
    assert_eq!(writer.verdict(), Err(refused(1, 48)));
    let mut bad = Writer::new(&[]);
    assert_eq!(bad.put(&header, &mut buffer), Err(refused(2, 0)));
    assert_eq!(bad.verdict(), Err(refused(2, 0)));
}

#[test]
fn a_refusal_is_an_error_with_a_sentence() {
    let numbers = (1..=18).chain([22]).chain(24..=30).chain([255]);
    let sentences: Vec<&str> = numbers.map(|n| refused(n, 0).sentence()).collect();
    for (i, one) in sentences.iter().enumerate() {
        assert!(!sentences[..i].contains(one) && !one.contains("no known"));
    }
    let error: Box<dyn std::error::Error> = Box::new(refused(3, 0));
    assert_eq!(
        error.to_string(),
        "refused 3 at 0: the header has another tag"
    );
}

#[test]
fn whole_shards() {
    use melagbosun::{
        find_chunk, find_file, judge, BlockNumber, FileNumber, FoundChunk, FoundFile,
    };
    let shard = written(&offers());
    let tag = tag();
    assert_eq!(judge(&tag, &shard), read(&shard, 48).1);
    assert_eq!(judge(&tag, &shard[..48]), Err(refused(1, 48)));
    let chunk = FoundChunk {
        block: BlockNumber(0),
        index: ChunkIndex(1),
        position: Position(528),
    };
    let file = FoundFile {
        file: FileNumber(1),
        position: Position(288),
    };
    assert_eq!(find_chunk(&tag, &shard, hash(32)), Ok(Some(chunk)));
    assert_eq!(find_chunk(&tag, &shard, hash(20)), Ok(None));
    assert_eq!(find_file(&tag, &shard, hash(20)), Ok(Some(file)));
    assert_eq!(find_file(&tag, &shard, hash(32)), Ok(None));
    assert_eq!(find_chunk(&tag, &[], hash(0)), Err(refused(1, 0)));
    assert_eq!(find_file(&[], &shard, hash(0)), Err(refused(2, 0)));
}
