//! Shards as long as the limit allows: one xorb of many chunks, written and read.

use melagbosun::{Hash, Offer, Position, Reader, Refusal, Summary, Writer};

const TAG: [u8; 32] = [7; 32];

/// One xorb of so many chunks of one byte, with a footer or without, or the writer's refusal.
fn xorb(chunks: u32, footer: bool) -> Result<Vec<u8>, Refusal> {
    let footer_size = if footer { 200 } else { 0 };
    let mut writer = Writer::new(&TAG);
    let mut shard = vec![0; 48 * (chunks as usize + 4) + footer_size];
    let mut at = 0;
    let mut put = |offer| -> Result<(), Refusal> {
        at += writer.put(&offer, &mut shard[at..])?;
        Ok(())
    };
    put(Offer::Header {
        footer_size: footer_size as u64,
    })?;
    put(Offer::SectionEnd)?;
    put(Offer::XorbHead {
        hash: Hash([1; 4]),
        flags: 0,
        entries: chunks,
        bytes: chunks,
        on_disk: 0,
    })?;
    for start in 0..chunks {
        put(Offer::Chunk {
            hash: Hash([u64::MAX; 4]),
            start,
            bytes: 1,
        })?;
    }
    put(Offer::SectionEnd)?;
    if footer {
        put(Offer::Footer {
            key: Hash::default(),
            created: 0,
            expiry: 0,
        })?;
    }
    Ok(shard)
}

fn read(shard: &[u8]) -> Result<Summary, Refusal> {
    let mut reader = Reader::new(&TAG);
    for piece in shard.chunks(4096) {
        reader.read(piece, |_| ())?;
    }
    reader.verdict()
}

#[test]
fn as_many_chunks_as_fit() {
    let largest = [
        (32_767, false),
        (32_768, false),
        (349_521, false),
        (349_517, true),
    ];
    for (chunks, footer) in largest {
        let shard = xorb(chunks, footer).expect("it fits");
        let sum = read(&shard).expect("it fits");
        assert_eq!(sum.length, shard.len() as u64);
        assert!(sum.length <= 16_777_216);
        let (totals, footed) = (sum.totals, sum.footer);
        let found = (totals.files, totals.xorbs, totals.chunks, footed);
        assert_eq!(found, (0, 1, chunks.into(), footer));
    }
}

#[test]
fn one_chunk_more_is_refused() {
    let refusal = Refusal {
        number: 6,
        position: Position(96),
    };
    for (chunks, footer) in [(349_522_u32, false), (349_518, true)] {
        assert_eq!(xorb(chunks, footer), Err(refusal));
        let mut shard = xorb(1, footer).expect("it fits");
        shard[96 + 36..][..4].copy_from_slice(&chunks.to_le_bytes());
        assert_eq!(read(&shard), Err(refusal));
    }
}
