//! The form of the two vector files: cases in, one line each out.

use std::collections::BTreeMap;
use std::path::Path;
use std::{fs, io};

use crate::reader::Verdict;

/// One case of the input file: T, the tag, N little-endian, the shard.
/// The tag is at most 255 bytes.
pub fn encode(tag: &[u8], shard: &[u8]) -> Vec<u8> {
    let mut bytes = vec![u8::try_from(tag.len()).expect("a tag of at most 255 bytes")];
    bytes.extend(tag);
    bytes.extend((shard.len() as u32).to_le_bytes());
    bytes.extend(shard);
    bytes
}

/// Takes one case from the start: tag, shard and what follows.
pub fn decode(bytes: &[u8]) -> Option<(&[u8], &[u8], &[u8])> {
    let (&size, bytes) = bytes.split_first()?;
    let (tag, bytes) = bytes.split_at_checked(usize::from(size))?;
    let (size, bytes) = bytes.split_first_chunk::<4>()?;
    let (shard, left) = bytes.split_at_checked(u32::from_le_bytes(*size) as usize)?;
    Some((tag, shard, left))
}

/// The line of the output file, without its end.
pub fn line(verdict: &Verdict) -> String {
    match verdict {
        Ok(sum) => format!(
            "ok {} files {} segments {} xorbs {} chunks {} bytes {} footer {}",
            sum.length,
            sum.files,
            sum.segments,
            sum.xorbs,
            sum.chunks,
            sum.bytes,
            if sum.footer { "yes" } else { "no" }
        ),
        Err(refusal) => format!("refused {} at {}", refusal.number, refusal.position.0),
    }
}

/// Writes `stdin` and `stdout` into a folder.
pub fn write(folder: &Path, input: &[u8], output: &str) -> io::Result<()> {
    fs::create_dir_all(folder)?;
    fs::write(folder.join("stdin"), input)?;
    fs::write(folder.join("stdout"), output)
}

/// Says how many cases there are and how often each number was seen.
pub fn report(bytes: usize, verdicts: &[Verdict]) {
    let mut counts = BTreeMap::new();
    for verdict in verdicts {
        let number = verdict.err().map_or(0, |refusal| refusal.number);
        *counts.entry(number).or_insert(0_u32) += 1;
    }
    eprintln!("cases {}, input {bytes} bytes", verdicts.len());
    for (number, count) in counts {
        match number {
            0 => eprintln!("accepted: {count}"),
            _ => eprintln!("refused {number}: {count}"),
        }
    }
}
