//! Lists the records of a shard: `list SHARD`, with the tag in `tag.bin` beside the shard.

use melagbosun::{Hash, Reader, Record};
use std::path::PathBuf;
use std::process::ExitCode;
use std::{env, error::Error, fs};

/// The hash of a record, shortened, and its other fields.
fn columns(record: &Record) -> (String, String) {
    let short = |hash: &Hash| format!("{:.12}…", hash.to_string());
    match record {
        Record::Header {
            tag,
            version,
            footer_size,
            ..
        } => (
            short(tag),
            format!("version {version}, footer size {footer_size}"),
        ),
        Record::FileHead {
            hash,
            flags,
            entries,
            ..
        } => (
            short(hash),
            format!("flags {flags:#010x}, entries {entries}"),
        ),
        Record::Segment {
            hash,
            bytes,
            start,
            end,
            ..
        } => (
            short(hash),
            format!("bytes {bytes}, chunks {} to {}", start.0, end.0),
        ),
        Record::Verification { hash, .. } | Record::Metadata { hash, .. } => {
            (short(hash), String::new())
        }
        Record::XorbHead {
            hash,
            entries,
            bytes,
            on_disk,
            ..
        } => (
            short(hash),
            format!("entries {entries}, bytes {bytes}, on disk {on_disk}"),
        ),
        Record::Chunk {
            hash, start, bytes, ..
        } => (short(hash), format!("start {start}, bytes {bytes}")),
        Record::Bookend { .. } => ("-".into(), String::new()),
        Record::Footer {
            xorb_offset,
            key,
            created,
            expiry,
            ..
        } => (
            short(key),
            format!("xorbs at {xorb_offset}, created {created}, expiry {expiry}"),
        ),
    }
}

fn show(record: &Record) {
    let (hash, fields) = columns(record);
    let line = format!(
        "{:>10}  {:<13} {hash:<14} {fields}",
        record.position(),
        record.kind()
    );
    println!("{}", line.trim_end());
}

fn run() -> Result<(), Box<dyn Error>> {
    let path = PathBuf::from(env::args_os().nth(1).ok_or("usage: list SHARD")?);
    let tag = fs::read(path.with_file_name("tag.bin")).unwrap_or_default();
    let shard = fs::read(&path).map_err(|error| format!("{}: {error}", path.display()))?;
    let mut reader = Reader::new(&tag);
    println!("  position  kind          hash           fields");
    for piece in shard.chunks(4096) {
        reader.read(piece, |record| show(&record))?;
    }
    println!("ok {}", reader.verdict()?.length);
    Ok(())
}

fn main() -> ExitCode {
    match run() {
        Ok(()) => ExitCode::SUCCESS,
        Err(error) => {
            println!("{error}");
            ExitCode::FAILURE
        }
    }
}
