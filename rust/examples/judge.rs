//! Judges a shard: `judge SHARD`, with the tag in `tag.bin` beside the shard.

use melagbosun::{Reader, Refusal, Summary};
use std::path::PathBuf;
use std::process::ExitCode;
use std::{env, error::Error, fs};

fn judge(tag: &[u8], shard: &[u8]) -> Result<Summary, Refusal> {
    let mut reader = Reader::new(tag);
    for piece in shard.chunks(4096) {
        reader.read(piece, |_| ())?;
    }
    reader.verdict()
}

fn run() -> Result<Summary, Box<dyn Error>> {
    let path = PathBuf::from(env::args_os().nth(1).ok_or("usage: judge SHARD")?);
    let tag = fs::read(path.with_file_name("tag.bin")).unwrap_or_default();
    let shard = fs::read(&path).map_err(|error| format!("{}: {error}", path.display()))?;
    Ok(judge(&tag, &shard)?)
}

fn main() -> ExitCode {
    match run() {
        Ok(summary) => {
            println!("{summary}");
            ExitCode::SUCCESS
        }
        Err(error) => {
            println!("{error}");
            ExitCode::FAILURE
        }
    }
}
