//! Audits a shard: `audit SHARD`, with the tag in `tag.bin` beside the shard. It prints how many segments name a xorb that the
//! shard lists and how many name another, or the refusal.

use melagbosun::{audit, Audited};
use std::path::PathBuf;
use std::process::ExitCode;
use std::{env, error::Error, fs};

fn run() -> Result<Audited, Box<dyn Error>> {
    let path = PathBuf::from(env::args_os().nth(1).ok_or("usage: audit SHARD")?);
    let tag = fs::read(path.with_file_name("tag.bin")).unwrap_or_default();
    let shard = fs::read(&path).map_err(|error| format!("{}: {error}", path.display()))?;
    Ok(audit(&tag, &shard)?)
}

fn main() -> ExitCode {
    match run() {
        Ok(audited) => {
            println!("listed {}", audited.listed);
            println!("unlisted {}", audited.unlisted);
            ExitCode::SUCCESS
        }
        Err(error) => {
            println!("{error}");
            ExitCode::FAILURE
        }
    }
}
