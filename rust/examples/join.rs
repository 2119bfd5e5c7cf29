//! Joins shards into one: `join RESULT SHARD...`, with the tag in `tag.bin` beside the first shard.
//! RESULT is written only once all are joined.

use melagbosun::{join, judge, Summary};
use std::path::{Path, PathBuf};
use std::process::ExitCode;
use std::{env, error::Error, fs};

fn read(path: &Path) -> Result<Vec<u8>, String> {
    fs::read(path).map_err(|error| format!("{}: {error}", path.display()))
}

/// A shard that can be joined. `join` would say so too; it is asked here so that what is said names the file.
fn joinable(tag: &[u8], path: &Path) -> Result<Vec<u8>, String> {
    let shard = read(path)?;
    match join(tag, &[&shard]) {
        Ok(same) => Ok(same),
        Err(refusal) => Err(format!("{}: {refusal}", path.display())),
    }
}

fn run() -> Result<Summary, Box<dyn Error>> {
    let paths: Vec<PathBuf> = env::args_os().skip(1).map(PathBuf::from).collect();
    let [result, first, ..] = &paths[..] else {
        return Err("usage: join RESULT SHARD...".into());
    };
    let tag = fs::read(first.with_file_name("tag.bin")).unwrap_or_default();
    let shards = paths[1..]
        .iter()
        .map(|path| joinable(&tag, path))
        .collect::<Result<Vec<_>, _>>()?;
    let slices: Vec<&[u8]> = shards.iter().map(Vec::as_slice).collect();
    let joined = join(&tag, &slices)?;
    fs::write(result, &joined).map_err(|error| format!("{}: {error}", result.display()))?;
    Ok(judge(&tag, &joined)?)
}

fn main() -> ExitCode {
    match run() {
        Ok(summary) => {
            println!("{summary}");
            ExitCode::SUCCESS
        }
        Err(error) => {
            println!("{error}");
            ExitCode::FAILURE
        }
    }
}
