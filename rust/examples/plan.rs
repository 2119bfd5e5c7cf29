//! Prints what to fetch for a stretch of one file: `plan SHARD FILE FROM TO`, with the tag in `tag.bin` beside the shard.
//! FILE counts from 0; the stretch is the file's bytes from FROM up to but not including TO.

use melagbosun::{plan, FetchRow, FileNumber};
use std::path::PathBuf;
use std::process::ExitCode;
use std::{env, error::Error, fs};

const USAGE: &str = "usage: plan SHARD FILE FROM TO";

fn show(row: &FetchRow) {
    let xorb = format!("{:.12}…", row.xorb.to_string());
    let chunks = format!("{} to {}", row.start.0, row.end.0);
    println!("{xorb}  {chunks:>13}  {:>10}  {:>10}", row.skip, row.take);
}

fn run() -> Result<(), Box<dyn Error>> {
    let arguments: Vec<String> = env::args().skip(1).collect();
    let [path, file, from, to] = &arguments[..] else {
        return Err(USAGE.into());
    };
    let path = PathBuf::from(path);
    let file = FileNumber(file.parse().map_err(|_| USAGE)?);
    let range = from.parse().map_err(|_| USAGE)?..to.parse().map_err(|_| USAGE)?;
    let tag = fs::read(path.with_file_name("tag.bin")).unwrap_or_default();
    let shard = fs::read(&path).map_err(|error| format!("{}: {error}", path.display()))?;
    let rows = plan(&tag, &shard, file, range)?;
    println!("xorb                  chunks        skip        take");
    rows.iter().for_each(show);
    let bytes: u64 = rows.iter().map(|row| u64::from(row.take)).sum();
    println!("{bytes} bytes in {} rows", rows.len());
    Ok(())
}

fn main() -> ExitCode {
    match run() {
        Ok(()) => ExitCode::SUCCESS,
        Err(error) => {
            println!("{error}");
            ExitCode::FAILURE
        }
    }
}
