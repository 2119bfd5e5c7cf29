//! Lists the entries of a blob file: `blobs FILE`. It prints the position, the digits and the data length of each, and then how many
//! entries there are and how many bytes of data; or those before the first that is refused, and the refusal.

use melagbosun::blobs::{entries, scan, Tally};
use std::path::PathBuf;
use std::process::ExitCode;
use std::{env, error::Error, fs};

fn run() -> Result<Tally, Box<dyn Error>> {
    let path = PathBuf::from(env::args_os().nth(1).ok_or("usage: blobs FILE")?);
    let file = fs::read(&path).map_err(|error| format!("{}: {error}", path.display()))?;
    println!("  position  {:64}       bytes", "digits");
    let mut at = 0;
    for entry in entries(&file) {
        let entry = entry?;
        let (digits, bytes) = (entry.digits.escape_ascii(), entry.data.len());
        println!("{at:>10}  {digits}  {bytes:>10}");
        at = entry.next.0;
    }
    Ok(scan(&file)?)
}

fn main() -> ExitCode {
    match run() {
        Ok(tally) => {
            println!("entries {}", tally.entries);
            println!("bytes {}", tally.bytes);
            ExitCode::SUCCESS
        }
        Err(error) => {
            println!("{error}");
            ExitCode::FAILURE
        }
    }
}
