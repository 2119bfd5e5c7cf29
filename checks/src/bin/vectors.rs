//! Writes the vector files `stdin` and `stdout` into the folder given.
//!
//! A second argument, a number, is another seed.

use std::path::Path;
use std::process::ExitCode;
use std::{env, io};

use checks::cases::{catalogue, Case, SEED};
use checks::reader::{judge, Verdict};
use checks::vectors::{self, encode, line};

fn main() -> ExitCode {
    let mut args = env::args().skip(1);
    let Some(folder) = args.next() else {
        eprintln!("usage: vectors FOLDER [SEED]");
        return ExitCode::FAILURE;
    };
    let seed = args.next().map_or(Ok(SEED), |text| text.parse());
    let Ok(seed) = seed else {
        eprintln!("the seed is not a number");
        return ExitCode::FAILURE;
    };
    match write(Path::new(&folder), &catalogue(seed)) {
        Ok(()) => ExitCode::SUCCESS,
        Err(error) => {
            eprintln!("{folder}: {error}");
            ExitCode::FAILURE
        }
    }
}

fn write(folder: &Path, cases: &[Case]) -> io::Result<()> {
    let verdicts: Vec<Verdict> = cases.iter().map(verdict).collect();
    let input: Vec<u8> = cases
        .iter()
        .flat_map(|case| encode(&case.tag, &case.shard))
        .collect();
    let output: String = verdicts.iter().map(|one| line(one) + "\n").collect();
    vectors::write(folder, &input, &output)?;
    vectors::report(input.len(), &verdicts);
    Ok(())
}

/// The reader's verdict, which must be the maker's where that one knows.
fn verdict(case: &Case) -> Verdict {
    let verdict = judge(&case.tag, &case.shard);
    if let Some(expected) = case.expected {
        assert_eq!(verdict, expected, "{}", case.family);
    }
    verdict
}
