//! Writes the files `stdin` and `stdout` of a casebook into the folder given.
//!
//! Three more arguments, numbers: how many cases, the seed, and the first of
//! the cases.

use std::path::Path;
use std::process::ExitCode;
use std::{env, io};

use checks::casebook::{Entry, CASES, SEED};
use checks::reader::Verdict;
use checks::vectors;

fn main() -> ExitCode {
    let mut args = env::args().skip(1);
    let folder = args.next();
    let numbers: Result<Vec<u64>, _> = args.map(|text| text.parse()).collect();
    let (Some(folder), Ok(numbers)) = (folder, numbers) else {
        eprintln!("usage: casebook FOLDER [N [SEED [FIRST]]]");
        return ExitCode::FAILURE;
    };
    let number = |place: usize, usual| numbers.get(place).copied().unwrap_or(usual);
    let first = number(2, 0);
    let entries =
        (first..first + number(0, CASES)).map(|case| Entry::random(number(1, SEED), case));
    match write(Path::new(&folder), entries) {
        Ok(()) => ExitCode::SUCCESS,
        Err(error) => {
            eprintln!("{folder}: {error}");
            ExitCode::FAILURE
        }
    }
}

fn write(folder: &Path, entries: impl Iterator<Item = Entry>) -> io::Result<()> {
    let (mut input, mut output) = (Vec::new(), String::new());
    let mut verdicts: Vec<Verdict> = Vec::new();
    for entry in entries {
        let (lines, verdict) = entry.lines();
        input.extend(entry.encode());
        output += &lines;
        verdicts.push(verdict);
    }
    vectors::write(folder, &input, &output)?;
    vectors::report(input.len(), &verdicts);
    Ok(())
}
