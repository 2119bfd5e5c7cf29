//! README.md's examples, as they stand there: the one in Rust is a part of this file, the one in C of `readme.c`, which is compiled
//! where a C compiler is found. Both are run on samples.

use melagbosun::{Reader, Record, Summary};

fn read_shard(
    tag: &[u8],
    mut input: impl std::io::Read,
    mut take: impl FnMut(Record),
) -> Result<Summary, Box<dyn std::error::Error>> {
    let mut reader = Reader::new(tag);
    let mut piece = [0; 4096];
    loop {
        match input.read(&mut piece)? {
            0 => return Ok(reader.verdict()?),
            n => reader.read(&piece[..n], &mut take)?,
        }
    }
}

use std::path::{Path, PathBuf};
use std::process::Command;
use std::{env, fs};

/// A sample, how many records it hands out, how many bytes these have, and what is said of it last.
const SAMPLES: [(&str, usize, usize, &str); 5] = [
    ("test/empty", 3, 144, "ok 144"),
    ("test/everything", 23, 1256, "ok 1256"),
    ("real/truthful", 25, 1352, "ok 1352"),
    ("test/evening", 8, 384, "ok 384"),
    ("test/damaged", 3, 144, "refused 10 at 144"),
];

fn top() -> PathBuf {
    Path::new(env!("CARGO_MANIFEST_DIR")).join("..")
}

/// The path of a sample, and that of its tag.
fn paths(name: &str) -> [PathBuf; 2] {
    let shard = top().join("samples").join(name).with_extension("shard");
    [shard.with_file_name("tag.bin"), shard]
}

/// What README.md shows in this language under this heading.
fn example<'a>(readme: &'a str, heading: &str, language: &str) -> &'a str {
    let (_, section) = readme.split_once(heading).expect("the heading");
    let fence = format!("```{language}\n");
    let (_, block) = section.split_once(&fence).expect("an example");
    block.split_once("```").expect("its end").0
}

#[test]
fn the_examples_stand_here() {
    let readme = fs::read_to_string(top().join("README.md")).expect("README.md");
    let rust = example(&readme, "\n## From Rust\n", "rust");
    assert!(include_str!("readme.rs").contains(rust), "{rust}");
    let c = example(&readme, "\n## From C\n", "c");
    assert!(include_str!("readme.c").contains(c), "{c}");
}

#[test]
fn the_example_in_rust() {
    for (name, records, _, last) in SAMPLES {
        let [tag, shard] = paths(name).map(|path| fs::read(path).expect("a sample"));
        let mut found = 0;
        let read = read_shard(&tag, &shard[..], |_| found += 1);
        let said = match read {
            Ok(summary) => summary.to_string(),
            Err(error) => error.to_string(),
        };
        let mut parts = said.lines().flat_map(|line| line.split(':'));
        assert!(parts.any(|part| part == last), "{name}: {said}");
        assert_eq!(found, records, "{name}");
    }
}

/// The compiled `readme.c`, unless there is no C compiler.
fn compiled() -> Option<PathBuf> {
    let compiler = env::var_os("CC").unwrap_or("cc".into());
    Command::new(&compiler).arg("--version").output().ok()?;
    let program = Path::new(env!("CARGO_TARGET_TMPDIR")).join("readme");
    let made = Command::new(compiler)
        .args(["-std=c11", "-Wall", "-Wextra", "-Werror", "-O2", "-I"])
        .arg(top().join("include"))
        .arg(Path::new(env!("CARGO_MANIFEST_DIR")).join("tests/readme.c"))
        .arg(concat!("-L", env!("MELAGBOSUN_FOLDER")))
        .args(["-lmelagbosun", "-o"])
        .arg(&program)
        .output();
    let made = made.expect("the compiler runs");
    let said = String::from_utf8_lossy(&made.stderr);
    assert!(made.status.success(), "{said}");
    Some(program)
}

#[test]
fn the_example_in_c() {
    let Some(program) = compiled() else {
        return println!("there is no C compiler here: readme.c was not compiled");
    };
    for (name, records, copied, last) in SAMPLES {
        let ran = Command::new(&program).args(paths(name)).output();
        let ran = ran.expect("it runs");
        let wanted = format!("records {records}\ncopied {copied}\n{last}\n");
        assert_eq!(String::from_utf8_lossy(&ran.stdout), wanted, "{name}");
        assert_eq!(ran.status.success(), last.starts_with("ok"), "{name}");
    }
}
