//! Links `libmelagbosun.a` from the folder `MELAGBOSUN_LIB`, or from `../target/staticlib`; tests find its name in `MELAGBOSUN_FOLDER`.

use std::path::PathBuf;
use std::{env, fs};

fn main() {
    println!("cargo::rerun-if-env-changed=MELAGBOSUN_LIB");
    let target = env::var("CARGO_CFG_TARGET_ARCH").unwrap_or_default();
    let given = env::var_os("MELAGBOSUN_LIB");
    if target != "x86_64" && given.is_none() {
        return println!(
            "cargo::error=the library is x86-64 code and cannot be linked for {target}; set MELAGBOSUN_LIB to the folder of one that can"
        );
    }
    let folder = PathBuf::from(given.unwrap_or_else(|| "../target/staticlib".into()));
    let archive = folder.join("libmelagbosun.a");
    println!("cargo::rerun-if-changed={}", archive.display());
    match fs::canonicalize(&archive) {
        Err(error) => println!(
            "cargo::error={}: {error}; run `./archive` at the top of the repository first, or set MELAGBOSUN_LIB to the archive's folder",
            archive.display()
        ),
        Ok(path) => {
            let folder = path.parent().unwrap_or(&folder).display();
            println!("cargo::rustc-link-search=native={folder}");
            println!("cargo::rustc-link-lib=static=melagbosun");
            println!("cargo::rustc-env=MELAGBOSUN_FOLDER={folder}");
        }
    }
}
