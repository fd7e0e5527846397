//! Links the library. RAWPLINTH_LIB is the folder that holds it.

use std::{env, fs};

fn main() {
    println!("cargo::rerun-if-env-changed=RAWPLINTH_LIB");
    let folder =
        env::var("RAWPLINTH_LIB").expect("RAWPLINTH_LIB names the folder of librawplinth.a; `make bench` sets it");
    let archive = format!("{folder}/librawplinth.a");
    let archive = fs::canonicalize(&archive).unwrap_or_else(|error| panic!("RAWPLINTH_LIB: {archive}: {error}"));
    println!("cargo::rerun-if-changed={}", archive.display());
    println!("cargo::rustc-link-search=native={}", archive.parent().expect("a file has a folder").display());
    println!("cargo::rustc-link-lib=static=rawplinth");
}
