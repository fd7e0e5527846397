//! Links the library under test if its folder is given, and sets the cfg `linked` then.
//!
//! RAWPLINTH_LIB is the folder that holds the static library; RAWPLINTH_LIB_NAME its name without `lib` and `.a`,
//! `rawplinth` if not given. Without RAWPLINTH_LIB the package builds alone.

use std::{env, fs};

fn main() {
    println!("cargo::rerun-if-env-changed=RAWPLINTH_LIB");
    println!("cargo::rerun-if-env-changed=RAWPLINTH_LIB_NAME");
    println!("cargo::rustc-check-cfg=cfg(linked)");
    let Ok(folder) = env::var("RAWPLINTH_LIB") else {
        return;
    };
    let name = env::var("RAWPLINTH_LIB_NAME").unwrap_or_else(|_| "rawplinth".to_string());
    let archive = format!("{folder}/lib{name}.a");
    let archive = fs::canonicalize(&archive).unwrap_or_else(|error| panic!("RAWPLINTH_LIB: {archive}: {error}"));
    let folder = archive.parent().expect("a file has a folder");
    println!("cargo::rerun-if-changed={}", archive.display());
    println!("cargo::rustc-link-search=native={}", folder.display());
    println!("cargo::rustc-link-lib=static={name}");
    println!("cargo::rustc-cfg=linked");
}
