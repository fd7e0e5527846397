//! The modules use each other in one direction only.

use std::collections::BTreeMap;
use std::fs;

/// What a source names after `crate::`: one module, or those of a list in braces.
fn uses(source: &str) -> Vec<String> {
    let names = |rest: &str| {
        let end = if rest.starts_with('{') { rest.find(';') } else { rest.find(|c: char| !is_of_name(c)) };
        rest[..end.unwrap_or(rest.len())].split(|c| !is_of_name(c)).map(str::to_string).collect::<Vec<_>>()
    };
    source.split("crate::").skip(1).flat_map(names).collect()
}

fn is_of_name(c: char) -> bool {
    c.is_alphanumeric() || c == '_'
}

#[test]
fn no_modules_use_each_other_in_a_circle() {
    let files = fs::read_dir(concat!(env!("CARGO_MANIFEST_DIR"), "/src")).expect("the sources are there");
    let paths = files.map(|file| file.expect("a source can be read").path()).filter(|path| path.is_file());
    let mut left: BTreeMap<String, Vec<String>> = paths
        .map(|path| {
            let name = path.file_stem().expect("a file has a name").to_string_lossy().to_string();
            (name, uses(&fs::read_to_string(path).expect("a source can be read")))
        })
        .collect();
    // Modules that use none of those left are taken away; of a circle none ever is.
    while let Some(name) = left.iter().find(|(_, uses)| !uses.iter().any(|used| left.contains_key(used))) {
        let name = name.0.clone();
        left.remove(&name);
    }
    assert!(left.is_empty(), "in a circle, or above one: {:?}", left.keys());
}
