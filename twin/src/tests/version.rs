//! The version of the interface is one in all places that name it.

use crate::rawplinth::RAWPLINTH_VERSION;

/// The version that has the calls of the twin.
const VERSION_OF_TWIN: u32 = 14;

#[test]
fn the_declarations_have_the_version_of_the_twin() {
    assert_eq!(RAWPLINTH_VERSION, VERSION_OF_TWIN);
}

#[test]
fn header_and_changes_have_the_version_of_the_declarations() {
    let header = include_str!("../../../include/rawplinth.h");
    let define = format!("#define RAWPLINTH_VERSION {RAWPLINTH_VERSION}");
    assert!(header.lines().any(|line| line == define), "{define}");
    let changes = include_str!("../../../docs/changes/README.md");
    let from_table = changes.lines().skip_while(|line| !line.starts_with("| version "));
    let rows = from_table.take_while(|line| line.starts_with('|')).skip(2);
    let versions = rows.map(|row| row.split('|').nth(1).unwrap_or("").trim().parse());
    assert!(versions.eq((1..=RAWPLINTH_VERSION).map(Ok)), "a line of docs/changes/README.md for each version");
}
