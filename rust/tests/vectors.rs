//! The stored vectors of `replay`, and the run that README.md shows, against what the reference makes of their scripts.
mod common;
use common::replay;
use std::{fs, path::Path};

/// A file of the repository.
fn read(path: &str) -> Vec<u8> {
    let path = Path::new(env!("CARGO_MANIFEST_DIR")).join("..").join(path);
    fs::read(&path).unwrap_or_else(|e| panic!("{}: {e}", path.display()))
}

fn held_to_the_reference(script: &[u8], stored: &[u8]) {
    if let Some(difference) = replay::first_difference(script, stored) {
        panic!("{difference}");
    }
    assert!(stored == replay::output(script), "the answers are the same, and the bytes are not");
}

#[test]
fn the_stored_output_is_what_the_reference_makes() {
    held_to_the_reference(&read("crates/replay/stdin"), &read("crates/replay/stdout"));
}

#[test]
fn the_run_in_the_readme() {
    let readme = String::from_utf8(read("README.md")).expect("README.md is text");
    let (_, run) = readme.split_once("target/bin/replay <<'END'\n").expect("README.md has a run of replay");
    let (script, rest) = run.split_once("END\n").expect("the script ends");
    let (stored, _) = rest.split_once("```").expect("the output ends");
    held_to_the_reference(script.as_bytes(), stored.as_bytes());
}
