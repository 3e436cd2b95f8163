//! The stored files of the program bsmlist are what the generator makes.

use generator::{stored_files, StoredFile};
use std::collections::BTreeMap;
use std::fs;
use std::path::Path;

const AGAIN: &str = "run `cargo run --offline --release -p generator --bin stored` in rust/ \
                     and look at what `git diff` shows";

/// The files in the repository, by their paths below crates/bsmlist.
fn found() -> BTreeMap<String, Vec<u8>> {
    let folder = Path::new(env!("CARGO_MANIFEST_DIR")).join("../../crates/bsmlist");
    let data = fs::read_dir(folder.join("data")).expect("a folder data");
    let names = data.map(|entry| entry.expect("an entry").file_name());
    let mut paths: Vec<String> = names
        .map(|name| format!("data/{}", name.to_string_lossy()))
        .collect();
    paths.extend(["args", "stdin", "stdout"].map(String::from));
    paths
        .into_iter()
        .map(|path| {
            let bytes = fs::read(folder.join(&path)).unwrap_or_else(|error| {
                panic!("crates/bsmlist/{path}: {error}: {AGAIN}");
            });
            (path, bytes)
        })
        .collect()
}

#[test]
fn stored_files_are_as_generated() {
    let mut found = found();
    for StoredFile { path, bytes } in stored_files() {
        let same = found.remove(&path) == Some(bytes);
        assert!(same, "crates/bsmlist/{path} is not as generated: {AGAIN}");
    }
    let left: Vec<_> = found.keys().collect();
    assert!(left.is_empty(), "{left:?} are not generated: {AGAIN}");
}

/// Each name with a number is refused with it, whatever the layouts.
#[test]
fn names_tell_the_refusal() {
    for StoredFile { path, bytes } in stored_files() {
        let Some(name) = path.strip_prefix("data/") else {
            continue;
        };
        let output = reference::program_output(&bytes);
        let output = String::from_utf8(output).expect("a listing is text");
        let last = output.lines().last().expect("a listing has lines");
        let start = match name.strip_prefix("no") {
            Some(rest) => {
                let number = rest.split('_').next().expect("a number");
                format!("X\t{number}\t")
            }
            None => match name {
                "empty" | "mixed" | "cut_13" | "expanded" | "size_65536" => "E\t".into(),
                "size_65537" => "X\t12\t65536\t0".into(),
                _ => "X\t1\t".into(),
            },
        };
        assert!(last.starts_with(&start), "{name}: {last}");
    }
}
