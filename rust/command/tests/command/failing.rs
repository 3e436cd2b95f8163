//! Where the output cannot be written.

use crate::run::*;
use crate::trails::*;
use std::fs::File;
use std::io::{pipe, Read};
use std::process::{Command, Stdio};

const WAYS: [&[&str]; 7] = [
    &["print"],
    &["print", "--json"],
    &["list"],
    &["newest"],
    &["record", "0-9999"],
    &["follow"],
    &["follow", "--list"],
];

/// A trail that prints to more than a pipe holds.
fn long_trail() -> Vec<u8> {
    let trail = tokens_trail().repeat(2_000);
    assert!(reference::listing(&trail).len() > 100_000);
    trail
}

fn to_full_disk(mut command: Command, input: &[u8]) -> Ended {
    let full = File::options().write(true).open("/dev/full");
    let scratch = Scratch::new();
    let input = File::open(scratch.file("input", input)).expect("it was written");
    command.stdin(input);
    command.stdout(full.expect("a device that is always full"));
    outcome(started(command))
}

#[test]
fn full_disk() {
    for words in WAYS {
        for trail in [&tokens_trail(), &long_trail()] {
            let ended = to_full_disk(bsm(words), trail);
            let said = "bsm: standard output: No space left on device\n";
            assert_eq!((ended.status, &ended.stderr[..]), (2, said), "{words:?}");
        }
    }
    let help = to_full_disk(bsm(["help"]), b"");
    assert_eq!(help.status, 2);
    let help = to_full_disk(bsm(["help", "print"]), b"");
    assert_eq!(help.status, 2);
}

/// One file after the other is not tried where nothing can be written.
#[test]
fn full_disk_ends_it() {
    let scratch = Scratch::new();
    let name = scratch.file("trail", &long_trail());
    let mut command = bsm(["list"]);
    command.args([&name, &name, &name]);
    let ended = to_full_disk(command, b"");
    assert_eq!(ended.stderr.lines().count(), 1, "{}", ended.stderr);
    assert_eq!(ended.status, 2);
}

/// A reader that has seen enough: nothing is said.
#[test]
fn closed_pipe() {
    let scratch = Scratch::new();
    let name = scratch.file("trail", &long_trail());
    for words in WAYS {
        for seen in [0, 1_000] {
            let (mut reader, writer) = pipe().expect("a pipe");
            let mut command = bsm(words);
            command.arg(&name).stdin(Stdio::null()).stdout(writer);
            let child = started(command);
            reader.read_exact(&mut vec![0; seen]).expect("it writes");
            drop(reader);
            let ended = outcome(child);
            assert_eq!((ended.status, &ended.stderr[..]), (141, ""), "{words:?}");
        }
    }
}

/// Also while nothing comes that could be written.
#[test]
fn closed_pipe_of_a_waiting_follow() {
    let scratch = Scratch::new();
    let trail = tokens_trail();
    let name = scratch.file("trail", &trail[..trail.len() - 1]);
    let (mut reader, writer) = pipe().expect("a pipe");
    let mut command = bsm(["follow", "--list"]);
    command.arg(&name).stdin(Stdio::null()).stdout(writer);
    let child = started(command);
    reader.read_exact(&mut [0; 11]).expect("it writes");
    drop(reader);
    let ended = outcome(child);
    assert_eq!((ended.status, &ended.stderr[..]), (141, ""));
}
