//! Nothing that a trail holds, and nothing in a file's name, reaches the
//! output raw.

use crate::run::*;
use crate::trails::*;
use bsm::{write_file, NewToken, Token};
use generator::{damage, good_trail, random_trail, Rng};
use std::ffi::OsStr;
use std::os::unix::ffi::OsStrExt;

/// Asserts that there is nothing but printable ASCII, line feeds and, in a
/// listing, tabs.
fn printable(what: &str, bytes: &[u8]) {
    let raw =
        |&byte: &u8| !matches!(byte, b' '..=b'~' | b'\n') && (byte != b'\t' || what != "list");
    let at = bytes.iter().position(raw);
    assert_eq!(at, None, "{what}: {:?}", at.map(|at| bytes[at]));
}

const WAYS: [&[&str]; 6] = [
    &["print"],
    &["print", "--json"],
    &["list"],
    &["follow"],
    &["follow", "--json"],
    &["follow", "--list"],
];

fn shown(trail: &[u8]) {
    for words in WAYS {
        let ended = fed(bsm(words), trail);
        let what = if words.contains(&"--list") {
            "list"
        } else {
            words[0]
        };
        printable(what, &ended.stdout);
        printable("said", ended.stderr.as_bytes());
        assert_eq!(ended.status, status_of(trail));
    }
}

/// A file token with this name.
fn file(name: &[u8]) -> Vec<u8> {
    let mut file = vec![0; 2_000];
    let size = write_file(&mut file, 1, 2, name).expect("a good file token");
    file.truncate(size);
    file
}

#[test]
fn every_byte_in_every_text() {
    shown(&tokens_trail());
    shown(&file(STEERING));
    let mut trail = Vec::new();
    for byte in 1..=255 {
        let text = [b'a', byte, b'b'];
        let strings = [&text[..], b"\0"].concat();
        let strings = bsm::Strings {
            count: 1,
            bytes: &strings,
        };
        let tokens: [NewToken<'_>; 6] = [
            Token::Path { text: &text },
            Token::Text { text: &text },
            Token::Opaque { bytes: &text },
            Token::Arg32 {
                argument: 1,
                value: 2,
                text: &text,
            },
            Token::ExecArgs(strings),
            Token::ExecEnv(strings),
        ];
        trail.extend(file(&text));
        trail.extend(record(&header(1, 2), &tokens));
    }
    shown(&trail);
}

#[test]
fn random_and_damaged_trails() {
    let mut rng = Rng::new(821);
    for _ in 0..40 {
        let mut trail = good_trail(&mut rng, 20);
        shown(&trail);
        damage(&mut rng, &mut trail);
        shown(&trail);
        shown(&random_trail(&mut rng));
    }
}

/// In headings, in what is said, and in JSON. The trail is refused at its
/// end, so that following it ends.
#[test]
fn names_of_files() {
    let scratch = Scratch::new();
    let name = OsStr::from_bytes(b"\x1b[2J\n\r\x7f\xff\xc2\x9b.trail");
    scratch.file(name, &[&tokens_trail()[..], b"\x13"].concat());
    let missing = OsStr::from_bytes(b"\x1b]0;gone\x07");
    let option = OsStr::from_bytes(b"--\x1b[1m");
    for way in WAYS {
        let mut words: Vec<&OsStr> = way.iter().map(OsStr::new).collect();
        words.extend([option, name]);
        // One file can be followed at a time.
        let follows = words[0] == "follow";
        if !follows {
            words.extend([missing, name]);
        }
        let ended = ended(scratch.bsm(&words));
        let listing = way.contains(&"list") || way.contains(&"--list");
        printable(if listing { "list" } else { "other" }, &ended.stdout);
        printable("said", ended.stderr.as_bytes());
        assert_eq!(ended.status, 2);
        let lines = if follows { 2 } else { 4 };
        assert_eq!(ended.stderr.lines().count(), lines, "{}", ended.stderr);
    }
}
