//! Which byte spoils a text, as it is said of a trail that is refused with 8.

use crate::run::*;
use crate::trails::*;
use bsm::{write_file, HeaderKind, Token};
use generator::raw_file;
use std::mem::replace;
use std::ops::Range;

/// A file token and two records that have all kinds of texts, no two alike.
fn trail() -> Vec<u8> {
    let mut file = [0; 60];
    let size = write_file(&mut file, 5, 7, b"20251115.trail").expect("room");
    let (argument, value) = (1, 0);
    let arg32 = Token::Arg32 {
        argument,
        value,
        text: b"flags",
    };
    let arg64 = Token::Arg64 {
        argument,
        value: 0,
        text: b"offset",
    };
    let path = Token::Path {
        text: b"/bookings/4711",
    };
    let text = Token::Text { text: b"x" };
    let mut wide = header(2, 6);
    wide.kind = HeaderKind::Header64;
    let seq = Token::Seq { sequence: 0 };
    [
        file[..size].to_vec(),
        record(&header(1, 5), &[seq, path, arg32]),
        record(&wide, &[arg64, seq, text]),
        raw_file(5, 7, 1, b"\0"),
    ]
    .concat()
}

/// The texts of the trail: where the item starts, and where the text stands
/// with its zero byte.
fn texts(trail: &[u8]) -> Vec<(usize, Range<usize>)> {
    let items: Vec<_> = bsm::Items::new(trail, bsm::State::default()).collect();
    let starts: Vec<usize> = items
        .iter()
        .map(|item| item.as_ref().expect("a good trail").0)
        .collect();
    let known: [(&[u8], usize); 5] = [
        (b"20251115.trail\0", 0),
        (b"/bookings/4711\0", 1),
        (b"flags\0", 1),
        (b"offset\0", 2),
        (b"\x28\0\x02x\0", 2),
    ];
    let mut found: Vec<_> = known
        .iter()
        .map(|&(text, item)| {
            let mut parts = trail.windows(text.len());
            let start = parts.position(|part| part == text).expect("it is there");
            let skip = if text[0] == 0x28 { 3 } else { 0 };
            (starts[item], start + skip..start + text.len())
        })
        .collect();
    found.push((starts[3], trail.len() - 1..trail.len()));
    found
}

/// Runs the command on trails, and compares what is said of each.
fn said(trails: &[(Vec<u8>, String, usize)]) {
    let scratch = Scratch::new();
    let mut names = vec!["print".to_string()];
    let mut expected = String::new();
    for (i, (trail, words, place)) in trails.iter().enumerate() {
        names.push(i.to_string());
        scratch.file(i.to_string(), trail);
        let numbers = format!("(refusal 8, place {place}, need 0)");
        expected +=
            &format!("bsm: {i}: refused: bad text in the item at place {words} {numbers}\n");
    }
    let ended = ended(scratch.bsm(&names));
    assert_eq!(ended.stderr, expected);
    assert_eq!(ended.status, 1);
}

fn early(item: usize, place: usize) -> String {
    format!("{item}: the zero byte at place {place} stands before the text's end")
}

fn last(item: usize, place: usize, byte: u8) -> String {
    format!("{item}: its last byte, at place {place}, is 0x{byte:02x}, not zero")
}

#[test]
fn every_byte_of_every_text() {
    let mut trail = trail();
    assert_eq!(status_of(&trail), 0);
    let mut trails = Vec::new();
    for (item, text) in texts(&trail) {
        let end = text.end - 1;
        for at in text.start..end {
            let old = replace(&mut trail[at], 0);
            trails.push((trail.clone(), early(item, at), at));
            trail[at] = old;
        }
        for byte in [1, b'A', 0x80, 0xFF] {
            trail[end] = byte;
            trails.push((trail.clone(), last(item, end, byte), end));
        }
        trail[end] = 0;
    }
    // Five texts of 14, 14, 5, 6 and 1 bytes before the last, and an empty one.
    assert_eq!(trails.len(), 14 + 14 + 5 + 6 + 1 + 6 * 4);
    said(&trails);
}

/// The first of two, and zero bytes and ones where they could be taken for a
/// length.
#[test]
fn several_bytes_of_a_text() {
    let mut trails = Vec::new();
    for (item, text) in texts(&trail()) {
        let size = text.len();
        for pattern in [
            &b"\0\0"[..],
            b"\0\x01",
            b"\0\0\0",
            b"a\0\0",
            b"\x04\0\x01\0",
        ] {
            if pattern.len() > size {
                continue;
            }
            let mut trail = trail();
            trail[text.start..][..pattern.len()].copy_from_slice(pattern);
            let zero = text.start + pattern.iter().position(|&byte| byte == 0).expect("one");
            if zero + 1 < text.end {
                trails.push((trail.clone(), early(item, zero), zero));
                trail[text.end - 1] = 0xFF;
                trails.push((trail, early(item, zero), zero));
            }
        }
    }
    assert!(trails.len() > 40, "{}", trails.len());
    said(&trails);
}

/// A length of 0 in each kind of text, also at the end of a body.
#[test]
fn lengths_of_0() {
    let mut trails = Vec::new();
    for (item, text) in texts(&trail()) {
        let mut trail = trail();
        let length = text.start - 2;
        trail[length..text.start].fill(0);
        let words = format!("{item}: its length, at place {length}, is 0");
        trails.push((trail, words, length));
    }
    assert_eq!(trails.len(), 6);
    said(&trails);
}

#[test]
fn names_too_long() {
    let before = trail();
    let item = before.len();
    let place = item + 9;
    let mut trails = Vec::new();
    for length in [1_025, 1_026, 1_279, 1_280, 0x0500, 0x8000, 0xFF00, 0xFFFF] {
        for name in [&b""[..], b"\0", b"a\0", &[b'n'; 600]] {
            let trail = [&before[..], &raw_file(5, 7, length, name)].concat();
            let words = format!(
                "{item}: the file name's length, at place {place}, is {length}, more than 1024"
            );
            trails.push((trail, words, place));
        }
    }
    said(&trails);
}

/// In the largest record, and behind a long trail.
#[test]
fn far_into_a_trail() {
    let text = vec![b't'; 65_507 - 1];
    let large = record(&header(1, 5), &[Token::Text { text: &text }]);
    assert_eq!(large.len(), 65_535);
    let before = large.repeat(3);
    let item = before.len();
    let end = item + large.len() - 8;
    let mut open = [&before[..], &large, &before].concat();
    open[end] = b'!';
    let mut zero = open.clone();
    zero[end - 1] = 0;
    said(&[
        (open, last(item, end, b'!'), end),
        (zero, early(item, end - 1), end - 1),
    ]);
}

/// Following says the same.
#[test]
fn followed_trails() {
    let mut trail = trail();
    let (item, text) = texts(&trail).swap_remove(2);
    let end = text.end - 1;
    trail[end] = b'A';
    let ended = fed(bsm(["follow"]), &trail);
    let words = last(item, end, b'A');
    let line = format!(
        "bsm: standard input: refused: bad text in the item at place {words} \
         (refusal 8, place {end}, need 0)\n"
    );
    assert_eq!((ended.status, ended.stderr), (1, line));
}
