//! The byte that refusal 8 names where a text is to be written (paper 02,
//! P1): its place in what is given.

use crate::placed::{bad_text, lengths, text};
use bsm::{NewToken, Reason, Refusal, Token};
use generator::Rng;
use std::mem::replace;

/// Writes a text into a destination.
type Write = fn(&mut [u8], &[u8]) -> Result<usize, Refusal>;

fn token(dst: &mut [u8], token: NewToken<'_>) -> Result<usize, Refusal> {
    bsm::write_token(dst, &token)
}

/// The writers of tokens with a text, and the sizes of their fixed parts.
const TOKENS: [(Write, usize); 4] = [
    (|dst, text| token(dst, Token::Path { text }), 3),
    (|dst, text| token(dst, Token::Text { text }), 3),
    (|dst, text| token(dst, arg32(text)), 8),
    (|dst, text| token(dst, arg64(text)), 12),
];

const FILE: (Write, usize) = (|dst, name| bsm::write_file(dst, 5, 7, name), 11);

fn arg32(text: &[u8]) -> NewToken<'_> {
    let (argument, value) = (1, 2);
    Token::Arg32 {
        argument,
        value,
        text,
    }
}

fn arg64(text: &[u8]) -> NewToken<'_> {
    let (argument, value) = (1, 2);
    Token::Arg64 {
        argument,
        value,
        text,
    }
}

/// Asserts that a writer answers this whatever the room, and changes nothing.
fn refuses(write: Write, text: &[u8], refusal: Refusal) {
    for room in [0, 11, text.len() + 20] {
        let mut dst = vec![0xA5; room];
        assert_eq!(write(&mut dst, text), Err(refusal));
        assert!(dst.iter().all(|&byte| byte == 0xA5));
    }
}

/// Asserts that a writer takes a text, and 10 without room for it.
fn takes(write: Write, fixed: usize, text: &[u8]) {
    let size = fixed + text.len() + 1;
    assert_eq!(write(&mut vec![0; size], text), Ok(size));
    let small = write(&mut vec![0; size - 1], text).map_err(|refusal| refusal.reason);
    assert_eq!(small, Err(Reason::NoRoom));
}

/// Lengths of texts and names without their zero byte.
fn given() -> impl Iterator<Item = Vec<u8>> {
    lengths().flat_map(|length| {
        [0, 1, 0x80].map(|fill| {
            let mut text = text(fill, length);
            text.pop();
            text
        })
    })
}

#[test]
fn every_byte_of_a_text_to_be_written() {
    let mut bytes = 0;
    for mut text in given() {
        for (write, fixed) in TOKENS.into_iter().chain([FILE]) {
            takes(write, fixed, &text);
            for at in 0..text.len() {
                let old = replace(&mut text[at], 0);
                refuses(write, &text, bad_text(at));
                text[at] = old;
                bytes += 1;
            }
        }
    }
    println!("{bytes} zero bytes given");
    assert_eq!(
        bytes,
        lengths().map(|length| length - 1).sum::<usize>() * 15
    );
}

/// Of several zero bytes the first counts.
#[test]
fn two_bytes_of_a_text_to_be_written() {
    let mut rng = Rng::new(471);
    let mut pairs = 0;
    for mut text in given().filter(|text| text.len() > 1) {
        for (write, _) in TOKENS.into_iter().chain([FILE]) {
            for _ in 0..text.len().min(30) {
                let second = rng.between(1, text.len() - 1);
                let first = rng.below(second);
                let old = [first, second].map(|at| replace(&mut text[at], 0));
                refuses(write, &text, bad_text(first));
                [text[first], text[second]] = old;
                pairs += 1;
            }
        }
    }
    println!("{pairs} pairs given");
    assert!(pairs > 10_000);
}

/// Too long a name reports 0, with a zero byte at any place or without.
#[test]
fn names_too_long_to_be_written() {
    let (write, fixed) = FILE;
    takes(write, fixed, &[b'n'; 1_023]);
    for length in [1_024, 1_025, 1_026, 2_048, 70_000] {
        let mut name = vec![b'n'; length];
        refuses(write, &name, bad_text(0));
        for at in (0..length).step_by(1 + length / 1_500) {
            name[at] = 0;
            assert_eq!(write(&mut [], &name), Err(bad_text(0)));
            name[at] = b'n';
        }
        name[1] = 0;
        refuses(write, &name, bad_text(0));
    }
}

/// 11 comes before 8, with place 0, and 9 before a name's 8.
#[test]
fn refusals_before_a_zero_byte() {
    let refusal = |reason| Refusal {
        reason,
        place: 0,
        need: 0,
    };
    let mut text = vec![b'a'; 65_535];
    for (write, _) in TOKENS {
        for at in [0, 1, 144, 40_000, 65_533, 65_534] {
            text[at] = 0;
            refuses(write, &text, refusal(Reason::TooLarge));
            if at < 65_534 {
                refuses(write, &text[..65_534], bad_text(at));
            }
            text[at] = b'a';
        }
    }
    for name in [&b"\0"[..], b"ab\0", &text] {
        let late: Write = |dst, name| bsm::write_file(dst, 5, 1_000_000, name);
        refuses(late, name, refusal(Reason::TimeRange));
    }
}
