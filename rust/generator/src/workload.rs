//! Accepted trails for timing. Each has a fixed seed.

use crate::good::{record_bytes, token_bytes, token_with};
use crate::rng::Rng;
use crate::token_args::good_args;
use reference::{Header, WriteToken};
use std::ops::RangeInclusive;

/// What a workload says of a record: its header's number, the address in it,
/// and its body.
struct Parts {
    number: u8,
    address: Vec<u8>,
    body: Vec<u8>,
}

/// A record whose header has no address.
fn plain(number: u8, body: Vec<u8>) -> Parts {
    Parts {
        number,
        address: Vec::new(),
        body,
    }
}

/// Records of one kind until the trail has `bytes` bytes or more.
fn trail_of(seed: u64, bytes: usize, mut record: impl FnMut(&mut Rng) -> Parts) -> Vec<u8> {
    let mut rng = Rng::new(seed);
    let mut trail = Vec::with_capacity(bytes.saturating_add(65_535));
    while trail.len() < bytes {
        let parts = record(&mut rng);
        let header = Header {
            number: parts.number,
            version: 11,
            event: rng.below(45_000) as u16,
            modifier: 0,
            address: &parts.address,
            seconds: rng.between(1_600_000_000, 1_900_000_000) as u64,
            nanoseconds: rng.below(1_000_000_000) as u64,
        };
        trail.extend(record_bytes(&header, &parts.body));
    }
    trail
}

/// Printable bytes.
fn printable(rng: &mut Rng, length: usize) -> Vec<u8> {
    let mut text = rng.bytes(length);
    for byte in &mut text {
        *byte = b"abcdefghijklmnopqrstuvwxyz/._-0123456789"[*byte as usize % 40];
    }
    text
}

/// Small records, 25 to 59 bytes each, of both headers.
pub fn small_records(bytes: usize) -> Vec<u8> {
    trail_of(1, bytes, |rng| {
        let number = rng.pick(&[0x14, 0x14, 0x14, 0x74]);
        let mut body = Vec::new();
        for _ in 0..rng.below(4) {
            let new = match rng.below(6) {
                0 => {
                    let length = rng.below(20);
                    let text = printable(rng, length);
                    token_with(WriteToken::Text { text: &[] }, text)
                }
                kind => token_bytes(&good_args(rng, [0x27, 0x27, 0x2F, 0x2C, 0x52, 0x2A][kind])),
            };
            if body.len() + new.len() <= 26 {
                body.extend(new);
            }
        }
        plain(number, body)
    })
}

/// The body of a usual record: a subject with this number, path, text,
/// return32.
fn usual_body(rng: &mut Rng, subject: u8) -> Vec<u8> {
    let path_length = rng.between(29, 119);
    let text_length = rng.between(44, 104);
    let mut path = printable(rng, path_length);
    path[0] = b'/';
    let text = printable(rng, text_length);
    let mut body = token_bytes(&good_args(rng, subject));
    body.extend(token_with(WriteToken::Path { text: &[] }, path));
    body.extend(token_with(WriteToken::Text { text: &[] }, text));
    body.extend(token_bytes(&good_args(rng, 0x27)));
    body
}

/// Usual records, 150 to 300 bytes each: subject32, path, text, return32.
pub fn usual_records(bytes: usize) -> Vec<u8> {
    trail_of(2, bytes, |rng| plain(0x14, usual_body(rng, 0x24)))
}

/// Usual records with expanded headers and subjects, of either width and
/// either length of an address: 160 to 350 bytes each.
pub fn expanded_records(bytes: usize) -> Vec<u8> {
    trail_of(7, bytes, |rng| {
        let length = rng.pick(&[4, 16]);
        let subject = rng.pick(&[0x7A, 0x7C]);
        Parts {
            number: rng.pick(&[0x15, 0x79]),
            address: rng.bytes(length),
            body: usual_body(rng, subject),
        }
    })
}

/// Records with one exec_env token of about 60,000 bytes, its strings 10 to
/// 80 bytes long.
pub fn large_exec(bytes: usize) -> Vec<u8> {
    trail_of(3, bytes, |rng| {
        let mut strings = Vec::new();
        let mut count = 0;
        while strings.len() < 60_000 {
            let length = rng.between(10, 80);
            let mut text = printable(rng, length);
            text[rng.between(3, 8)] = b'=';
            strings.extend(text);
            strings.push(0);
            count += 1;
        }
        let fields = WriteToken::ExecEnv {
            count,
            strings: &[],
        };
        plain(0x14, token_with(fields, strings))
    })
}

/// Records with one exec_args token, or one exec_env token where `env` says
/// so, whose strings, with their zero bytes, have about `size` bytes.
/// `lengths` are those of a string without its zero byte.
pub fn exec_records(
    bytes: usize,
    env: bool,
    size: RangeInclusive<usize>,
    lengths: RangeInclusive<usize>,
) -> Vec<u8> {
    trail_of(5, bytes, |rng| {
        let size = rng.between(*size.start(), *size.end());
        let mut strings = Vec::new();
        let mut count = 0;
        while strings.len() < size {
            let length = rng.between(*lengths.start(), *lengths.end());
            strings.extend(printable(rng, length));
            strings.push(0);
            count += 1;
        }
        let strings_of = if env {
            |count, strings| WriteToken::ExecEnv { count, strings }
        } else {
            |count, strings| WriteToken::ExecArgs { count, strings }
        };
        plain(0x14, token_with(strings_of(count, &[]), strings))
    })
}

/// Records with one text token; its text has one of these lengths, its zero
/// byte included.
pub fn text_records(bytes: usize, lengths: RangeInclusive<usize>) -> Vec<u8> {
    trail_of(6, bytes, |rng| {
        let length = rng.between(*lengths.start(), *lengths.end());
        let text = printable(rng, length - 1);
        plain(0x14, token_with(WriteToken::Text { text: &[] }, text))
    })
}

/// Records with one opaque token of 60,000 bytes.
pub fn large_opaque(bytes: usize) -> Vec<u8> {
    trail_of(4, bytes, |rng| {
        let bytes = rng.bytes(60_000);
        plain(0x14, token_with(WriteToken::Opaque { bytes: &[] }, bytes))
    })
}
