//! Damage to trails and bodies.

use crate::expanded::with_one_byte_type;
use crate::good::token_of;
use crate::layout::{framed, get16, get32, head_size, is_expanded, is_narrow, items, set, shape};
use crate::layout::{tokens, Tail, SUBJECT_NUMBERS, TOKEN_NUMBERS};
use crate::rng::Rng;
use crate::texts::spoil;
use crate::values;

/// Counts of records at their bounds: the smallest ones of each header and of
/// the larger address, with neighbours, and the largest.
pub(crate) const COUNTS: [u32; 15] = [
    0, 24, 25, 32, 33, 34, 40, 41, 44, 45, 52, 53, 65_535, 65_536, 0xFFFFFFFF,
];

/// Bytes that begin items or a trailer.
const STARTS: [u8; 6] = [0x11, 0x13, 0x14, 0x15, 0x74, 0x79];

/// Damages a trail in one to three ways. Now and then it stays good.
pub fn damage(rng: &mut Rng, trail: &mut Vec<u8>) {
    let times = if rng.chance(3) { rng.between(2, 3) } else { 1 };
    for _ in 0..times {
        let found = items(trail);
        if found.is_empty() || rng.chance(4) {
            damage_bytes(rng, trail);
            continue;
        }
        if rng.chance(16) {
            swallow(rng, trail, &found);
            continue;
        }
        let (start, size) = rng.pick(&found);
        match trail[start] {
            0x11 => damage_file(rng, &mut trail[start..start + size]),
            _ => damage_record(rng, trail, start, size),
        }
    }
}

/// Lets an item claim the one behind it too, with a trailer that agrees if
/// that one is a record.
fn swallow(rng: &mut Rng, trail: &mut [u8], found: &[(usize, usize)]) {
    let at = rng.below(found.len());
    if let [(start, size), (next, more), ..] = found[at..] {
        let count = ((size + more) as u32).to_be_bytes();
        set(trail, start + 1, &count);
        set(trail, next + more - 4, &count);
    }
}

/// Damages a body in one or two ways. Now and then it stays good.
pub fn damage_body(rng: &mut Rng, body: &mut Vec<u8>) {
    for _ in 0..rng.between(1, 2) {
        let found = tokens(body);
        if found.is_empty() || rng.chance(4) {
            damage_bytes(rng, body);
            continue;
        }
        if rng.chance(8) {
            add_subjects(rng, body);
            continue;
        }
        let (start, size) = rng.pick(&found);
        damage_token(rng, body, start, size);
    }
}

/// Puts one subject or two into a body that has tokens, each before or behind
/// one of them.
fn add_subjects(rng: &mut Rng, body: &mut Vec<u8>) {
    for _ in 0..rng.between(1, 2) {
        let (start, size) = rng.pick(&tokens(body));
        let at = rng.pick(&[start, start + size]);
        let number = rng.pick(&SUBJECT_NUMBERS);
        body.splice(at..at, token_of(rng, number));
    }
}

/// Damage that knows no layout.
fn damage_bytes(rng: &mut Rng, bytes: &mut Vec<u8>) {
    let length = bytes.len();
    let at = rng.below(length);
    let some = rng.between(1, 8);
    match rng.below(9) {
        0 if length > 0 => bytes[at] = rng.byte(),
        1 if length > 0 => bytes[at] ^= 1 << rng.below(8),
        2 => bytes.truncate(at),
        3 => bytes.truncate(length.saturating_sub(some)),
        4 => drop(bytes.drain(at..(at + some).min(length))),
        5 => {
            let new = rng.bytes(some);
            bytes.splice(at..at, new);
        }
        6 => {
            let end = at + rng.below((length - at).min(200));
            let part = bytes[at..end].to_vec();
            bytes.splice(at..at, part);
        }
        7 if length > 1 => {
            // Two parts side by side change places.
            let end = at + rng.below((length - at).min(200));
            let middle = rng.below(end - at);
            bytes[at..end].rotate_left(middle);
        }
        _ => bytes.push(rng.pick(&[0, 0x11, 0x13, 0x14, 0x15, 0x74, 0x79, 0xFF])),
    }
}

/// A neighbour or a bound of a 2-byte field.
fn odd16(rng: &mut Rng, old: usize) -> [u8; 2] {
    let new = match rng.below(6) {
        0 | 1 => old.wrapping_add(1),
        2 | 3 => old.wrapping_sub(1),
        4 => rng.pick(&[0, 1, 2, 255, 256, 1_023, 1_024, 1_025, 65_534, 65_535]),
        _ => rng.u16().into(),
    };
    (new as u16).to_be_bytes()
}

/// A neighbour or a bound of a 4-byte field.
fn odd32(rng: &mut Rng, old: usize, bounds: &[u32]) -> [u8; 4] {
    let old = old as u32;
    let new = match rng.below(6) {
        0 | 1 => old.wrapping_add(1),
        2 | 3 => old.wrapping_sub(1),
        4 => rng.pick(bounds),
        _ => rng.u32(),
    };
    new.to_be_bytes()
}

/// Damages a file token in place.
fn damage_file(rng: &mut Rng, file: &mut [u8]) {
    match rng.below(6) {
        0 => file[0] = rng.byte(),
        1 | 2 => {
            let micros = rng.pick(&[999_999, 1_000_000, u32::MAX, 0]);
            set(file, 5, &micros.to_be_bytes());
        }
        3 => {
            let length = get16(file, 9).unwrap_or(0);
            set(file, 9, &odd16(rng, length));
        }
        _ => spoil(rng, &mut file[11..]),
    }
}

/// Damages the record at `start`.
fn damage_record(rng: &mut Rng, trail: &mut Vec<u8>, start: usize, size: usize) {
    let end = start + size;
    let head = head_size(&trail[start..end]);
    match rng.below(13) {
        _ if is_expanded(trail[start]) && rng.chance(5) => damage_type(rng, trail, start, end),
        0 if rng.chance(2) => trail[start] = rng.byte(),
        0 => trail[start] = rng.pick(&STARTS),
        1 | 2 => {
            let count = odd32(rng, size, &COUNTS);
            set(trail, start + 1, &count);
            if rng.chance(2) {
                // The trailer agrees, at its old place.
                set(trail, end - 4, &count);
            }
        }
        3 => {
            let at = end - 1 - rng.below(7);
            trail[at] ^= 1 << rng.below(8);
        }
        4 => {
            let count = odd32(rng, size, &COUNTS);
            set(trail, end - 4, &count);
        }
        5 => damage_nanoseconds(rng, &mut trail[start..end]),
        6 => trail.truncate(start + rng.below(size)),
        _ if size < head + 7 => damage_bytes(rng, trail),
        7 => drop(trail.splice(start..end, with_two_bytes(&trail[start..end]))),
        way => {
            // The body changes, mostly with the sizes put right again.
            let mut body = trail[start + head..end - 7].to_vec();
            damage_body(rng, &mut body);
            let mut new = framed(&trail[start..start + head], &body);
            if way == 8 {
                set(&mut new, 1, &(size as u32).to_be_bytes());
            }
            trail.splice(start..end, new);
        }
    }
}

/// A record again with two bytes for its version.
fn with_two_bytes(record: &[u8]) -> Vec<u8> {
    let (head, rest) = record.split_at(head_size(record));
    let mut head = head.to_vec();
    head.insert(5, 0);
    framed(&head, &rest[..rest.len() - 7])
}

/// Sets the nanoseconds of a record to a bound.
fn damage_nanoseconds(rng: &mut Rng, record: &mut [u8]) {
    let nanos = rng.pick(&[999_999_999, 1_000_000_000, u64::MAX, 1 << 32, 1 << 63]);
    let end = head_size(record);
    if is_narrow(record[0]) {
        set(record, end - 4, &(nanos as u32).to_be_bytes());
    } else {
        set(record, end - 8, &nanos.to_be_bytes());
    }
}

/// Damages the type in the header of the record from `start` to `end`.
fn damage_type(rng: &mut Rng, trail: &mut Vec<u8>, start: usize, end: usize) {
    let record = &trail[start..end];
    if rng.chance(4) && record.len() >= head_size(record) + 7 {
        trail.splice(start..end, with_one_byte_type(record));
    } else {
        let kind = odd_type(rng, trail, start + 10);
        set(&mut trail[..end], start + 10, &kind);
    }
}

/// Another type for an address, whose type stands at `field`: the other one, or
/// none.
fn odd_type(rng: &mut Rng, bytes: &[u8], field: usize) -> [u8; 4] {
    let new = match get32(bytes, field) {
        Some(4) if rng.chance(3) => 16,
        Some(16) if rng.chance(3) => 4,
        _ => values::bad_type(rng),
    };
    new.to_be_bytes()
}

/// Another length for the text or bytes at `field` of a body.
fn odd_length(rng: &mut Rng, body: &[u8], field: usize) -> [u8; 2] {
    let to_end = (body.len() - field) as u16;
    match rng.below(5) {
        // Exactly to the body's end, and one byte further.
        0 => to_end.to_be_bytes(),
        1 => to_end.wrapping_add(1).to_be_bytes(),
        2 => [0, 0],
        _ => odd16(rng, get16(body, field - 2).unwrap_or(0)),
    }
}

/// Damages the token at `start` of a body.
fn damage_token(rng: &mut Rng, body: &mut Vec<u8>, start: usize, size: usize) {
    let Some((fixed, tail)) = shape(body[start]) else {
        return;
    };
    let field = start + fixed;
    match rng.below(8) {
        0 => body[start] = rng.byte(),
        1 => body[start] = rng.pick(&STARTS),
        2 => body[start] = rng.pick(&TOKEN_NUMBERS),
        3 => body.truncate(start + rng.below(size)),
        _ => match tail {
            Tail::None => damage_bytes(rng, body),
            Tail::Text if rng.chance(2) => spoil(rng, &mut body[field..start + size]),
            Tail::Text | Tail::Bytes => {
                let new = odd_length(rng, body, field);
                set(body, field - 2, &new);
            }
            Tail::Groups => {
                let old = get16(body, field - 2).unwrap_or(0);
                let new = match rng.below(4) {
                    // Counts whose bytes come to 2^16 and 2^18 or near it.
                    0 => rng.pick(&[0x4000u16, 0x3FFF, 0xFFFF, 0x8000]).to_be_bytes(),
                    _ => odd16(rng, old),
                };
                set(body, field - 2, &new);
            }
            Tail::Address => {
                let kind = odd_type(rng, body, field - 4);
                set(body, field - 4, &kind);
            }
            Tail::Strings if rng.chance(3) => spoil(rng, &mut body[field..start + size]),
            Tail::Strings => {
                let old = get32(body, field - 4).unwrap_or(0);
                let new = odd32(rng, old, &[0, 1, 255, 65_536, 1 << 31, u32::MAX]);
                set(body, field - 4, &new);
            }
        },
    }
}
