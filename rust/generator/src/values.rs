//! Texts, byte strings, addresses and times.

use crate::rng::Rng;

/// Bytes that begin items and trailers.
pub(crate) const LIKELY: [u8; 8] = [0x11, 0x13, 0x14, 0x15, 0x74, 0x79, 0xB1, 0x05];

/// A usual length for a text or an opaque; large ones are rare.
fn length(rng: &mut Rng) -> usize {
    match rng.below(32) {
        0..=3 => 0,
        4..=6 => 1,
        7..=24 => rng.below(24),
        25..=29 => rng.below(120),
        30 => rng.pick(&[
            15, 16, 17, 63, 64, 65, 127, 128, 129, 143, 144, 145, 146, 160, 254, 255, 256, 257,
        ]),
        _ if rng.chance(8) => rng.below(5_000),
        _ => rng.below(600),
    }
}

/// `length` bytes without a zero byte.
pub(crate) fn letters(rng: &mut Rng, length: usize) -> Vec<u8> {
    let mut text = rng.bytes(length);
    match rng.below(4) {
        0 => text.iter_mut().for_each(|b| *b = (*b).max(1)),
        1 => text
            .iter_mut()
            .for_each(|b| *b = LIKELY[*b as usize % LIKELY.len()]),
        _ => text
            .iter_mut()
            .for_each(|b| *b = b"/abcdefghijklmno"[*b as usize % 16]),
    }
    text
}

/// A text without its zero byte.
pub(crate) fn text(rng: &mut Rng) -> Vec<u8> {
    let length = length(rng);
    letters(rng, length)
}

/// A file name without its zero byte.
pub(crate) fn name(rng: &mut Rng) -> Vec<u8> {
    let length = match rng.below(16) {
        0 => 0,
        1 => 1,
        2 => rng.between(1_000, 1_023),
        3 => 1_023,
        _ => rng.below(60),
    };
    letters(rng, length)
}

/// A whole record without body, or a trailer alone.
fn look_alike(rng: &mut Rng) -> Vec<u8> {
    let record = [
        0x14, 0, 0, 0, 0x19, 0x0B, 0, 0x48, 0, 0, 0, 0, 0, 1, 0, 0, 0, 2, 0x13, 0xB1, 0x05, 0, 0,
        0, 0x19,
    ];
    let mut bytes = record[rng.pick(&[0, 18])..].to_vec();
    if rng.chance(4) {
        let last = bytes.len() - 1;
        bytes[last] = rng.byte();
    }
    bytes
}

/// Bytes of any kind; some look like records or trailers.
pub(crate) fn opaque(rng: &mut Rng) -> Vec<u8> {
    if rng.chance(3) {
        let mut bytes = look_alike(rng);
        if rng.chance(2) {
            bytes.extend(look_alike(rng));
        }
        let extra = rng.below(6);
        bytes.extend(rng.bytes(extra));
        return bytes;
    }
    let length = length(rng);
    if rng.chance(4) {
        return vec![0; length];
    }
    rng.bytes(length)
}

/// Strings with their zero bytes, and how many there are.
pub(crate) fn strings(rng: &mut Rng) -> (u32, Vec<u8>) {
    let count = match rng.below(16) {
        0..=2 => 0,
        3..=5 => 1,
        15 if rng.chance(8) => rng.below(400),
        _ => rng.below(8),
    };
    let empty = rng.chance(6);
    let mut bytes = Vec::new();
    for _ in 0..count {
        if !empty {
            let length = rng.below(20);
            bytes.extend(letters(rng, length));
        }
        bytes.push(0);
    }
    if count == 1 {
        bytes = text(rng);
        bytes.push(0);
    }
    (count as u32, bytes)
}

/// Groups.
pub(crate) fn groups(rng: &mut Rng) -> Vec<u32> {
    let count = match rng.below(8) {
        0 => 0,
        1 => 1,
        7 if rng.chance(16) => rng.below(700),
        _ => rng.below(17),
    };
    (0..count).map(|_| rng.u32()).collect()
}

/// An address of 4 or 16 bytes, of any kind or like the start of an item.
pub(crate) fn address(rng: &mut Rng) -> Vec<u8> {
    let length = rng.pick(&[4, 16]);
    match rng.below(6) {
        0 => vec![rng.pick(&[0, 0xFF]); length],
        1 => letters(rng, length),
        _ => rng.bytes(length),
    }
}

/// An address that has neither 4 nor 16 bytes, mostly fewer than 20. The
/// larger ones are 4 or 16 if their length is cut to one byte, or to two.
pub(crate) fn bad_address(rng: &mut Rng) -> Vec<u8> {
    let length = match rng.below(48) {
        0 => rng.pick(&[65_540, 65_552]),
        1 | 2 => rng.pick(&[260, 272]),
        3 => rng.between(21, 100),
        _ => rng.between(0, 20),
    };
    let more = match length {
        4 | 16 => rng.pick(&[1, 2]),
        _ => 0,
    };
    rng.bytes(length + more)
}

/// A type that is neither 4 nor 16: near them, with one of them in another
/// byte or beside other bits, or any other.
pub(crate) fn bad_type(rng: &mut Rng) -> u32 {
    let good: u32 = rng.pick(&[4, 16]);
    let any = rng.u32();
    match rng.below(6) {
        0 => good + 1,
        1 => good - 1,
        2 => good << (8 * rng.between(1, 3)),
        3 => good | 1 << rng.between(5, 31),
        4 => rng.pick(&[0, 1, 2, 6, 8, 20, 32, u32::MAX]),
        _ if matches!(any, 4 | 16) => any + 1,
        _ => any,
    }
}

/// A version that fits its byte, often a usual one or at a bound.
pub(crate) fn version(rng: &mut Rng) -> u16 {
    match rng.below(6) {
        0 => 0,
        1 => 11,
        2 => 255,
        _ => rng.u8().into(),
    }
}

/// A time fraction of at most `most`, often at a bound.
pub(crate) fn fraction(rng: &mut Rng, most: u32) -> u32 {
    match rng.below(6) {
        0 => 0,
        1 => most,
        2 => most - 1,
        _ => rng.below(most as usize + 1) as u32,
    }
}

/// A number over `most` of at most `width` bits.
pub(crate) fn over(rng: &mut Rng, most: u64, width: u32) -> u64 {
    let all = u64::MAX >> (64 - width);
    match rng.below(5) {
        0 | 1 => most + 1,
        2 => all,
        3 => most + 1 + rng.bits() % (all - most),
        _ => rng.number(width).max(most + 1),
    }
}
