//! Texts that are refused with 8, in tokens and in file tokens.

use crate::layout::{raw_file, shape, TEXT_NUMBERS};
use crate::rng::Rng;
use crate::values;

/// A place before the last one, often the first or the one next to the last.
fn early(rng: &mut Rng, last: usize) -> usize {
    match rng.below(4) {
        0 => 0,
        1 => last - 1,
        _ => rng.below(last),
    }
}

/// Spoils a text that ends with its zero byte: a zero byte too early, two of
/// them, a last byte that is not zero, or that and a zero byte too early. One
/// of a single byte can only lose its zero byte, and nothing stays nothing.
pub(crate) fn spoil(rng: &mut Rng, text: &mut [u8]) {
    let Some(last) = text.len().checked_sub(1) else {
        return;
    };
    let way = if last == 0 { 0 } else { rng.below(5) };
    if way < 2 {
        text[last] = rng.byte().max(1);
    }
    if way > 0 {
        text[early(rng, last)] = 0;
    }
    if way == 2 {
        text[early(rng, last)] = 0;
    }
}

/// Bytes, zero byte included, that are not a good text; none at all once in
/// five times.
pub(crate) fn bad_text(rng: &mut Rng) -> Vec<u8> {
    if rng.chance(5) {
        return Vec::new();
    }
    let mut text = values::text(rng);
    text.push(0);
    spoil(rng, &mut text);
    text
}

/// A token with a bad text and the right length for it.
pub(crate) fn bad_text_token(rng: &mut Rng) -> Vec<u8> {
    let text = bad_text(rng);
    let number = rng.pick(&TEXT_NUMBERS);
    let fixed = shape(number).map_or(3, |shape| shape.0);
    let mut token = vec![number];
    token.extend(rng.bytes(fixed - 3));
    token.extend((text.len() as u16).to_be_bytes());
    token.extend(text);
    token
}

/// A file token with a bad name: too long a one, one of the largest size, or
/// any other.
pub(crate) fn bad_name(rng: &mut Rng) -> Vec<u8> {
    let micros = values::fraction(rng, 999_999);
    let (length, name) = match rng.below(4) {
        0 => long_name(rng),
        1 => {
            let mut name = values::letters(rng, 1_023);
            name.push(0);
            spoil(rng, &mut name);
            (1_024, name)
        }
        _ => {
            let name = bad_text(rng);
            (name.len() as u16, name)
        }
    };
    raw_file(rng.u32(), micros, length, &name)
}

/// A length over 1,024, and a name behind it: good but for its length, bad,
/// or not all there.
fn long_name(rng: &mut Rng) -> (u16, Vec<u8>) {
    let length = rng.pick(&[1_025, 1_025, 1_026, 1_280, 2_048, u16::MAX]);
    let mut name = values::letters(rng, usize::from(length) - 1);
    name.push(0);
    match rng.below(3) {
        0 => spoil(rng, &mut name),
        1 => name.truncate(rng.below(40)),
        _ => {}
    }
    (length, name)
}
