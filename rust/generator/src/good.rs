//! Good tokens, bodies, items and trails.

use crate::header_args::HeaderArgs;
use crate::layout::{header_size, is_expanded, is_narrow, is_subject};
use crate::layout::{HEADER_NUMBERS, TOKEN_NUMBERS};
use crate::rng::Rng;
use crate::token_args::{good_args, TokenArgs};
use crate::values;
use reference::{write_file, write_record, write_token, Header, WriteToken};

/// Largest size of a record.
const RECORD_MAX: usize = 65_535;

/// The bytes of a token that the writer takes.
pub(crate) fn token_bytes(args: &TokenArgs) -> Vec<u8> {
    let mut bytes = vec![0; args.size()];
    let written = write_token(&mut bytes, &args.token());
    assert_eq!(written, Ok(bytes.len()), "a good token was refused");
    bytes
}

/// The bytes of a token with this varying part.
pub(crate) fn token_with(fields: WriteToken<'static>, bytes: Vec<u8>) -> Vec<u8> {
    token_bytes(&TokenArgs {
        fields,
        bytes,
        groups: Vec::new(),
    })
}

/// A good token of any kind.
pub fn good_token(rng: &mut Rng) -> Vec<u8> {
    let number = rng.pick(&TOKEN_NUMBERS);
    token_of(rng, number)
}

/// A good token with this number, which must be a body token's.
pub fn token_of(rng: &mut Rng, number: u8) -> Vec<u8> {
    token_bytes(&good_args(rng, number))
}

/// The number of a token that is no subject.
pub(crate) fn other_number(rng: &mut Rng) -> u8 {
    loop {
        let number = rng.pick(&TOKEN_NUMBERS);
        if !is_subject(number) {
            return number;
        }
    }
}

/// So many good tokens, fewer where they would not fit any header's record. At
/// most one of them is a subject.
pub(crate) fn good_tokens(rng: &mut Rng, count: usize) -> Vec<u8> {
    let mut body = Vec::new();
    let mut subject = false;
    for _ in 0..count {
        let number = if subject {
            other_number(rng)
        } else {
            rng.pick(&TOKEN_NUMBERS)
        };
        let token = token_of(rng, number);
        if body.len() + token.len() <= RECORD_MAX - header_size(0x79) - 16 - 7 {
            body.extend(token);
            subject |= is_subject(number);
        }
    }
    body
}

/// A good body with at most one subject, small enough for any header; often
/// empty.
pub fn good_body(rng: &mut Rng) -> Vec<u8> {
    let count = match rng.below(16) {
        0..=2 => 0,
        3..=5 => 1,
        15 if rng.chance(4) => rng.below(60),
        _ => rng.below(7),
    };
    good_tokens(rng, count)
}

/// A good header of any kind.
pub fn good_header(rng: &mut Rng) -> HeaderArgs {
    let number = rng.pick(&HEADER_NUMBERS);
    good_header_of(rng, number)
}

/// A good header with this number.
pub(crate) fn good_header_of(rng: &mut Rng, number: u8) -> HeaderArgs {
    let fields = Header {
        number,
        version: values::version(rng),
        event: rng.u16(),
        modifier: rng.u16(),
        address: &[],
        seconds: rng.number(if is_narrow(number) { 32 } else { 64 }),
        nanoseconds: values::fraction(rng, 999_999_999).into(),
    };
    let mut address = Vec::new();
    if is_expanded(number) {
        address = values::address(rng);
    }
    HeaderArgs { fields, address }
}

/// A body whose record, with a header of `head` bytes, has exactly `size`
/// bytes: one opaque behind a return token.
pub(crate) fn body_for(rng: &mut Rng, head: usize, size: usize) -> Vec<u8> {
    let mut body = token_of(rng, 0x27);
    let left = size.saturating_sub(head + 7 + body.len());
    let bytes = rng.bytes(left.saturating_sub(3));
    body.extend(token_with(WriteToken::Opaque { bytes: &[] }, bytes));
    body
}

/// A good record; rarely one of the largest.
pub fn good_record(rng: &mut Rng) -> Vec<u8> {
    let header = good_header(rng);
    let body = if rng.chance(2_000) {
        let size = RECORD_MAX - rng.below(2);
        body_for(rng, header.size(), size)
    } else {
        good_body(rng)
    };
    record_bytes(&header.header(), &body)
}

/// The bytes of a record that the writer takes.
pub(crate) fn record_bytes(header: &Header<'_>, body: &[u8]) -> Vec<u8> {
    let head = header_size(header.number) + header.address.len();
    let mut record = vec![0; head + body.len() + 7];
    let written = write_record(&mut record, header, body);
    assert_eq!(written, Ok(record.len()), "a good record was refused");
    record
}

/// A good file token.
pub fn good_file(rng: &mut Rng) -> Vec<u8> {
    let name = values::name(rng);
    let micros = values::fraction(rng, 999_999);
    let mut file = vec![0; 11 + name.len() + 1];
    let written = write_file(&mut file, rng.u32(), micros, &name);
    assert_eq!(written, Ok(file.len()), "a good file token was refused");
    file
}

/// A good trail of about `items` items, one in five a file token.
pub fn good_trail(rng: &mut Rng, items: usize) -> Vec<u8> {
    let count = rng.between(items / 2, items + items / 2);
    let mut trail = Vec::new();
    for _ in 0..count {
        trail.extend(if rng.chance(5) {
            good_file(rng)
        } else {
            good_record(rng)
        });
    }
    trail
}
