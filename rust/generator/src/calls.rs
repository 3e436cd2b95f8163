//! Calls of the writers, good ones and ones to be refused.

use crate::damage::damage_body;
use crate::good::{body_for, good_body, good_header_of};
use crate::header_args::HeaderArgs;
use crate::layout::{is_expanded, Tail, HEADER_NUMBERS, TOKEN_NUMBERS};
use crate::rng::Rng;
use crate::subjects::two_subjects_args;
use crate::targeted::bad_body;
use crate::token_args::{good_args, TokenArgs};
use crate::values;
use crate::versions::large_version_args;
use reference::{write_file, write_record, write_token, Refusal};

/// The arguments of one writer.
#[derive(Clone, Debug)]
pub enum WriteArgs {
    /// For the token writer.
    Token(TokenArgs),
    /// For the file token writer.
    File {
        /// Seconds.
        seconds: u32,
        /// Microseconds.
        microseconds: u32,
        /// The name without its zero byte.
        name: Vec<u8>,
    },
    /// For the record writer.
    Record {
        /// The header.
        header: HeaderArgs,
        /// The body.
        body: Vec<u8>,
    },
}

/// A call: arguments, and how large a destination to lend.
#[derive(Clone, Debug)]
pub struct WriteCall {
    /// The arguments.
    pub args: WriteArgs,
    /// Size of the destination.
    pub room: usize,
}

impl WriteArgs {
    /// The bytes to be written, if not refused.
    pub fn size(&self) -> usize {
        match self {
            WriteArgs::Token(args) => args.size(),
            WriteArgs::File { name, .. } => 11 + name.len() + 1,
            WriteArgs::Record { header, body } => header.size() + body.len() + 7,
        }
    }

    /// Calls the writer of the crate `reference`.
    pub fn write(&self, dst: &mut [u8]) -> Result<usize, Refusal> {
        match self {
            WriteArgs::Token(args) => write_token(dst, &args.token()),
            WriteArgs::File {
                seconds,
                microseconds,
                name,
            } => write_file(dst, *seconds, *microseconds, name),
            WriteArgs::Record { header, body } => write_record(dst, &header.header(), body),
        }
    }
}

/// One call for each of the twenty-five token kinds, for the file token and
/// for records with each header, and two more for each header: with a version
/// that is too large, and with two subjects. About half of the others that can
/// be refused for their values are.
pub fn write_calls(rng: &mut Rng) -> Vec<WriteCall> {
    let mut all = Vec::with_capacity(TOKEN_NUMBERS.len() + 1 + 3 * HEADER_NUMBERS.len());
    for number in TOKEN_NUMBERS {
        all.push(WriteArgs::Token(token(rng, number)));
    }
    all.push(file(rng));
    for number in HEADER_NUMBERS {
        all.push(record(rng, number));
        all.push(large_version_args(rng, number));
        all.push(two_subjects_args(rng, number));
    }
    all.into_iter()
        .map(|args| {
            let room = room(rng, args.size());
            WriteCall { args, room }
        })
        .collect()
}

/// A destination's size: mostly enough, often exactly so or one too few.
fn room(rng: &mut Rng, size: usize) -> usize {
    match rng.below(8) {
        0 => size - 1,
        1 => rng.below(size),
        2 => rng.pick(&[0, 1]),
        3 | 4 => size,
        5 => size + 1,
        _ => size + rng.below(40),
    }
}

/// A token's arguments, good or not.
fn token(rng: &mut Rng, number: u8) -> TokenArgs {
    let mut args = good_args(rng, number);
    if rng.chance(2) {
        return args;
    }
    // Large ones are rare, since they are slow.
    let large = rng.chance(24);
    match args.tail() {
        Tail::None => {}
        Tail::Text => {
            if large {
                let length = rng.pick(&[65_533, 65_534, 65_535, 65_536]);
                args.bytes = values::letters(rng, length);
            }
            if !large || rng.chance(3) {
                insert_zero(rng, &mut args.bytes);
            }
        }
        Tail::Bytes if large => {
            let length = rng.pick(&[65_534, 65_535, 65_536, 70_000]);
            args.bytes = rng.bytes(length);
        }
        Tail::Bytes => {}
        Tail::Groups if large => {
            let count = rng.pick(&[65_534, 65_535, 65_536, 65_537]);
            args.groups = (0..count).collect();
        }
        Tail::Groups => {}
        Tail::Strings => bad_strings(rng, &mut args),
        Tail::Address => args.bytes = values::bad_address(rng),
    }
    args
}

/// Puts a zero byte into a text, at its start, at its end or between, and
/// sometimes one more.
fn insert_zero(rng: &mut Rng, text: &mut Vec<u8>) {
    let times = if rng.chance(4) { 2 } else { 1 };
    for _ in 0..times {
        let middle = rng.below(text.len());
        let at = rng.pick(&[0, middle, text.len()]);
        text.insert(at, 0);
    }
}

/// Makes strings and count of an exec token disagree.
fn bad_strings(rng: &mut Rng, args: &mut TokenArgs) {
    let zeros = args.bytes.iter().filter(|&&byte| byte == 0).count() as u32;
    match rng.below(7) {
        0 => args.set_count(zeros + 1),
        1 => args.set_count(zeros.wrapping_sub(1)),
        2 => args.set_count(rng.u32()),
        3 => drop(args.bytes.pop()),
        4 => args.bytes.push(rng.byte()),
        5 => args.bytes.push(0),
        _ => {
            let at = rng.below(args.bytes.len());
            if let Some(byte) = args.bytes.get_mut(at) {
                *byte = rng.pick(&[0, 1]);
            }
        }
    }
}

/// A file token's arguments, good or not.
fn file(rng: &mut Rng) -> WriteArgs {
    let mut name = values::name(rng);
    let mut microseconds = values::fraction(rng, 999_999);
    if rng.chance(4) {
        microseconds = values::over(rng, 999_999, 32) as u32;
    }
    if rng.chance(2) {
        let length = rng.pick(&[1_022, 1_023, 1_024, 1_025, 70_000]);
        name = values::letters(rng, length);
    }
    if rng.chance(3) {
        insert_zero(rng, &mut name);
    }
    WriteArgs::File {
        seconds: rng.u32(),
        microseconds,
        name,
    }
}

/// A record's arguments, good or not.
fn record(rng: &mut Rng, number: u8) -> WriteArgs {
    let mut header = good_header_of(rng, number);
    if rng.chance(8) {
        header.fields.version = rng.pick(&[254, 255, 256, u16::MAX]);
    }
    if rng.chance(4) {
        let any = rng.u64();
        header.fields.seconds = rng.pick(&[0xFFFF_FFFF, 0x1_0000_0000, u64::MAX, any]);
    }
    if rng.chance(4) {
        let width = rng.pick(&[32, 64]);
        header.fields.nanoseconds = values::over(rng, 999_999_999, width);
    }
    let mut body = good_body(rng);
    if rng.chance(16) {
        let size = rng.pick(&[65_534, 65_535, 65_536, 65_537, 65_544]);
        body = body_for(rng, header.size(), size);
    }
    match rng.below(6) {
        0 => damage_body(rng, &mut body),
        1 => {
            let refused = rng.pick(&[6, 7, 8, 13, 14]);
            body = bad_body(rng, refused);
        }
        _ => {}
    }
    if is_expanded(number) && rng.chance(4) {
        header.address = values::bad_address(rng);
    }
    WriteArgs::Record { header, body }
}
