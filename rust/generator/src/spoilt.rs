//! What a refusal 8 finds, told from the bytes around the place that it
//! reports (paper 02, P1).

use crate::calls::WriteArgs;
use crate::layout::{get16, head_size, shape, tokens, Tail};

/// What offends in a text.
#[derive(Clone, Copy, Debug, PartialEq, Eq, PartialOrd, Ord)]
pub enum Spoilt {
    /// A zero byte before the last byte.
    Early,
    /// The last byte, which is not zero.
    Last,
    /// A length of 0.
    Empty,
    /// A file name's length over 1,024.
    LongName,
    /// In a text to be written, a zero byte.
    ZeroGiven,
    /// In a name to be written, more than 1,023 bytes, none of them zero.
    LongGiven,
    /// The same, with a zero byte among them.
    LongZeroGiven,
    /// Bytes to be written that are not as many strings as said.
    NotStrings,
}

use Spoilt::*;

/// How texts offend where trails are read.
pub const READ_WAYS: [Spoilt; 4] = [Early, Last, Empty, LongName];

/// The same, by the number of the token.
pub const SPOILT_ITEMS: [(u8, Spoilt); 16] = [
    (0x11, Early),
    (0x11, Last),
    (0x11, Empty),
    (0x11, LongName),
    (0x23, Early),
    (0x23, Last),
    (0x23, Empty),
    (0x28, Early),
    (0x28, Last),
    (0x28, Empty),
    (0x2D, Early),
    (0x2D, Last),
    (0x2D, Empty),
    (0x71, Early),
    (0x71, Last),
    (0x71, Empty),
];

/// What can offend in bodies.
pub const SPOILT_BODIES: &[(u8, Spoilt)] = SPOILT_ITEMS.split_at(4).1;

/// What can offend in arguments of the writers, a record's body left out.
pub const SPOILT_CALLS: [(u8, Spoilt); 9] = [
    (0x11, ZeroGiven),
    (0x11, LongGiven),
    (0x11, LongZeroGiven),
    (0x23, ZeroGiven),
    (0x28, ZeroGiven),
    (0x2D, ZeroGiven),
    (0x71, ZeroGiven),
    (0x3C, NotStrings),
    (0x3D, NotStrings),
];

/// What offends in the item at `start`, which is refused with 8 at `place`:
/// the number of the token that has the text, and how.
pub fn spoilt_item(trail: &[u8], start: usize, place: usize) -> (u8, Spoilt) {
    match trail[start] {
        0x11 => (0x11, spoilt(trail, start + 11, place)),
        _ => {
            let body = start + head_size(&trail[start..]);
            spoilt_body(&trail[body..], place - body)
        }
    }
}

/// What offends in a body, whose first bad token is refused with 8 at
/// `place`.
pub fn spoilt_body(body: &[u8], place: usize) -> (u8, Spoilt) {
    let mut all = tokens(body).into_iter();
    let found = all.find(|(start, size)| (*start..start + size).contains(&place));
    let (start, _) = found.expect("the place lies in a token");
    spoilt_token(body, start, place)
}

/// What offends in the token at `start`, which is refused with 8 at `place`.
pub fn spoilt_token(body: &[u8], start: usize, place: usize) -> (u8, Spoilt) {
    match shape(body[start]) {
        Some((fixed, Tail::Text)) => (body[start], spoilt(body, start + fixed, place)),
        _ => panic!("token {:02X} has no text", body[start]),
    }
}

/// What offends in the text at `start`, behind its length.
fn spoilt(bytes: &[u8], start: usize, place: usize) -> Spoilt {
    let length = get16(bytes, start - 2).expect("a length");
    if place + 2 == start {
        return if length == 0 { Empty } else { LongName };
    }
    assert!((start..start + length).contains(&place), "{place}");
    if bytes[place] == 0 {
        Early
    } else {
        Last
    }
}

/// What offends in the arguments of a writer, which refuses them with 8 at
/// `place`.
pub fn spoilt_call(args: &WriteArgs, place: usize) -> (u8, Spoilt) {
    match args {
        WriteArgs::File { name, .. } => match (name.len() > 1_023, name.contains(&0)) {
            (false, _) => (0x11, ZeroGiven),
            (true, false) => (0x11, LongGiven),
            (true, true) => (0x11, LongZeroGiven),
        },
        WriteArgs::Token(args) => match args.tail() {
            Tail::Strings => (args.fields.number(), NotStrings),
            _ => (args.fields.number(), ZeroGiven),
        },
        WriteArgs::Record { body, .. } => spoilt_body(body, place),
    }
}
