//! Bodies with two subjects (paper 02, P7): the kinds of the two, told from the
//! bytes before the place of a refusal, and bodies aimed at each pair of kinds.

use crate::calls::WriteArgs;
use crate::expanded::{faulty_token, AddressFault};
use crate::good::{good_header_of, good_tokens, other_number, token_of, token_with};
use crate::layout::{in_body, is_subject, tokens};
use crate::layout::{EXPANDED_NUMBERS, PROCESS_NUMBERS, SUBJECT_NUMBERS};
use crate::rng::Rng;
use crate::targeted::no_token;
use crate::texts::bad_text_token;
use crate::values;
use reference::{token_at, Refusal, TokenAnswer, WriteToken};

/// The numbers of a body's first subject and of its second.
pub const SUBJECT_PAIRS: [(u8, u8); 16] = {
    let mut pairs = [(0, 0); 16];
    let mut at = 0;
    while at < pairs.len() {
        pairs[at] = (SUBJECT_NUMBERS[at / 4], SUBJECT_NUMBERS[at % 4]);
        at += 1;
    }
    pairs
};

/// What else is wrong in a body with two subjects.
#[derive(Clone, Copy, Debug, PartialEq, Eq, PartialOrd, Ord)]
pub enum Second {
    /// Nothing.
    Nothing,
    /// A token behind the second subject, or a third one there.
    Behind,
    /// A token before the second subject, which is told.
    Before,
    /// The body ends inside of the second subject, and 7 is told.
    Cut,
    /// The second subject's type is neither 4 nor 16, and 13 is told.
    Type,
}

use Second::*;

/// All of them. Only an expanded subject can have the last one.
pub const SECONDS: [Second; 5] = [Nothing, Behind, Before, Cut, Type];

/// The numbers of the first subject in a body and of the second one, at which
/// it is refused with 7, 13 or 14; nothing where it is refused for another
/// token.
pub fn body_subjects(body: &[u8], refusal: &Refusal) -> Option<(u8, u8)> {
    let second = *body.get(refusal.place)?;
    if !matches!(refusal.number, 7 | 13 | 14) || !is_subject(second) {
        return None;
    }
    let before = tokens(&body[..refusal.place]);
    let mut numbers = before.iter().map(|(start, _)| body[*start]);
    let first = numbers.find(|number| is_subject(*number))?;
    Some((first, second))
}

/// The same in the record at `start` of a trail.
pub fn item_subjects(trail: &[u8], start: usize, refusal: &Refusal) -> Option<(u8, u8)> {
    if !matches!(refusal.number, 7 | 13 | 14) {
        return None;
    }
    let (body, refusal) = in_body(trail, start, refusal)?;
    body_subjects(body, &refusal)
}

/// The same in the body of a record to be written.
pub fn call_subjects(args: &WriteArgs, refusal: &Refusal) -> Option<(u8, u8)> {
    match args {
        // What is refused for its header has place 0, with no token before.
        WriteArgs::Record { body, .. } => body_subjects(body, refusal),
        _ => None,
    }
}

/// What the walk over a body must answer by the answers of the token reader of
/// the crate `reference`: the first refusal of a token, or 14 for a second
/// subject before that, or how many tokens there are.
pub fn token_by_token(body: &[u8]) -> Result<usize, Refusal> {
    let (mut place, mut count, mut subject) = (0, 0, false);
    loop {
        match token_at(body, place) {
            TokenAnswer::Token { token, size, .. } => {
                let another = is_subject(token.number());
                if another && subject {
                    return Err(Refusal {
                        number: 14,
                        place,
                        need: 0,
                    });
                }
                subject |= another;
                place += size;
                count += 1;
            }
            TokenAnswer::End => return Ok(count),
            TokenAnswer::Refused(refusal) => return Err(refusal),
        }
    }
}

/// A body with subjects of these kinds and other tokens before, between and
/// behind them, in which this is wrong. It is refused with 14 at the second
/// subject unless something else is told.
pub fn two_subjects(rng: &mut Rng, (first, second): (u8, u8), wrong: Second) -> Vec<u8> {
    let mut body = others(rng);
    if wrong == Before && rng.chance(2) {
        body.extend(bad_token(rng));
    }
    body.extend(token_of(rng, first));
    body.extend(others(rng));
    if wrong == Before {
        body.extend(bad_token(rng));
        body.extend(others(rng));
    }
    match wrong {
        Cut => {
            let token = token_of(rng, second);
            body.extend(&token[..rng.between(1, token.len() - 1)]);
            return body;
        }
        Type if EXPANDED_NUMBERS.contains(&second) => {
            body.extend(faulty_token(rng, second, AddressFault::Type));
        }
        _ => body.extend(token_of(rng, second)),
    }
    body.extend(others(rng));
    if wrong == Behind {
        body.extend(match rng.below(3) {
            0 => subject(rng),
            _ => bad_token(rng),
        });
        let more = rng.below(2);
        body.extend(good_tokens(rng, more));
    }
    body
}

/// The same for any pair and any fault, mostly refused with 14.
pub(crate) fn any_two_subjects(rng: &mut Rng) -> Vec<u8> {
    let pair = rng.pick(&SUBJECT_PAIRS);
    let wrong = match rng.below(4) {
        0 => rng.pick(&SECONDS),
        1 => Behind,
        _ => Nothing,
    };
    two_subjects(rng, pair, wrong)
}

/// Arguments of a record with such a body; now and then its header is refused,
/// which is told first.
pub(crate) fn two_subjects_args(rng: &mut Rng, number: u8) -> WriteArgs {
    let mut header = good_header_of(rng, number);
    if rng.chance(8) {
        header.fields.nanoseconds = values::over(rng, 999_999_999, 32);
    }
    let body = any_two_subjects(rng);
    WriteArgs::Record { header, body }
}

/// A subject of any kind.
fn subject(rng: &mut Rng) -> Vec<u8> {
    let number = rng.pick(&SUBJECT_NUMBERS);
    token_of(rng, number)
}

/// A few tokens that are no subjects: often processes, and opaques that hold a
/// subject.
fn others(rng: &mut Rng) -> Vec<u8> {
    let count = rng.pick(&[0, 0, 0, 1, 1, 2]);
    let mut all = Vec::new();
    for _ in 0..count {
        all.extend(match rng.below(6) {
            0 | 1 => {
                let number = rng.pick(&PROCESS_NUMBERS);
                token_of(rng, number)
            }
            2 => {
                let held = subject(rng);
                token_with(WriteToken::Opaque { bytes: &[] }, held)
            }
            _ => {
                let number = other_number(rng);
                token_of(rng, number)
            }
        });
    }
    all
}

/// A token that is refused with 6, 7, 8 or 13, whatever stands behind it.
fn bad_token(rng: &mut Rng) -> Vec<u8> {
    match rng.below(4) {
        0 => vec![no_token(rng)],
        // No body has so many bytes.
        1 => vec![rng.pick(&[0x23, 0x28, 0x29, 0x3B]), 0xFF, 0xFF],
        2 => bad_text_token(rng),
        _ => {
            let number = rng.pick(&EXPANDED_NUMBERS);
            faulty_token(rng, number, AddressFault::Type)
        }
    }
}
