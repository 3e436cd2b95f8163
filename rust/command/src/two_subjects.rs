//! Which two subjects a record has that is refused with 14, in words. The
//! library names the second one. The first is asked of the library too, with
//! another token from the second on, so that no layout is read here.

use crate::choice::{named, Named};
use crate::fields::token_name;
use crate::reading::tokens_of;
use bsm::{item_at, token_at, write_token, NewToken, Reason, Refusal, Token};
use std::fmt::{self, Display, Formatter};

/// A record with two subjects.
#[derive(Clone, Copy, Debug, PartialEq, Eq)]
pub struct TwoSubjects {
    /// Where the record starts in its trail.
    pub item: usize,
    /// Its first and its second subject.
    pub subjects: [Subject; 2],
}

/// A subject token.
#[derive(Clone, Copy, Debug, PartialEq, Eq)]
pub struct Subject {
    /// The token's name.
    pub name: &'static str,
    /// Where it starts.
    pub place: usize,
    /// Whom it names.
    pub named: Named,
}

impl TwoSubjects {
    /// The subjects for which the record at a place of a trail is refused like
    /// this; nothing where it is refused for something else.
    pub fn find(trail: &[u8], item: usize, refusal: &Refusal) -> Option<TwoSubjects> {
        if refusal.reason != Reason::SecondSubject {
            return None;
        }
        let at = refusal.place.checked_sub(item)?;
        let rest = trail.get(item..)?;
        // A record that is there in part tells its size.
        let size = item_at(rest.get(..at)?, 0).err()?.need;
        let record = rest.get(..size)?;
        let second = token_at(record.get(at..)?, 0).ok()??.token;
        let subjects = [subject_before(record, at)?, subject_of(&second, at)?];
        Some(TwoSubjects {
            item,
            subjects: subjects.map(|subject| Subject {
                place: item + subject.place,
                ..subject
            }),
        })
    }
}

/// The subject before a token of a record, with its place in the record.
fn subject_before(record: &[u8], at: usize) -> Option<Subject> {
    let closed = closed(record, at)?;
    let item = item_at(&closed, 0).ok()??;
    let opaque = tokens_of(&item).last()?.at;
    let mut tokens = tokens_of(&item);
    tokens.find_map(|shown| subject_of(&shown.token, at - (opaque - shown.at)))
}

/// The record with one opaque token instead of all tokens from a place on. It
/// is the longest with which the record is accepted, so that it ends where the
/// body does.
fn closed(record: &[u8], at: usize) -> Option<Vec<u8>> {
    let lengths = 0..=record.len().checked_sub(at)?;
    lengths.rev().find_map(|length| {
        let mut closed = record.to_vec();
        let bytes = &record[..length];
        write_token(&mut closed[at..], &NewToken::Opaque { bytes }).ok()?;
        item_at(&closed, 0).is_ok().then_some(closed)
    })
}

/// The subject that a token at a place is, if it is one.
fn subject_of(token: &Token<'_>, place: usize) -> Option<Subject> {
    let is_subject = matches!(
        token,
        Token::Subject32(_) | Token::Subject64(_) | Token::Subject32Ex(_) | Token::Subject64Ex(_)
    );
    let named = named(token).filter(|_| is_subject)?;
    Some(Subject {
        name: token_name(token),
        place,
        named,
    })
}

impl Display for TwoSubjects {
    fn fmt(&self, f: &mut Formatter<'_>) -> fmt::Result {
        let TwoSubjects { item, subjects } = self;
        let [first, second] = subjects;
        write!(
            f,
            "two subjects in the record at place {item}: {first} and {second}"
        )
    }
}

impl Display for Subject {
    fn fmt(&self, f: &mut Formatter<'_>) -> fmt::Result {
        let Subject { name, place, named } = self;
        let [audit, effective, real] = named.users;
        write!(
            f,
            "{name} at place {place} (audit={audit} effective_user={effective} \
             real_user={real} session={})",
            named.session
        )
    }
}

#[cfg(test)]
mod tests {
    use super::*;
    use bsm::{run, State};
    use generator::{good_args, good_header, raw_record, Rng, TOKEN_NUMBERS};
    use reference::TokenAnswer;

    /// The numbers and names of the subjects.
    const SUBJECTS: [(u8, &str); 4] = [
        (0x24, "subject32"),
        (0x75, "subject64"),
        (0x7A, "subject32_ex"),
        (0x7C, "subject64_ex"),
    ];

    /// The bytes of a token with this number, not many.
    fn token(rng: &mut Rng, number: u8) -> Vec<u8> {
        loop {
            let args = good_args(rng, number);
            let mut bytes = vec![0; args.size()];
            if bytes.len() < 5_000 {
                reference::write_token(&mut bytes, &args.token()).expect("a good token");
                return bytes;
            }
        }
    }

    /// A few tokens that are no subjects.
    fn others(rng: &mut Rng) -> Vec<u8> {
        let is_subject = |number| SUBJECTS.iter().any(|subject| subject.0 == number);
        let mut bytes = Vec::new();
        for _ in 0..rng.below(4) {
            let number = rng.pick(&TOKEN_NUMBERS);
            if !is_subject(number) {
                bytes.extend(token(rng, number));
            }
        }
        bytes
    }

    /// Whom the reference reads in the subject that a part of a body is.
    fn named_in(bytes: &[u8]) -> Named {
        use reference::Token::{Subject32, Subject32Ex, Subject64, Subject64Ex};
        let TokenAnswer::Token { token, .. } = reference::token_at(bytes, 0) else {
            panic!("no token");
        };
        let (session, users) = match token {
            Subject32(p) => (p.session, [p.audit, p.effective_user, p.real_user]),
            Subject64(p) => (p.session, [p.audit, p.effective_user, p.real_user]),
            Subject32Ex(p) => (p.session, [p.audit, p.effective_user, p.real_user]),
            Subject64Ex(p) => (p.session, [p.audit, p.effective_user, p.real_user]),
            other => panic!("no subject: {other:?}"),
        };
        Named { session, users }
    }

    /// Every pair of kinds, behind each header and among other tokens, whatever
    /// stands behind the second.
    #[test]
    fn subjects_that_are_found() {
        let mut rng = Rng::new(853);
        for first in SUBJECTS {
            for second in SUBJECTS {
                for _ in 0..150 {
                    let header = good_header(&mut rng);
                    let kinds = [first, second];
                    let parts =
                        kinds.map(|(number, _)| (others(&mut rng), token(&mut rng, number)));
                    let front = b"\x11\0\0\0\x05\0\0\0\x07\0\x02a\0";
                    let mut place = front.len() + header.size();
                    let mut body = Vec::new();
                    let mut subjects = Vec::new();
                    for ((before, subject), (_, name)) in parts.iter().zip(kinds) {
                        place += before.len();
                        subjects.push(Subject {
                            name,
                            place,
                            named: named_in(subject),
                        });
                        place += subject.len();
                        body.extend([&before[..], subject].concat());
                    }
                    let behind = rng.below(60);
                    body.extend(rng.bytes(behind));
                    let record = raw_record(&header.header(), &body);
                    let trail = [&front[..], &record, &rng.bytes(9)].concat();

                    let run = run(&trail, State::default());
                    let refusal = run.refusal.expect("two subjects");
                    assert_eq!(refusal.reason, Reason::SecondSubject);
                    let item = run.state.place;
                    let found = TwoSubjects::find(&trail, item, &refusal).expect("they are there");
                    assert_eq!(
                        (found.item, &found.subjects[..]),
                        (front.len(), &subjects[..])
                    );
                }
            }
        }
    }

    /// In a record of the largest size, with nothing or a large token before,
    /// between and behind.
    #[test]
    fn subjects_far_apart() {
        let mut rng = Rng::new(854);
        let subject = token(&mut rng, 0x24);
        let mut large = vec![0; 65_535 - 25 - 2 * subject.len()];
        let size = large.len();
        write_token(
            &mut large,
            &NewToken::Opaque {
                bytes: &vec![0x24; size - 3],
            },
        )
        .expect("room");
        let header = good_header(&mut rng);
        let mut fields = header.header();
        (fields.number, fields.address) = (0x14, &[]);
        let (near, far) = (18 + subject.len(), 18 + size);
        for (tokens, places) in [
            ([&large[..], &subject, &subject], [far, far + subject.len()]),
            ([&subject[..], &large, &subject], [18, near + size]),
            ([&subject[..], &subject, &large], [18, near]),
        ] {
            let trail = raw_record(&fields, &tokens.concat());
            assert_eq!(trail.len(), 65_535);
            let refusal = item_at(&trail, 0).expect_err("two subjects");
            let found = TwoSubjects::find(&trail, 0, &refusal).expect("they are there");
            assert_eq!(found.subjects.map(|subject| subject.place), places);
        }
    }

    /// Other refusals, and places where no second subject stands.
    #[test]
    fn nothing_else_is_found() {
        let mut rng = Rng::new(855);
        let body = token(&mut rng, 0x24).repeat(2);
        let trail = raw_record(&good_header(&mut rng).header(), &body);
        let bad = item_at(&trail, 0).expect_err("two subjects");
        assert!(TwoSubjects::find(&trail, 0, &bad).is_some());
        for reason in [Reason::BadText, Reason::PastEnd, Reason::AddressType] {
            let other = Refusal { reason, ..bad };
            assert_eq!(TwoSubjects::find(&trail, 0, &other), None);
        }
        let first = bad.place - body.len() / 2;
        for place in [0, first, first + 1, bad.place + 1, trail.len(), usize::MAX] {
            let elsewhere = Refusal { place, ..bad };
            assert_eq!(TwoSubjects::find(&trail, 0, &elsewhere), None, "{place}");
        }
        for item in [1, bad.place, bad.place + 1, usize::MAX] {
            assert_eq!(TwoSubjects::find(&trail, item, &bad), None);
        }
        for end in 0..trail.len() {
            assert_eq!(TwoSubjects::find(&trail[..end], 0, &bad), None);
        }
    }
}
