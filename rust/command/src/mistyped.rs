//! Which type an address has that is refused with 13, in words. The library
//! names the header or token. Where its type stands is asked of the library
//! too, by what it writes for such a one, so that no layout is read here.

use crate::fields::{header_name, token_name};
use bsm::{
    write_record_ex, write_token, Header, HeaderKind, NewToken, Party, Reason, Refusal, Token,
};
use std::fmt::{self, Display, Formatter};
use std::net::IpAddr;

/// An address whose type is none.
#[derive(Clone, Copy, Debug, PartialEq, Eq)]
pub struct Mistyped {
    /// The name of the header or token that has it.
    pub name: &'static str,
    /// Where that starts in its trail.
    pub start: usize,
    /// Where the type stands.
    pub place: usize,
    /// The type.
    pub kind: u32,
}

impl Mistyped {
    /// The address for which a trail is refused like this; nothing where it is
    /// refused for something else.
    pub fn find(trail: &[u8], refusal: &Refusal) -> Option<Mistyped> {
        if refusal.reason != Reason::AddressType {
            return None;
        }
        let start = refusal.place;
        let (name, at) = type_in(*trail.get(start)?)?;
        let place = start + at;
        let bytes = trail.get(place..)?.first_chunk()?;
        Some(Mistyped {
            name,
            start,
            place,
            kind: u32::from_be_bytes(*bytes),
        })
    }
}

/// The name of the header or token with this number, and how far behind its
/// start the type of its address stands.
fn type_in(number: u8) -> Option<(&'static str, usize)> {
    let address = IpAddr::from([0; 4]);
    let headers = [HeaderKind::Header32Ex, HeaderKind::Header64Ex];
    let mut bytes = [0; 64];
    let name = match headers.into_iter().find(|kind| kind.number() == number) {
        Some(kind) => {
            write_record_ex(&mut bytes, &Header::new(kind), address, &[]).ok()?;
            header_name(kind)
        }
        None => {
            let mut tokens = tokens(address).into_iter();
            let token = tokens.find(|token| token.number() == number)?;
            write_token(&mut bytes, &token).ok()?;
            token_name(&token)
        }
    };
    // The fields up to the type are zero, and the type is 4, its last byte.
    let last = bytes.iter().position(|&byte| byte == 4)?;
    Some((name, last.checked_sub(3)?))
}

/// The tokens with this address, all else zero.
fn tokens(address: IpAddr) -> [NewToken<'static>; 5] {
    [
        Token::Subject32Ex(party(0, address)),
        Token::Process32Ex(party(0, address)),
        Token::Subject64Ex(party(0, address)),
        Token::Process64Ex(party(0, address)),
        Token::InAddrEx { address },
    ]
}

fn party<P>(port: P, address: IpAddr) -> Party<P, IpAddr> {
    Party {
        audit: 0,
        effective_user: 0,
        effective_group: 0,
        real_user: 0,
        real_group: 0,
        process: 0,
        session: 0,
        port,
        address,
    }
}

impl Display for Mistyped {
    fn fmt(&self, f: &mut Formatter<'_>) -> fmt::Result {
        let Mistyped {
            name,
            start,
            place,
            kind,
        } = self;
        write!(
            f,
            "bad address type in the {name} at place {start}: \
             the type, at place {place}, is {kind} (0x{kind:08x}), neither 4 nor 16"
        )
    }
}

#[cfg(test)]
mod tests {
    use super::*;
    use bsm::{run, walk_body, State};
    use generator::{with_address_fault, AddressFault, Rng};

    /// Names of the headers and tokens with an address, and where the layouts
    /// have its type.
    const TYPES: [(u8, &str, usize); 7] = [
        (0x15, "header32_ex", 10),
        (0x79, "header64_ex", 10),
        (0x7A, "subject32_ex", 33),
        (0x7B, "process32_ex", 33),
        (0x7C, "subject64_ex", 37),
        (0x7D, "process64_ex", 37),
        (0x7E, "in_addr_ex", 1),
    ];

    #[test]
    fn types_stand_where_the_layouts_have_them() {
        for number in 0..=255 {
            let known = TYPES.into_iter().find(|(known, ..)| *known == number);
            assert_eq!(type_in(number), known.map(|(_, name, at)| (name, at)));
        }
    }

    /// Records that are refused for the type of each header and token, behind
    /// a file token.
    #[test]
    fn types_that_are_found() {
        let mut rng = Rng::new(852);
        for (number, name, at) in TYPES {
            let aim = (number, AddressFault::Type);
            let mut seen = 0;
            for _ in 0..500 {
                let front = b"\x11\0\0\0\x05\0\0\0\x07\0\x02a\0".to_vec();
                let trail = [front, with_address_fault(&mut rng, aim)].concat();
                let refusal = run(&trail, State::default()).refusal.expect("a bad type");
                // A few are too long for a record.
                if refusal.reason != Reason::AddressType {
                    continue;
                }
                let found = Mistyped::find(&trail, &refusal).expect("it is one");
                assert_eq!((found.name, found.start), (name, refusal.place));
                assert_eq!(trail[found.start], number);
                assert_eq!(found.place, found.start + at);
                let kind = trail[found.place..].first_chunk();
                assert_eq!(kind, Some(&found.kind.to_be_bytes()));
                assert!(![4, 16].contains(&found.kind));
                seen += 1;
            }
            assert!(seen > 400, "{number:02X}: {seen}");
        }
    }

    /// Other refusals, and places where nothing stands.
    #[test]
    fn nothing_else_is_mistyped() {
        let body = b"\x7E\0\0\0\x06";
        let bad = walk_body(body).expect_err("a type of 6");
        assert!(Mistyped::find(body, &bad).is_some_and(|found| found.kind == 6));
        for reason in [Reason::BadText, Reason::PastEnd, Reason::Trailer] {
            assert_eq!(Mistyped::find(body, &Refusal { reason, ..bad }), None);
        }
        for place in [1, 5, 6, usize::MAX] {
            assert_eq!(Mistyped::find(body, &Refusal { place, ..bad }), None);
        }
        assert_eq!(Mistyped::find(&body[..4], &bad), None);
    }
}
