//! Reading body tokens. Places are counted from the body's start.

use crate::address::address_of;
use crate::item::{part, told_part};
use crate::parts::{Groups, Strings};
use crate::refusal::{written, Refusal};
use crate::sys;
use crate::token::{IpHeader, IpcPerm, Party, Token};
use crate::unfit::unfit;
use core::iter::FusedIterator;
use core::net::IpAddr;

/// A token and its size.
#[derive(Clone, Copy, Debug, PartialEq, Eq)]
pub struct TokenAt<'a> {
    /// The token.
    pub token: Token<'a>,
    /// Bytes of the whole token.
    pub size: usize,
}

/// The token at a place of a body, or nothing where the body ends there.
/// What stands before it does not count:
/// [`Reason::SecondSubject`](crate::Reason::SecondSubject) is told by
/// [`walk_body`].
///
/// ```
/// use bsm::{token_at, Token};
///
/// let body = b"\x27\0\0\0\0\x05\x23\0\x05/etc\0";
/// let first = token_at(body, 0)?.unwrap();
/// assert_eq!(first.token, Token::Return32 { error: 0, value: 5 });
/// let second = token_at(body, first.size)?.unwrap();
/// assert_eq!(second.token, Token::Path { text: b"/etc" });
/// assert_eq!(token_at(body, body.len()), Ok(None));
/// # Ok::<(), bsm::Refusal>(())
/// ```
#[inline]
pub fn token_at(body: &[u8], place: usize) -> Result<Option<TokenAt<'_>>, Refusal> {
    // SAFETY: the pointer and the length are those of a lent slice.
    let told = unsafe { sys::bsm_token_at(body.as_ptr(), body.len(), place) };
    told_token(body, &told)
}

/// The string of the path or text token at a place without its zero byte;
/// nothing where another token, no token or a refused one stands.
#[inline]
pub fn text_at(body: &[u8], place: usize) -> Option<&[u8]> {
    // SAFETY: the pointer and the length are those of a lent slice.
    let told = unsafe { sys::bsm_text_at(body.as_ptr(), body.len(), place) };
    told_part(body, told)
}

/// The address of the expanded token at a place; nothing where another token,
/// no token or a refused one stands.
///
/// [`Tokens::place`] says where the next token starts. Since the token is read
/// once more, ask only where it is an expanded one.
///
/// ```
/// use bsm::{token_address_at, tokens, Token};
/// use core::net::IpAddr;
///
/// let body = b"\x2c\0\x16\x7e\0\0\0\x04\xc0\0\x02\x07";
/// let mut tokens = tokens(body);
/// assert_eq!(tokens.next(), Some(Ok(Token::Iport { port: 22 })));
/// let place = tokens.place();
/// assert_eq!(tokens.next(), Some(Ok(Token::InAddrEx { address: () })));
/// assert_eq!(token_address_at(body, place), Some(IpAddr::from([192, 0, 2, 7])));
/// assert_eq!(token_address_at(body, 0), None);
/// ```
#[inline]
pub fn token_address_at(body: &[u8], place: usize) -> Option<IpAddr> {
    // SAFETY: the pointer and the length are those of a lent slice.
    let told = unsafe { sys::bsm_token_at(body.as_ptr(), body.len(), place) };
    told_token_address(body, &told)
}

/// How many tokens a body has, or the first refusal in it, with places
/// counted from the body's start. A body has one subject token at most: the
/// next one is refused, if not for itself then with
/// [`Reason::SecondSubject`](crate::Reason::SecondSubject).
///
/// ```
/// use bsm::{tokens, walk_body, Reason};
///
/// // A port, and a text of three bytes whose last one is not zero.
/// let refused = walk_body(b"\x2c\0\x16\x28\0\x03abc").unwrap_err();
/// assert_eq!((refused.reason, refused.place), (Reason::BadText, 8));
///
/// // Two subjects, each of which is good by itself.
/// let mut body = [0; 2 * 37];
/// (body[0], body[37]) = (0x24, 0x24);
/// let refused = walk_body(&body).unwrap_err();
/// assert_eq!((refused.reason, refused.place), (Reason::SecondSubject, 37));
/// assert!(tokens(&body).all(|token| token.is_ok()));
/// // A process may stand beside a subject.
/// body[37] = 0x26;
/// assert_eq!(walk_body(&body), Ok(2));
/// ```
#[inline]
pub fn walk_body(body: &[u8]) -> Result<usize, Refusal> {
    // SAFETY: the pointer and the length are those of a lent slice.
    written(unsafe { sys::bsm_walk_body(body.as_ptr(), body.len()) })
}

/// The tokens of a body, each as [`token_at`] reads it. The first refusal
/// comes as an error and is the last; the body of an accepted record has none.
///
/// ```
/// use bsm::{tokens, Token};
///
/// let body = b"\x2c\0\x16\x2f\0\0\0\x07";
/// let read: Result<Vec<_>, _> = tokens(body).collect();
/// assert_eq!(read?, [Token::Iport { port: 22 }, Token::Seq { sequence: 7 }]);
/// # Ok::<(), bsm::Refusal>(())
/// ```
#[inline]
pub const fn tokens(body: &[u8]) -> Tokens<'_> {
    Tokens {
        body,
        place: 0,
        refused: false,
    }
}

/// The iterator that [`tokens`] gives.
#[derive(Clone, Debug)]
pub struct Tokens<'a> {
    body: &'a [u8],
    place: usize,
    refused: bool,
}

impl Tokens<'_> {
    /// Where the next token starts in the body.
    #[inline]
    pub const fn place(&self) -> usize {
        self.place
    }
}

impl<'a> Iterator for Tokens<'a> {
    type Item = Result<Token<'a>, Refusal>;

    #[inline]
    fn next(&mut self) -> Option<Self::Item> {
        if self.refused {
            return None;
        }
        match token_at(self.body, self.place) {
            Ok(None) => None,
            Ok(Some(TokenAt { token, size })) => {
                self.place += size;
                Some(Ok(token))
            }
            Err(refusal) => {
                self.refused = true;
                Some(Err(refusal))
            }
        }
    }
}

impl FusedIterator for Tokens<'_> {}

/// The answer at a place of `body`.
#[inline]
pub(crate) fn told_token<'a>(
    body: &'a [u8],
    told: &sys::bsm_token,
) -> Result<Option<TokenAt<'a>>, Refusal> {
    match told.kind {
        sys::BSM_NO_TOKEN => Ok(None),
        sys::BSM_TOKEN => Ok(Some(TokenAt {
            token: token_of(body, told),
            size: told.size as usize,
        })),
        sys::BSM_TOKEN_REFUSED => Err(Refusal::of(told.number, told.place, told.need)),
        _ => unfit("token kind", told.kind),
    }
}

/// The address in the answer at a place of `body`, which stops where
/// [`told_token`] does.
#[inline]
pub(crate) fn told_token_address(body: &[u8], told: &sys::bsm_token) -> Option<IpAddr> {
    told_token(body, told).ok()??;
    matches!(told.token, 0x7A..=0x7E)
        .then(|| address_of(part(body, told.start as usize, told.length as usize)))
}

/// A token that was found, with its part of the body.
#[inline]
fn token_of<'a>(body: &'a [u8], told: &sys::bsm_token) -> Token<'a> {
    let values = &told.values;
    let [v0, v1, ..] = *values;
    let (port, address) = (values[7], values[8] as u32);
    let tail = part(body, told.start as usize, told.length as usize);
    let strings = Strings {
        count: told.count as u32,
        bytes: tail,
    };
    match told.token {
        0x23 => Token::Path { text: tail },
        0x24 => Token::Subject32(party(values, port as u32, address)),
        0x26 => Token::Process32(party(values, port as u32, address)),
        0x27 => Token::Return32 {
            error: v0 as u8,
            value: v1 as u32,
        },
        0x28 => Token::Text { text: tail },
        0x29 => Token::Opaque { bytes: tail },
        0x2A => Token::InAddr { address: v0 as u32 },
        0x2B => Token::Ip(ip_header(values)),
        0x2C => Token::Iport { port: v0 as u16 },
        0x2D => Token::Arg32 {
            argument: v0 as u8,
            value: v1 as u32,
            text: tail,
        },
        0x2F => Token::Seq {
            sequence: v0 as u32,
        },
        0x32 => Token::IpcPerm(ipc_perm(values)),
        0x3B => Token::NewGroups {
            groups: Groups::new(tail),
        },
        0x3C => Token::ExecArgs(strings),
        0x3D => Token::ExecEnv(strings),
        0x52 => Token::Exit {
            status: v0 as u32,
            value: v1 as u32,
        },
        0x71 => Token::Arg64 {
            argument: v0 as u8,
            value: v1,
            text: tail,
        },
        0x72 => Token::Return64 {
            error: v0 as u8,
            value: v1,
        },
        0x75 => Token::Subject64(party(values, port, address)),
        0x77 => Token::Process64(party(values, port, address)),
        0x7A => Token::Subject32Ex(party(values, port as u32, ())),
        0x7B => Token::Process32Ex(party(values, port as u32, ())),
        0x7C => Token::Subject64Ex(party(values, port, ())),
        0x7D => Token::Process64Ex(party(values, port, ())),
        0x7E => Token::InAddrEx { address: () },
        _ => unfit("token", told.token),
    }
}

#[inline]
fn party<P, A>(values: &[u64; 10], port: P, address: A) -> Party<P, A> {
    Party {
        audit: values[0] as u32,
        effective_user: values[1] as u32,
        effective_group: values[2] as u32,
        real_user: values[3] as u32,
        real_group: values[4] as u32,
        process: values[5] as u32,
        session: values[6] as u32,
        port,
        address,
    }
}

#[inline]
fn ip_header(values: &[u64; 10]) -> IpHeader {
    IpHeader {
        version: values[0] as u8,
        service: values[1] as u8,
        length: values[2] as u16,
        id: values[3] as u16,
        offset: values[4] as u16,
        ttl: values[5] as u8,
        protocol: values[6] as u8,
        checksum: values[7] as u16,
        source: values[8] as u32,
        destination: values[9] as u32,
    }
}

#[inline]
fn ipc_perm(values: &[u64; 10]) -> IpcPerm {
    IpcPerm {
        user: values[0] as u32,
        group: values[1] as u32,
        creator_user: values[2] as u32,
        creator_group: values[3] as u32,
        mode: values[4] as u32,
        sequence: values[5] as u32,
        key: values[6] as u32,
    }
}

#[cfg(test)]
mod tests {
    use super::*;

    /// As with items: each step copies its token, so that a larger one makes
    /// every reading slower. With the address in it, it had 64 bytes.
    #[test]
    fn tokens_are_small() {
        assert_eq!(size_of::<Token<'_>>(), 48);
        assert_eq!(size_of::<TokenAt<'_>>(), 56);
    }
}
