//! Writing tokens, file tokens and records at the start of a lent
//! destination. What is refused is not written, not even in part.

use crate::address::Octets;
use crate::item::{Header, HeaderKind};
use crate::refusal::{written, Refusal};
use crate::sys;
use crate::token::{NewToken, Token};
use core::net::IpAddr;

/// Calls the writer of a subject or process token. The address is a number,
/// or a pointer and a length.
macro_rules! party {
    ($writer:ident, $dst:ident, $party:ident, $($address:expr),+) => {
        sys::$writer(
            $dst.as_mut_ptr(),
            $dst.len(),
            $party.audit,
            $party.effective_user,
            $party.effective_group,
            $party.real_user,
            $party.real_group,
            $party.process,
            $party.session,
            $party.port,
            $($address),+
        )
    };
}

/// The same for an expanded token, whose address is lent.
macro_rules! party_ex {
    ($writer:ident, $dst:ident, $party:ident) => {{
        let octets = Octets::of($party.address);
        party!($writer, $dst, $party, octets.as_ptr(), octets.len())
    }};
}

/// Calls the writer of a record, which is lent an address where its header has
/// one.
macro_rules! record {
    ($writer:ident, $dst:ident, $header:ident, $body:ident $(, $address:ident)?) => {
        sys::$writer(
            $dst.as_mut_ptr(),
            $dst.len(),
            $header.version,
            $header.event,
            $header.modifier,
            $header.seconds,
            $header.nanoseconds,
            $($address.as_ptr(), $address.len(),)?
            $body.as_ptr(),
            $body.len(),
        )
    };
}

/// Writes a body token and answers how many bytes it took.
///
/// Refused, in this order, are a text, an opaque or groups too large for
/// their length field, a text with a zero byte, at its place in the text, or
/// strings that do not agree with their count, and a destination that is too
/// small.
///
/// ```
/// use bsm::{token_address_at, token_at, write_token, NewToken, Reason, Token};
/// use core::net::IpAddr;
///
/// let mut body = [0; 16];
/// let size = write_token(&mut body, &NewToken::Path { text: b"/etc" })?;
/// let read = token_at(&body[..size], 0)?.unwrap();
/// assert_eq!(read.token, Token::Path { text: b"/etc" });
///
/// let refused = write_token(&mut body[..4], &NewToken::Seq { sequence: 1 });
/// assert_eq!(refused.unwrap_err().reason, Reason::NoRoom);
/// let refused = write_token(&mut body, &NewToken::Path { text: b"/e\0c" });
/// assert_eq!(refused.unwrap_err().place, 2);
///
/// // An address of either length, whose type is written before it.
/// for (address, type_and_size) in [("192.0.2.7", (4, 9)), ("2001:db8::7", (16, 21))] {
///     let ip: IpAddr = address.parse().unwrap();
///     let mut body = [0; 32];
///     let size = write_token(&mut body, &NewToken::InAddrEx { address: ip })?;
///     assert_eq!((body[4], size), type_and_size);
///     assert_eq!(token_address_at(&body[..size], 0), Some(ip));
/// }
/// # Ok::<(), bsm::Refusal>(())
/// ```
#[inline]
pub fn write_token(dst: &mut [u8], token: &NewToken<'_>) -> Result<usize, Refusal> {
    let (to, room) = (dst.as_mut_ptr(), dst.len());
    // SAFETY: each pointer and the length behind it are those of a lent
    // slice, or of an address's bytes held here, and no other part lent
    // overlaps `dst`, which is borrowed alone.
    written(unsafe {
        match *token {
            Token::Path { text } => sys::bsm_write_path(to, room, text.as_ptr(), text.len()),
            Token::Text { text } => sys::bsm_write_text(to, room, text.as_ptr(), text.len()),
            Token::Opaque { bytes } => sys::bsm_write_opaque(to, room, bytes.as_ptr(), bytes.len()),
            Token::Subject32(ref p) => party!(bsm_write_subject32, dst, p, p.address),
            Token::Process32(ref p) => party!(bsm_write_process32, dst, p, p.address),
            Token::Subject64(ref p) => party!(bsm_write_subject64, dst, p, p.address),
            Token::Process64(ref p) => party!(bsm_write_process64, dst, p, p.address),
            Token::Subject32Ex(ref p) => party_ex!(bsm_write_subject32_ex, dst, p),
            Token::Process32Ex(ref p) => party_ex!(bsm_write_process32_ex, dst, p),
            Token::Subject64Ex(ref p) => party_ex!(bsm_write_subject64_ex, dst, p),
            Token::Process64Ex(ref p) => party_ex!(bsm_write_process64_ex, dst, p),
            Token::Return32 { error, value } => sys::bsm_write_return32(to, room, error, value),
            Token::Return64 { error, value } => sys::bsm_write_return64(to, room, error, value),
            Token::InAddr { address } => sys::bsm_write_in_addr(to, room, address),
            Token::InAddrEx { address } => {
                let octets = Octets::of(address);
                sys::bsm_write_in_addr_ex(to, room, octets.as_ptr(), octets.len())
            }
            Token::Ip(ref ip) => sys::bsm_write_ip(
                to,
                room,
                ip.version,
                ip.service,
                ip.length,
                ip.id,
                ip.offset,
                ip.ttl,
                ip.protocol,
                ip.checksum,
                ip.source,
                ip.destination,
            ),
            Token::Iport { port } => sys::bsm_write_iport(to, room, port),
            Token::Arg32 {
                argument,
                value,
                text,
            } => sys::bsm_write_arg32(to, room, argument, value, text.as_ptr(), text.len()),
            Token::Arg64 {
                argument,
                value,
                text,
            } => sys::bsm_write_arg64(to, room, argument, value, text.as_ptr(), text.len()),
            Token::Seq { sequence } => sys::bsm_write_seq(to, room, sequence),
            Token::IpcPerm(ref ipc) => sys::bsm_write_ipc_perm(
                to,
                room,
                ipc.user,
                ipc.group,
                ipc.creator_user,
                ipc.creator_group,
                ipc.mode,
                ipc.sequence,
                ipc.key,
            ),
            Token::NewGroups { groups } => {
                sys::bsm_write_newgroups(to, room, groups.as_ptr(), groups.len())
            }
            Token::ExecArgs(s) => {
                sys::bsm_write_exec_args(to, room, s.count, s.bytes.as_ptr(), s.bytes.len())
            }
            Token::ExecEnv(s) => {
                sys::bsm_write_exec_env(to, room, s.count, s.bytes.as_ptr(), s.bytes.len())
            }
            Token::Exit { status, value } => sys::bsm_write_exit(to, room, status, value),
        }
    })
}

/// Writes a file token and answers how many bytes it took. The name comes
/// without its zero byte and has at most 1,023 bytes.
///
/// Refused, in this order, are microseconds over 999,999, a name too long, or
/// one with a zero byte, at its place in the name, and a destination that is
/// too small.
///
/// ```
/// let mut trail = [0; 64];
/// let size = bsm::write_file(&mut trail, 5, 7, b"20251115")?;
/// assert_eq!(bsm::name_at(&trail[..size], 0), Some(&b"20251115"[..]));
///
/// let refused = bsm::write_file(&mut trail, 5, 7, b"2025\01115");
/// assert_eq!(refused.unwrap_err().place, 4);
/// # Ok::<(), bsm::Refusal>(())
/// ```
#[inline]
pub fn write_file(
    dst: &mut [u8],
    seconds: u32,
    microseconds: u32,
    name: &[u8],
) -> Result<usize, Refusal> {
    // SAFETY: as in `write_token`.
    written(unsafe {
        sys::bsm_write_file(
            dst.as_mut_ptr(),
            dst.len(),
            seconds,
            microseconds,
            name.as_ptr(),
            name.len(),
        )
    })
}

/// Writes a record of a header, a body and a trailer, and answers how many
/// bytes it took.
///
/// Refused, in this order, are an expanded header, whose address only
/// [`write_record_ex`] is given
/// ([`Reason::AddressType`](crate::Reason::AddressType)), more than 65,535
/// bytes in all, a version over 255 or times too large for a header32,
/// nanoseconds over 999,999,999, the body's first bad token or second subject,
/// as [`walk_body`](crate::walk_body) refuses it, and a destination that is too
/// small.
///
/// ```
/// use bsm::{item_at, write_record, Header, HeaderKind, Item, Reason};
///
/// let mut given = Header::new(HeaderKind::Header32);
/// given.version = 11;
/// given.event = 72;
/// given.seconds = 1;
/// given.nanoseconds = 2;
/// let mut trail = [0; 64];
/// let size = write_record(&mut trail, &given, b"\x27\0\0\0\0\0")?;
/// match item_at(&trail[..size], 0)? {
///     Some(Item::Record { header, body, tokens, .. }) => {
///         assert_eq!(header, given);
///         assert_eq!(body, b"\x27\0\0\0\0\0");
///         assert_eq!(tokens, 1);
///     }
///     other => panic!("no record: {other:?}"),
/// }
///
/// given.version = 256;
/// let refused = write_record(&mut trail, &given, b"");
/// assert_eq!(refused.unwrap_err().reason, Reason::TooLarge);
///
/// given.kind = HeaderKind::Header32Ex;
/// let refused = write_record(&mut trail, &given, b"");
/// assert_eq!(refused.unwrap_err().reason, Reason::AddressType);
/// # Ok::<(), bsm::Refusal>(())
/// ```
#[inline]
pub fn write_record(dst: &mut [u8], header: &Header, body: &[u8]) -> Result<usize, Refusal> {
    // The library is asked all the same, so that it is the one who refuses.
    let none: &[u8] = &[];
    // SAFETY: as in `write_token`.
    written(unsafe {
        match header.kind {
            HeaderKind::Header32 => record!(bsm_write_record32, dst, header, body),
            HeaderKind::Header64 => record!(bsm_write_record64, dst, header, body),
            HeaderKind::Header32Ex => record!(bsm_write_record32_ex, dst, header, body, none),
            HeaderKind::Header64Ex => record!(bsm_write_record64_ex, dst, header, body, none),
        }
    })
}

/// Writes a record with an expanded header, a header32_ex or a header64_ex,
/// and answers how many bytes it took. The times are as wide as
/// [`Header::kind`] says, be it an expanded kind or not.
///
/// Refused, in this order, are more than 65,535 bytes in all, a version over
/// 255 or times too large for a header32_ex, nanoseconds over 999,999,999, the
/// body's first bad token or second subject, as
/// [`walk_body`](crate::walk_body) refuses it, and a destination that is too
/// small.
///
/// ```
/// use bsm::{address_at, item_at, write_record_ex, Header, HeaderKind, Item};
///
/// let given = Header::new(HeaderKind::Header32Ex);
/// let host = "2001:db8::7".parse().unwrap();
/// let mut trail = [0; 64];
/// let size = write_record_ex(&mut trail, &given, host, b"")?;
/// assert_eq!(size, 25 + 4 + 16);
///
/// let read = item_at(&trail[..size], 0)?;
/// assert!(matches!(read, Some(Item::Record { header, .. }) if header == given));
/// assert_eq!(address_at(&trail[..size], 0), Some(host));
/// # Ok::<(), bsm::Refusal>(())
/// ```
#[inline]
pub fn write_record_ex(
    dst: &mut [u8],
    header: &Header,
    address: IpAddr,
    body: &[u8],
) -> Result<usize, Refusal> {
    let octets = Octets::of(address);
    // SAFETY: as in `write_token`.
    written(unsafe {
        match header.kind {
            HeaderKind::Header32 | HeaderKind::Header32Ex => {
                record!(bsm_write_record32_ex, dst, header, body, octets)
            }
            HeaderKind::Header64 | HeaderKind::Header64Ex => {
                record!(bsm_write_record64_ex, dst, header, body, octets)
            }
        }
    })
}

#[cfg(test)]
mod tests {
    use super::*;
    use crate::{item_at, tokens, walk_body, Newest, Party, Reader, Reason, Step};

    const HOST: IpAddr = IpAddr::V6(core::net::Ipv6Addr::LOCALHOST);

    fn party<P, A>(port: P, address: A) -> Party<P, A> {
        Party {
            audit: 1,
            effective_user: 2,
            effective_group: 3,
            real_user: 4,
            real_group: 5,
            process: 6,
            session: 7,
            port,
            address,
        }
    }

    /// A subject of each kind, and the number of the process like it.
    fn subjects() -> [(NewToken<'static>, u8); 4] {
        [
            (NewToken::Subject32(party(8, 9)), 0x26),
            (NewToken::Subject64(party(8, 9)), 0x77),
            (NewToken::Subject32Ex(party(8, HOST)), 0x7B),
            (NewToken::Subject64Ex(party(8, HOST)), 0x7D),
        ]
    }

    /// Bodies of two subjects of all kinds, where the second starts, and the
    /// number of the process like it.
    fn bodies(mut with: impl FnMut(&[u8], usize, u8)) {
        for (first, _) in subjects() {
            for (second, process) in subjects() {
                let mut body = [0; 128];
                let at = write_token(&mut body, &first).unwrap();
                let end = at + write_token(&mut body[at..], &second).unwrap();
                with(&body[..end], at, process);
            }
        }
    }

    #[test]
    fn a_second_subject_is_not_written() {
        bodies(|body, place, _| {
            let refused = Err(Refusal {
                reason: Reason::SecondSubject,
                place,
                need: 0,
            });
            assert_eq!(walk_body(body), refused);
            assert_eq!(tokens(body).filter(|token| token.is_ok()).count(), 2);
            let mut dst = [0xA5; 256];
            for kind in [HeaderKind::Header32, HeaderKind::Header64] {
                let header = Header::new(kind);
                assert_eq!(write_record(&mut dst, &header, body), refused);
                assert_eq!(write_record_ex(&mut dst, &header, HOST, body), refused);
            }
            assert_eq!(dst, [0xA5; 256]);
        });
    }

    /// A process is made the second subject in a record that was written.
    #[test]
    fn a_second_subject_is_not_read() {
        bodies(|body, at, process| {
            let mut good = [0; 128];
            good[..body.len()].copy_from_slice(body);
            good[at] = process;
            let mut trail = [0; 256];
            let header = Header::new(HeaderKind::Header64);
            let size = write_record_ex(&mut trail, &header, HOST, &good[..body.len()]).unwrap();
            assert_eq!(Newest::new(&trail[..size]).count(), 1);
            // The trailer has seven bytes.
            let place = size - 7 - (body.len() - at);
            assert_eq!(trail[place], process);
            trail[place] = body[at];

            let refusal = Refusal {
                reason: Reason::SecondSubject,
                place,
                need: 0,
            };
            let mut reader = Reader::new();
            let short = reader.next(&trail[..size - 1]);
            assert_eq!(
                short,
                Step::Short {
                    place: 0,
                    need: size
                }
            );
            for end in size..=trail.len() {
                assert_eq!(item_at(&trail[..end], 0), Err(refusal));
                assert_eq!(reader.next(&trail[..end]), Step::Refused(refusal));
            }
            assert_eq!(Newest::new(&trail[..size]).count(), 0);
        });
    }
}
