//! The reference's answers and arguments in the types of the crate `bsm`.

use bsm::{HeaderKind, Reason, Strings};
use reference as plain;
use std::net::IpAddr;

/// The reasons in the order of their numbers.
pub const REASONS: [Reason; 13] = [
    Reason::Short,
    Reason::Place,
    Reason::NotAnItem,
    Reason::RecordLength,
    Reason::Trailer,
    Reason::NotABodyToken,
    Reason::PastEnd,
    Reason::BadText,
    Reason::TimeRange,
    Reason::NoRoom,
    Reason::TooLarge,
    Reason::AddressType,
    Reason::SecondSubject,
];

/// A refusal.
pub fn refusal(refusal: plain::Refusal) -> bsm::Refusal {
    let mut reasons = REASONS.into_iter();
    let reason = reasons.find(|reason| reason.number() == refusal.number);
    bsm::Refusal {
        reason: reason.expect("a number of the library"),
        place: refusal.place,
        need: refusal.need,
    }
}

/// A state.
pub fn state(state: plain::State) -> bsm::State {
    bsm::State::new(state.place, state.records, state.files)
}

/// How a run ended.
pub fn run(run: plain::Run) -> bsm::Run {
    bsm::Run {
        state: state(run.state),
        refusal: run.refusal.map(refusal),
    }
}

/// An address of 4 or 16 bytes.
pub fn address(bytes: &[u8]) -> IpAddr {
    match *bytes {
        [a, b, c, d] => IpAddr::from([a, b, c, d]),
        _ => {
            let bytes: [u8; 16] = bytes.try_into().expect("4 or 16 bytes");
            IpAddr::from(bytes)
        }
    }
}

/// What a token that was read has of its address: nothing.
fn no_address(_: &[u8]) {}

/// A header, without its address.
pub fn header(header: plain::Header<'_>) -> bsm::Header {
    let mut same = bsm::Header::new(match header.number {
        0x14 => HeaderKind::Header32,
        0x74 => HeaderKind::Header64,
        0x15 => HeaderKind::Header32Ex,
        0x79 => HeaderKind::Header64Ex,
        number => panic!("{number:02X} is no header"),
    });
    same.version = header.version;
    same.event = header.event;
    same.modifier = header.modifier;
    same.seconds = header.seconds;
    same.nanoseconds = header.nanoseconds;
    same
}

/// An item, without the address in its header.
pub fn item(item: plain::Item<'_>) -> bsm::Item<'_> {
    match item {
        plain::Item::File {
            size,
            seconds,
            microseconds,
            name,
        } => bsm::Item::File {
            size,
            seconds,
            microseconds,
            name,
        },
        plain::Item::Record {
            size,
            header: fields,
            body,
            tokens,
        } => bsm::Item::Record {
            size,
            header: header(fields),
            body,
            tokens,
        },
    }
}

/// The name or the body of an item.
pub fn part_of_item<'a>(item: &bsm::Item<'a>) -> &'a [u8] {
    match *item {
        bsm::Item::File { name, .. } => name,
        bsm::Item::Record { body, .. } => body,
    }
}

/// The address in a record's header, where it has one.
pub fn address_of_item<'a>(item: &plain::Item<'a>) -> Option<&'a [u8]> {
    match *item {
        plain::Item::File { .. } => None,
        plain::Item::Record { header, .. } => {
            matches!(header.number, 0x15 | 0x79).then_some(header.address)
        }
    }
}

/// The address of an expanded token.
pub fn address_of_token<'a>(token: &plain::Token<'a>) -> Option<&'a [u8]> {
    use plain::Token::*;
    match *token {
        Subject32Ex(party) | Process32Ex(party) => Some(party.address),
        Subject64Ex(party) | Process64Ex(party) => Some(party.address),
        InAddrEx { address } => Some(address),
        _ => None,
    }
}

/// The varying part of a token, if its kind has one that is handed on as it
/// stands: a text without its zero byte.
pub fn part_of_token<'a>(token: &bsm::Token<'a>) -> Option<&'a [u8]> {
    use bsm::Token::*;
    match *token {
        Path { text } | Text { text } | Arg32 { text, .. } | Arg64 { text, .. } => Some(text),
        Opaque { bytes } => Some(bytes),
        NewGroups { groups } => Some(groups.bytes()),
        ExecArgs(strings) | ExecEnv(strings) => Some(strings.bytes),
        _ => None,
    }
}

fn party<P, A, B>(party: plain::Party<P, A>, address: impl Fn(A) -> B) -> bsm::Party<P, B> {
    bsm::Party {
        audit: party.audit,
        effective_user: party.effective_user,
        effective_group: party.effective_group,
        real_user: party.real_user,
        real_group: party.real_group,
        process: party.process,
        session: party.session,
        port: party.port,
        address: address(party.address),
    }
}

fn ip(header: plain::IpHeader) -> bsm::IpHeader {
    bsm::IpHeader {
        version: header.version,
        service: header.service,
        length: header.length,
        id: header.id,
        offset: header.offset,
        ttl: header.ttl,
        protocol: header.protocol,
        checksum: header.checksum,
        source: header.source,
        destination: header.destination,
    }
}

fn ipc(fields: plain::IpcPerm) -> bsm::IpcPerm {
    bsm::IpcPerm {
        user: fields.owner_user,
        group: fields.owner_group,
        creator_user: fields.creator_user,
        creator_group: fields.creator_group,
        mode: fields.mode,
        sequence: fields.sequence,
        key: fields.key,
    }
}

/// A function from one of the reference's two token types.
macro_rules! token_from {
    ($(#[$about:meta])* $name:ident, $from:ident, $to:ty, $groups:expr, $address:expr) => {
        $(#[$about])*
        pub fn $name<'a>(token: plain::$from<'a>) -> $to {
            use bsm::Token as T;
            use core::convert::identity as same;
            use plain::$from as F;
            match token {
                F::Path { text } => T::Path { text },
                F::Text { text } => T::Text { text },
                F::Opaque { bytes } => T::Opaque { bytes },
                F::Subject32(fields) => T::Subject32(party(fields, same)),
                F::Process32(fields) => T::Process32(party(fields, same)),
                F::Subject64(fields) => T::Subject64(party(fields, same)),
                F::Process64(fields) => T::Process64(party(fields, same)),
                F::Subject32Ex(fields) => T::Subject32Ex(party(fields, $address)),
                F::Process32Ex(fields) => T::Process32Ex(party(fields, $address)),
                F::Subject64Ex(fields) => T::Subject64Ex(party(fields, $address)),
                F::Process64Ex(fields) => T::Process64Ex(party(fields, $address)),
                F::InAddrEx { address: bytes } => T::InAddrEx { address: $address(bytes) },
                F::Return32 { error, value } => T::Return32 { error, value },
                F::Return64 { error, value } => T::Return64 { error, value },
                F::InAddr { address } => T::InAddr { address },
                F::Ip(fields) => T::Ip(ip(fields)),
                F::Iport { port } => T::Iport { port },
                F::Arg32 { argument, value, text } => T::Arg32 { argument, value, text },
                F::Arg64 { argument, value, text } => T::Arg64 { argument, value, text },
                F::Seq { sequence } => T::Seq { sequence },
                F::IpcPerm(fields) => T::IpcPerm(ipc(fields)),
                F::NewGroups { groups } => T::NewGroups { groups: $groups(groups) },
                F::ExecArgs { count, strings: bytes } => T::ExecArgs(Strings { count, bytes }),
                F::ExecEnv { count, strings: bytes } => T::ExecEnv(Strings { count, bytes }),
                F::Exit { status, value } => T::Exit { status, value },
            }
        }
    };
}

token_from! {
    /// A token as read, without the address of an expanded one.
    token, Token, bsm::Token<'a>, bsm::Groups::new, no_address
}

token_from! {
    /// A token to be written; its address has 4 or 16 bytes.
    new_token, WriteToken, bsm::NewToken<'a>, core::convert::identity, address
}
