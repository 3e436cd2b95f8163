//! Trails for the tests.

use bsm::{write_file, write_record, write_record_ex, write_token};
use bsm::{Header, HeaderKind, IpHeader, IpcPerm, NewToken, Party, Refusal, Strings, Token};
use generator::raw_record;
use std::net::{IpAddr, Ipv4Addr, Ipv6Addr};

/// What a trail would write to a terminal if it could: an escape sequence,
/// line ends, tabs, quotes, Latin-1, UTF-8 and the controls of both.
pub const STEERING: &[u8] =
    b"\x1b[2J\x07\r\n\t\"\\\x7f\x80\x9b\xff \xc3\xb6 \xe2\x82\xac \xf0\x9f\x98\x80";

/// A record of these tokens.
pub fn record(header: &Header, tokens: &[NewToken<'_>]) -> Vec<u8> {
    written(tokens, |dst, body| write_record(dst, header, body))
}

/// The same with an expanded header that has this address.
pub fn record_ex(header: &Header, address: IpAddr, tokens: &[NewToken<'_>]) -> Vec<u8> {
    written(tokens, |dst, body| {
        write_record_ex(dst, header, address, body)
    })
}

fn written(
    tokens: &[NewToken<'_>],
    write: impl FnOnce(&mut [u8], &[u8]) -> Result<usize, Refusal>,
) -> Vec<u8> {
    let mut record = vec![0; 65_536];
    let size = write(&mut record, &body(tokens)).expect("a good record");
    record.truncate(size);
    record
}

/// These tokens, one behind the other.
fn body(tokens: &[NewToken<'_>]) -> Vec<u8> {
    let mut body = vec![0; 65_536];
    let mut used = 0;
    for token in tokens {
        used += write_token(&mut body[used..], token).expect("a good token");
    }
    body.truncate(used);
    body
}

/// A record of these tokens, also where no writer makes one of them. The
/// header is not an expanded one.
pub fn joined(header: &Header, tokens: &[NewToken<'_>]) -> Vec<u8> {
    let header = reference::Header {
        number: header.kind.number(),
        version: header.version,
        event: header.event,
        modifier: header.modifier,
        address: &[],
        seconds: header.seconds,
        nanoseconds: header.nanoseconds,
    };
    raw_record(&header, &body(tokens))
}

/// A file token, and two records that somebody has made into one.
pub fn joined_trail() -> Vec<u8> {
    let mut file = [0; 13];
    write_file(&mut file, 5, 7, b"a").expect("room");
    let subject = |user, session| Party {
        audit: user,
        effective_user: user,
        effective_group: 100,
        real_user: user,
        real_group: 100,
        process: 4_242,
        session,
        port: 0,
        address: 0x7F00_0001,
    };
    let tokens = [
        Token::Subject32(subject(1_000, 77)),
        Token::Path {
            text: b"/bookings/cancel",
        },
        Token::Subject32(subject(1_001, 78)),
        Token::Path {
            text: b"/bookings/4712",
        },
    ];
    let record = joined(&header(6_152, 1_763_200_000), &tokens);
    [&file[..], &record].concat()
}

/// A header with this event and this second.
pub fn header(event: u16, seconds: u64) -> Header {
    let mut header = Header::new(HeaderKind::Header32);
    header.version = 11;
    header.event = event;
    header.seconds = seconds;
    header
}

/// Addresses of both kinds, of which the last is an IPv4 address in IPv6's
/// form.
pub const ADDRESSES: [IpAddr; 4] = [
    IpAddr::V4(Ipv4Addr::new(192, 0, 2, 7)),
    IpAddr::V6(Ipv6Addr::new(0x2001, 0xDB8, 0, 0, 0, 0, 0, 7)),
    IpAddr::V6(Ipv6Addr::LOCALHOST),
    IpAddr::V6(Ipv4Addr::new(192, 0, 2, 7).to_ipv6_mapped()),
];

/// A party with users and session that tell each other apart.
pub fn party<P>(first: u32, port: P) -> Party<P> {
    party_at(first, port, 0xC000_0200 + first)
}

/// The same with this address.
pub fn party_at<P, A>(first: u32, port: P, address: A) -> Party<P, A> {
    Party {
        audit: first,
        effective_user: first + 1,
        effective_group: first + 2,
        real_user: first + 3,
        real_group: first + 4,
        process: first + 5,
        session: first + 6,
        port,
        address,
    }
}

/// A token of each kind, with texts that steer a terminal.
pub fn every_token() -> Vec<NewToken<'static>> {
    vec![
        Token::Path {
            text: b"/etc/passwd",
        },
        Token::Subject32(party(10, 22)),
        Token::Process32(party(20, 23)),
        Token::Return32 {
            error: 255,
            value: u32::MAX,
        },
        Token::Text { text: STEERING },
        Token::Opaque { bytes: STEERING },
        Token::InAddr {
            address: 0x7F00_0001,
        },
        Token::Ip(IpHeader {
            version: 69,
            service: 1,
            length: 60_000,
            id: 2,
            offset: 3,
            ttl: 64,
            protocol: 6,
            checksum: 65_535,
            source: 0xC633_6407,
            destination: u32::MAX,
        }),
        Token::Iport { port: 8_080 },
        Token::Arg32 {
            argument: 1,
            value: 700,
            text: b"fd",
        },
        Token::Seq { sequence: 9 },
        Token::IpcPerm(IpcPerm {
            user: 1,
            group: 2,
            creator_user: 3,
            creator_group: 4,
            mode: 0o600,
            sequence: 6,
            key: 7,
        }),
        Token::NewGroups {
            groups: &[10, 20, u32::MAX],
        },
        Token::ExecArgs(Strings {
            count: 3,
            bytes: b"ls\0\0-l \x1b[31m\0",
        }),
        Token::ExecEnv(Strings {
            count: 0,
            bytes: b"",
        }),
        Token::Exit {
            status: 3,
            value: 4,
        },
        Token::Arg64 {
            argument: 2,
            value: u64::MAX,
            text: b"",
        },
        Token::Return64 {
            error: 0,
            value: u64::MAX,
        },
        Token::Subject64(party(30, 1 << 40)),
        Token::Process64(party(40, u64::MAX)),
        Token::Subject32Ex(party_at(50, 22, ADDRESSES[0])),
        Token::Process32Ex(party_at(60, 23, ADDRESSES[1])),
        Token::Subject64Ex(party_at(70, 1 << 40, ADDRESSES[1])),
        Token::Process64Ex(party_at(80, u64::MAX, ADDRESSES[3])),
        Token::InAddrEx {
            address: ADDRESSES[2],
        },
    ]
}

/// All of them in four records, so that no record has two subjects, one with
/// each header. The fields of the second header are at their bounds.
pub fn tokens_trail() -> Vec<u8> {
    let usual = header(6_152, 1_763_200_000);
    let mut wide = header(u16::MAX, u64::MAX);
    wide.kind = HeaderKind::Header64;
    wide.version = 255;
    wide.modifier = u16::MAX;
    wide.nanoseconds = 999_999_999;
    let [mut third, mut fourth] = [usual; 2];
    third.kind = HeaderKind::Header32Ex;
    fourth.kind = HeaderKind::Header64Ex;

    let mut tokens = every_token();
    let mut taken = |is_it: fn(&NewToken<'_>) -> bool| {
        let at = tokens.iter().position(is_it).expect("a token of each kind");
        [tokens.remove(at)]
    };
    let second = taken(|token| matches!(token, Token::Subject64(_)));
    let small = taken(|token| matches!(token, Token::Subject32Ex(_)));
    let large = taken(|token| matches!(token, Token::Subject64Ex(_)));
    [
        record(&usual, &tokens),
        record(&wide, &second),
        record_ex(&third, ADDRESSES[0], &small),
        record_ex(&fourth, ADDRESSES[1], &large),
    ]
    .concat()
}
