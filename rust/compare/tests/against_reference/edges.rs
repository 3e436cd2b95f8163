//! The largest values that the writers take, and one more
//! (paper 01, 'Order when writing').

use bsm::{Header, HeaderKind, Item, NewToken, Reason, Refusal, Strings, Token};
use std::net::{IpAddr, Ipv4Addr, Ipv6Addr};

const IPV4: IpAddr = IpAddr::V4(Ipv4Addr::LOCALHOST);
const IPV6: IpAddr = IpAddr::V6(Ipv6Addr::LOCALHOST);

/// The kinds of headers, expanded ones with either address, and what stands
/// around a body.
const KINDS: [(HeaderKind, Option<IpAddr>, usize); 6] = [
    (HeaderKind::Header32, None, 25),
    (HeaderKind::Header64, None, 33),
    (HeaderKind::Header32Ex, Some(IPV4), 33),
    (HeaderKind::Header32Ex, Some(IPV6), 45),
    (HeaderKind::Header64Ex, Some(IPV4), 41),
    (HeaderKind::Header64Ex, Some(IPV6), 53),
];

/// Writes a record, with an address where there is one.
fn write_record(
    dst: &mut [u8],
    header: &Header,
    address: Option<IpAddr>,
    body: &[u8],
) -> Result<usize, Refusal> {
    match address {
        None => bsm::write_record(dst, header, body),
        Some(address) => bsm::write_record_ex(dst, header, address, body),
    }
}

/// A refusal at place 0.
fn refused(reason: Reason) -> Result<usize, Refusal> {
    refused_at(reason, 0)
}

fn refused_at(reason: Reason, place: usize) -> Result<usize, Refusal> {
    Err(Refusal {
        reason,
        place,
        need: 0,
    })
}

/// Writes a token into `room` bytes, and asserts that a refused write changed
/// nothing.
fn write(token: &NewToken<'_>, room: usize) -> (Result<usize, Refusal>, Vec<u8>) {
    let mut dst = vec![0xA5; room];
    let answer = bsm::write_token(&mut dst, token);
    assert!(dst[answer.unwrap_or(0)..].iter().all(|&byte| byte == 0xA5));
    (answer, dst)
}

/// Asserts that `token` takes `size` bytes exactly and reads back.
fn accepted(token: &NewToken<'_>, size: usize) {
    let (answer, bytes) = write(token, size);
    assert_eq!(answer, Ok(size));
    let read = bsm::token_at(&bytes, 0).expect("it was written");
    let read = read.expect("it was written");
    assert_eq!(read.size, size);
    let address = bsm::token_address_at(&bytes, 0);
    let read = read.token;
    let read = read.map(|groups| groups.into_iter().collect(), |()| address);
    assert_eq!(read, token.map(<[u32]>::to_vec, Some));
    assert_eq!(write(token, size - 1).0, refused(Reason::NoRoom));
}

/// Asserts that `token` is refused with `reason`, whatever the room.
fn never(token: &NewToken<'_>, reason: Reason) {
    never_at(token, reason, 0);
}

fn never_at(token: &NewToken<'_>, reason: Reason, place: usize) {
    for room in [0, 100, 400_000] {
        assert_eq!(write(token, room).0, refused_at(reason, place));
    }
}

#[test]
fn texts_of_65_534_and_65_535_bytes() {
    let long = vec![b'a'; 65_535];
    let tokens = |text| {
        [
            (Token::Path { text }, 3),
            (Token::Text { text }, 3),
            (
                Token::Arg32 {
                    argument: 1,
                    value: 2,
                    text,
                },
                8,
            ),
            (
                Token::Arg64 {
                    argument: 1,
                    value: 2,
                    text,
                },
                12,
            ),
        ]
    };
    for (token, fixed) in tokens(&long[..65_534]) {
        accepted(&token, fixed + 65_535);
    }
    for (token, _) in tokens(&long) {
        never(&token, Reason::TooLarge);
    }
    // 11 comes before 8, 8 before 10.
    let mut zero = long.clone();
    zero[40_000] = 0;
    for (token, _) in tokens(&zero) {
        never(&token, Reason::TooLarge);
    }
    for (token, _) in tokens(&zero[..65_534]) {
        never_at(&token, Reason::BadText, 40_000);
    }
}

#[test]
fn opaque_of_65_535_and_65_536_bytes() {
    let bytes = vec![0; 65_536];
    let largest = Token::Opaque {
        bytes: &bytes[..65_535],
    };
    accepted(&largest, 3 + 65_535);
    never(&Token::Opaque { bytes: &bytes }, Reason::TooLarge);
}

#[test]
fn newgroups_of_65_535_and_65_536_groups() {
    let groups: Vec<u32> = (0..65_536).collect();
    let largest = Token::NewGroups {
        groups: &groups[..65_535],
    };
    accepted(&largest, 3 + 4 * 65_535);
    never(&Token::NewGroups { groups: &groups }, Reason::TooLarge);
}

#[test]
fn exec_strings_have_no_bound_but_must_agree() {
    let bytes = vec![0; 70_000];
    for token in [Token::ExecArgs, Token::ExecEnv] {
        let strings = |count| {
            token(Strings {
                count,
                bytes: &bytes,
            })
        };
        accepted(&strings(70_000), 5 + 70_000);
        never(&strings(69_999), Reason::BadText);
        never(&strings(70_001), Reason::BadText);
        never(&strings(u32::MAX), Reason::BadText);
    }
}

#[test]
fn names_of_1_023_and_1_024_bytes() {
    let name = [b'n'; 1_024];
    let mut dst = vec![0xA5; 2_000];
    let size = 11 + 1_024;
    assert_eq!(bsm::write_file(&mut dst, 1, 2, &name[..1_023]), Ok(size));
    assert!(dst[size..].iter().all(|&byte| byte == 0xA5));
    let item = Item::File {
        size,
        seconds: 1,
        microseconds: 2,
        name: &name[..1_023],
    };
    assert_eq!(bsm::item_at(&dst[..size], 0), Ok(Some(item)));

    let mut dst = vec![0xA5; 2_000];
    let small = bsm::write_file(&mut dst[..size - 1], 1, 2, &name[..1_023]);
    assert_eq!(small, refused(Reason::NoRoom));
    let long = bsm::write_file(&mut dst, 1, 2, &name);
    assert_eq!(long, refused(Reason::BadText));
    // Too long reports 0, whatever zero byte is in it.
    let mut zero = name;
    zero[1_000] = 0;
    let long = bsm::write_file(&mut dst, 1, 2, &zero);
    assert_eq!(long, refused(Reason::BadText));
    let bad = bsm::write_file(&mut dst, 1, 2, &zero[..1_023]);
    assert_eq!(bad, refused_at(Reason::BadText, 1_000));
    // 9 comes before 8.
    for name in [&name, &zero] {
        let late = bsm::write_file(&mut dst, 1, 1_000_000, name);
        assert_eq!(late, refused(Reason::TimeRange));
    }
    assert!(dst.iter().all(|&byte| byte == 0xA5));
}

#[test]
fn records_of_65_535_and_65_536_bytes() {
    for (kind, address, around) in KINDS {
        let mut header = Header::new(kind);
        header.version = 11;
        header.event = 1;
        header.modifier = 2;
        header.seconds = 3;
        header.nanoseconds = 999_999_999;
        let body_of = |size: usize| {
            let length = size - around - 3;
            let mut body = vec![0x13; size - around];
            body[..3].copy_from_slice(&[0x29, (length >> 8) as u8, length as u8]);
            body
        };
        let body = body_of(65_535);
        let mut dst = vec![0xA5; 65_600];
        let written = write_record(&mut dst, &header, address, &body);
        assert_eq!(written, Ok(65_535));
        assert!(dst[65_535..].iter().all(|&byte| byte == 0xA5));
        let item = Item::Record {
            size: 65_535,
            header,
            body: &body,
            tokens: 1,
        };
        assert_eq!(bsm::item_at(&dst[..65_535], 0), Ok(Some(item)));
        assert_eq!(bsm::address_at(&dst[..65_535], 0), address);

        let mut dst = vec![0xA5; 65_600];
        let small = write_record(&mut dst[..65_534], &header, address, &body);
        assert_eq!(small, refused(Reason::NoRoom));
        // 4 comes before the other refusals.
        let body = body_of(65_536);
        for nanoseconds in [0, 1_000_000_000, u64::MAX] {
            header.nanoseconds = nanoseconds;
            let long = write_record(&mut dst, &header, address, &body);
            assert_eq!(long, refused(Reason::RecordLength));
        }
        assert!(dst.iter().all(|&byte| byte == 0xA5));
    }
}

#[test]
fn times_of_a_record() {
    let body = [0xFF];
    let write = |(kind, address), seconds, nanoseconds| {
        let mut dst = [0xA5; 60];
        let mut header = Header::new(kind);
        header.seconds = seconds;
        header.nanoseconds = nanoseconds;
        let answer = write_record(&mut dst, &header, address, &body);
        assert_eq!(dst, [0xA5; 60]);
        answer
    };
    let over = u64::from(u32::MAX) + 1;
    let last = 999_999_999;
    // 11 comes before 9, 9 before the body's 6; times of 8 bytes have no 11.
    for (kind, address, _) in KINDS {
        let given = (kind, address);
        match kind {
            HeaderKind::Header32 | HeaderKind::Header32Ex => {
                assert_eq!(write(given, over, 0), refused(Reason::TooLarge));
                assert_eq!(write(given, 0, over), refused(Reason::TooLarge));
                assert_eq!(write(given, over - 1, over - 1), refused(Reason::TimeRange));
                assert_eq!(write(given, over - 1, last), refused(Reason::NotABodyToken));
            }
            _ => {
                assert_eq!(write(given, u64::MAX, u64::MAX), refused(Reason::TimeRange));
                assert_eq!(write(given, u64::MAX, last), refused(Reason::NotABodyToken));
            }
        }
    }
}

/// An expanded header without an address is refused before all else.
#[test]
fn expanded_headers_without_an_address() {
    let large = vec![0; 65_536];
    for kind in [HeaderKind::Header32Ex, HeaderKind::Header64Ex] {
        let mut header = Header::new(kind);
        for (version, nanoseconds) in [(11, 0), (256, 0), (11, u64::MAX)] {
            header.version = version;
            header.nanoseconds = nanoseconds;
            for body in [&[][..], &[0xFF], &large] {
                for room in [0, 60] {
                    let mut dst = vec![0xA5; room];
                    let answer = bsm::write_record(&mut dst, &header, body);
                    assert_eq!(answer, refused(Reason::AddressType));
                    assert!(dst.iter().all(|&byte| byte == 0xA5));
                }
            }
        }
    }
}

/// With an address, a header of a plain kind is written as the expanded one
/// with times as wide.
#[test]
fn plain_kinds_with_an_address() {
    let pairs = [
        (HeaderKind::Header32, HeaderKind::Header32Ex),
        (HeaderKind::Header64, HeaderKind::Header64Ex),
    ];
    for (plain, expanded) in pairs {
        for address in [IPV4, IPV6] {
            let [given, same] = [plain, expanded].map(|kind| {
                let mut header = Header::new(kind);
                (header.version, header.event, header.modifier) = (11, 1, 2);
                (header.seconds, header.nanoseconds) = (3, 4);
                let mut dst = [0xA5; 60];
                let size = bsm::write_record_ex(&mut dst, &header, address, &[]);
                let read = bsm::item_at(&dst, 0).expect("it was written");
                header.kind = expanded;
                assert!(matches!(read, Some(Item::Record { header: read, .. }) if read == header));
                assert_eq!(bsm::address_at(&dst, 0), Some(address));
                (size, dst)
            });
            assert_eq!(given, same);
        }
    }
}

/// Empty slices, whose pointers stand for no memory but are not null.
#[test]
fn empty_buffers() {
    let fresh = bsm::State::default();
    let (bytes, groups): (&[u8], &[u32]) = (&[], &[]);
    assert_eq!(bsm::item_at(bytes, 0), Ok(None));
    assert_eq!(bsm::run(bytes, fresh).state, fresh);
    assert_eq!(bsm::next(bytes, fresh), (bsm::Step::End, fresh));
    assert_eq!(
        (bsm::body_at(bytes, 0), bsm::name_at(bytes, 0)),
        (None, None)
    );
    assert_eq!(bsm::address_at(bytes, 0), None);
    assert_eq!(bsm::token_at(bytes, 0), Ok(None));
    assert_eq!(bsm::text_at(bytes, 0), None);
    assert_eq!(bsm::token_address_at(bytes, 0), None);
    assert_eq!(bsm::walk_body(bytes), Ok(0));

    accepted(&Token::Opaque { bytes }, 3);
    accepted(&Token::NewGroups { groups }, 3);
    accepted(&Token::Text { text: bytes }, 4);
    accepted(&Token::ExecArgs(Strings { count: 0, bytes }), 5);
    let none: &mut [u8] = &mut [];
    assert_eq!(bsm::write_file(none, 0, 0, bytes), refused(Reason::NoRoom));
    assert_eq!(bsm::first_line(none), refused(Reason::NoRoom));
    assert_eq!(bsm::item_line(none, bytes, 0), Ok(0));
    assert_eq!(bsm::last_line(none, bytes, fresh), refused(Reason::NoRoom));
    let listed = bsm::list(none, bytes, bsm::Cursor::First);
    assert_eq!((listed.written, listed.cursor), (0, bsm::Cursor::First));
}
