//! Each kind of body token, read and written.

use reference::*;

const PARTY32: Party<u32> = Party {
    audit: 0x0102_0304,
    effective_user: 0x1112_1314,
    effective_group: 0x2122_2324,
    real_user: 0x3132_3334,
    real_group: 0x4142_4344,
    process: 0x5152_5354,
    session: 0x6162_6364,
    port: 0x7172_7374,
    address: 0x8182_8384,
};

const PARTY64: Party<u64> = Party {
    audit: PARTY32.audit,
    effective_user: PARTY32.effective_user,
    effective_group: PARTY32.effective_group,
    real_user: PARTY32.real_user,
    real_group: PARTY32.real_group,
    process: PARTY32.process,
    session: PARTY32.session,
    port: 0x9192_9394_9596_9798,
    address: PARTY32.address,
};

/// The same with other bytes for the address.
const fn expanded<P: Copy>(party: Party<P>, address: &[u8]) -> Party<P, &[u8]> {
    Party {
        audit: party.audit,
        effective_user: party.effective_user,
        effective_group: party.effective_group,
        real_user: party.real_user,
        real_group: party.real_group,
        process: party.process,
        session: party.session,
        port: party.port,
        address,
    }
}

const IPV4: &[u8] = &[192, 0, 2, 7];
const IPV6: &[u8] = &[0x20, 1, 0x0D, 0xB8, 0, 0, 0, 0, 0, 0, 0, 0, 0, 0, 0x13, 1];

const IP: IpHeader = IpHeader {
    version: 0x45,
    service: 1,
    length: 0x0203,
    id: 0x0405,
    offset: 0x0607,
    ttl: 8,
    protocol: 9,
    checksum: 0x0A0B,
    source: 0x0C0D_0E0F,
    destination: 0x1011_1213,
};

const IPC: IpcPerm = IpcPerm {
    owner_user: 0x0101_0101,
    owner_group: 0x0202_0202,
    creator_user: 0x0303_0303,
    creator_group: 0x0404_0404,
    mode: 0x0505_0505,
    sequence: 0x0606_0606,
    key: 0x0707_0707,
};

/// Each kind: what is written, what is read, its bytes, its fixed size.
fn kinds() -> Vec<(WriteToken<'static>, Token<'static>, Vec<u8>, usize)> {
    let hex = |digits: &str| -> Vec<u8> {
        let digits: Vec<u8> = digits.bytes().filter(|&b| b != b' ').collect();
        digits
            .chunks(2)
            .map(|p| u8::from_str_radix(std::str::from_utf8(p).unwrap(), 16).unwrap())
            .collect()
    };
    let ids = "01020304 11121314 21222324 31323334 41424344 51525354 61626364";
    let party = |number: &str, port: &str| hex(&format!("{number} {ids} {port} 81828384"));
    let ipv4 = "00000004 C0000207";
    let ipv6 = "00000010 20010DB8 00000000 00000000 00001301";
    let party_ex =
        |number: &str, port: &str, rest: &str| hex(&format!("{number} {ids} {port} {rest}"));
    let (port, wide) = ("71727374", "9192939495969798");
    macro_rules! same {
        ($variant:ident $fields:tt, $bytes:expr, $fixed:expr) => {
            (
                WriteToken::$variant $fields,
                Token::$variant $fields,
                $bytes,
                $fixed,
            )
        };
    }
    vec![
        same!(Path { text: b"/a" }, hex("23 0003 2F 61 00"), 3),
        same!(Path { text: b"" }, hex("23 0001 00"), 3),
        same!(Text { text: b"abc" }, hex("28 0004 61 62 63 00"), 3),
        same!(Opaque { bytes: &[0, 7, 0] }, hex("29 0003 00 07 00"), 3),
        same!(Opaque { bytes: &[] }, hex("29 0000"), 3),
        same!(Subject32(PARTY32), party("24", "71727374"), 37),
        same!(Process32(PARTY32), party("26", "71727374"), 37),
        same!(Subject64(PARTY64), party("75", "9192939495969798"), 41),
        same!(Process64(PARTY64), party("77", "9192939495969798"), 41),
        same!(
            Subject32Ex(expanded(PARTY32, IPV4)),
            party_ex("7A", port, ipv4),
            37
        ),
        same!(
            Subject32Ex(expanded(PARTY32, IPV6)),
            party_ex("7A", port, ipv6),
            37
        ),
        same!(
            Process32Ex(expanded(PARTY32, IPV4)),
            party_ex("7B", port, ipv4),
            37
        ),
        same!(
            Process32Ex(expanded(PARTY32, IPV6)),
            party_ex("7B", port, ipv6),
            37
        ),
        same!(
            Subject64Ex(expanded(PARTY64, IPV4)),
            party_ex("7C", wide, ipv4),
            41
        ),
        same!(
            Subject64Ex(expanded(PARTY64, IPV6)),
            party_ex("7C", wide, ipv6),
            41
        ),
        same!(
            Process64Ex(expanded(PARTY64, IPV4)),
            party_ex("7D", wide, ipv4),
            41
        ),
        same!(
            Process64Ex(expanded(PARTY64, IPV6)),
            party_ex("7D", wide, ipv6),
            41
        ),
        same!(InAddrEx { address: IPV4 }, hex(&format!("7E {ipv4}")), 5),
        same!(InAddrEx { address: IPV6 }, hex(&format!("7E {ipv6}")), 5),
        same!(
            Return32 {
                error: 5,
                value: 0x0102_0304
            },
            hex("27 05 01020304"),
            6
        ),
        same!(
            Return64 {
                error: 6,
                value: 0x0102_0304_0506_0708
            },
            hex("72 06 0102030405060708"),
            10
        ),
        same!(
            InAddr {
                address: 0x7F00_0001
            },
            hex("2A 7F000001"),
            5
        ),
        same!(
            Ip(IP),
            hex("2B 45 01 0203 0405 0607 08 09 0A0B 0C0D0E0F 10111213"),
            21
        ),
        same!(Iport { port: 0x1F90 }, hex("2C 1F90"), 3),
        same!(
            Arg32 {
                argument: 1,
                value: 0x0A0B_0C0D,
                text: b"fd"
            },
            hex("2D 01 0A0B0C0D 0003 66 64 00"),
            8
        ),
        same!(
            Arg64 {
                argument: 2,
                value: 0x0102_0304_0506_0708,
                text: b"x"
            },
            hex("71 02 0102030405060708 0002 78 00"),
            12
        ),
        same!(
            Seq {
                sequence: 0xFFFF_FFFE
            },
            hex("2F FFFFFFFE"),
            5
        ),
        same!(
            IpcPerm(IPC),
            hex("32 01010101 02020202 03030303 04040404 05050505 06060606 07070707"),
            29
        ),
        (
            WriteToken::NewGroups {
                groups: &[1, 0x0203_0405],
            },
            Token::NewGroups {
                groups: &[0, 0, 0, 1, 2, 3, 4, 5],
            },
            hex("3B 0002 00000001 02030405"),
            3,
        ),
        (
            WriteToken::NewGroups { groups: &[] },
            Token::NewGroups { groups: &[] },
            hex("3B 0000"),
            3,
        ),
        same!(
            ExecArgs {
                count: 2,
                strings: b"ls\0\0"
            },
            hex("3C 00000002 6C 73 00 00"),
            5
        ),
        same!(
            ExecEnv {
                count: 1,
                strings: b"A=b\0"
            },
            hex("3D 00000001 41 3D 62 00"),
            5
        ),
        same!(
            ExecEnv {
                count: 0,
                strings: b""
            },
            hex("3D 00000000"),
            5
        ),
        same!(
            Exit {
                status: 3,
                value: 0xFFFF_FFFF
            },
            hex("52 00000003 FFFFFFFF"),
            9
        ),
    ]
}

#[test]
fn all_kinds_are_covered() {
    let mut numbers: Vec<u8> = kinds().iter().map(|kind| kind.0.number()).collect();
    numbers.sort_unstable();
    numbers.dedup();
    assert_eq!(
        numbers,
        [
            0x23, 0x24, 0x26, 0x27, 0x28, 0x29, 0x2A, 0x2B, 0x2C, 0x2D, 0x2F, 0x32, 0x3B, 0x3C,
            0x3D, 0x52, 0x71, 0x72, 0x75, 0x77, 0x7A, 0x7B, 0x7C, 0x7D, 0x7E
        ]
    );
}

#[test]
fn each_kind_is_written_and_read_back() {
    for (given, read, bytes, fixed) in kinds() {
        let size = bytes.len();
        assert_eq!(given.number(), read.number());
        // Exact room, more room, and one byte less.
        for spare in [0, 1, 9] {
            let mut dst = vec![0xEE; size + spare];
            assert_eq!(write_token(&mut dst, &given), Ok(size));
            assert_eq!(&dst[..size], &bytes[..]);
            assert!(dst[size..].iter().all(|&b| b == 0xEE));
        }
        for small in [0, 1, size - 1] {
            let mut dst = vec![0xEE; small];
            assert_eq!(write_token(&mut dst, &given), refusal(10, 0));
            assert!(dst.iter().all(|&b| b == 0xEE));
        }
        // Read alone, and behind and before other bytes.
        for (before, behind) in [(0, 0), (3, 0), (0, 2), (4, 5)] {
            let mut body = vec![0; before];
            body.extend_from_slice(&bytes);
            body.resize(before + size + behind, 0xAB);
            let answer = TokenAnswer::Token {
                token: read,
                start: before + fixed,
                length: size - fixed,
                size,
            };
            assert_eq!(token_at(&body, before), answer);
            let text = match read {
                Token::Path { text } | Token::Text { text } => text,
                _ => &[],
            };
            assert_eq!(text_at(&body, before), text);
        }
        // Every cut is 7.
        for cut in 1..size {
            assert_eq!(token_at(&bytes[..cut], 0), refused(7, 0));
            assert_eq!(text_at(&bytes[..cut], 0), b"");
            assert_eq!(walk_body(&bytes[..cut]), refusal(7, 0));
        }
    }
}

fn refusal<T>(number: u8, place: usize) -> Result<T, Refusal> {
    Err(Refusal {
        number,
        place,
        need: 0,
    })
}

fn refused(number: u8, place: usize) -> TokenAnswer<'static> {
    TokenAnswer::Refused(Refusal {
        number,
        place,
        need: 0,
    })
}

/// The token reader takes any tokens one behind the other, the walk over a
/// body no more than one subject (paper 02, P7).
#[test]
fn all_kinds_in_one_body() {
    let mut body = Vec::new();
    let mut places = Vec::new();
    for (_, _, bytes, _) in kinds() {
        places.push(body.len());
        body.extend_from_slice(&bytes);
    }
    let (subjects, others): (Vec<_>, Vec<_>) = kinds()
        .into_iter()
        .map(|kind| kind.2)
        .partition(|bytes| [0x24, 0x75, 0x7A, 0x7C].contains(&bytes[0]));
    assert_eq!(subjects.len(), 6);
    for subject in subjects {
        let body = [others.concat(), subject].concat();
        assert_eq!(walk_body(&body), Ok(others.len() + 1));
    }
    let mut place = 0;
    for (expected, (_, read, _, _)) in places.iter().zip(kinds()) {
        assert_eq!(place, *expected);
        match token_at(&body, place) {
            TokenAnswer::Token { token, size, .. } => {
                assert_eq!(token, read);
                place += size;
            }
            other => panic!("{other:?}"),
        }
    }
    assert_eq!(token_at(&body, place), TokenAnswer::End);
    assert_eq!(token_at(&body, place + 1), refused(2, place + 1));
    assert_eq!(token_at(&body, usize::MAX), refused(2, usize::MAX));
    assert_eq!(text_at(&body, usize::MAX), b"");
}

#[test]
fn numbers_without_a_token() {
    let known: Vec<u8> = kinds().iter().map(|kind| kind.0.number()).collect();
    for first in 0..=255u8 {
        let body = [first; 1];
        let number = if known.contains(&first) { 7 } else { 6 };
        assert_eq!(token_at(&body, 0), refused(number, 0));
        assert_eq!(walk_body(&body), refusal(number, 0));
    }
    assert_eq!(walk_body(&[]), Ok(0));
}

/// The numbers of the tokens with a text, and the sizes of their fixed parts.
const TEXTS: [(u8, usize); 4] = [(0x23, 3), (0x28, 3), (0x2D, 8), (0x71, 12)];

/// A token with a text; `text` has its closing zero byte, if any.
fn text_token(number: u8, fixed: usize, length: u16, text: &[u8]) -> Vec<u8> {
    let mut bytes = vec![number];
    bytes.resize(fixed - 2, 0xCC);
    bytes.extend_from_slice(&length.to_be_bytes());
    bytes.extend_from_slice(text);
    bytes
}

/// 8 reports the byte that spoils the text (paper 02, P1), 7 the token.
#[test]
fn bad_texts() {
    for (number, fixed) in TEXTS {
        let token = |length: u16, text: &[u8]| text_token(number, fixed, length, text);
        assert_eq!(token_at(&token(0, b""), 0), refused(8, fixed - 2));
        assert_eq!(token_at(&token(0, b"a\0"), 0), refused(8, fixed - 2));
        assert_eq!(token_at(&token(1, b"a"), 0), refused(8, fixed));
        assert_eq!(token_at(&token(3, b"abc"), 0), refused(8, fixed + 2));
        assert_eq!(token_at(&token(3, b"\0a\0"), 0), refused(8, fixed));
        assert_eq!(token_at(&token(3, b"a\0\0"), 0), refused(8, fixed + 1));
        assert_eq!(token_at(&token(3, b"a\0b"), 0), refused(8, fixed + 1));
        assert_eq!(token_at(&token(5, b"a\0\0b\0"), 0), refused(8, fixed + 1));
        assert_eq!(token_at(&token(2, b"\0\0"), 0), refused(8, fixed));
        // Too long wins over bad.
        assert_eq!(token_at(&token(4, b"\0ab"), 0), refused(7, 0));
        assert_eq!(token_at(&token(65_535, b"\0ab"), 0), refused(7, 0));
        let cut = &token(0, b"")[..fixed - 1];
        assert_eq!(token_at(cut, 0), refused(7, 0));
    }
}

/// Places count from the start of the part, wherever the token stands in it.
#[test]
fn bad_texts_behind_other_tokens() {
    let before = b"\x27\0\0\0\0\0";
    for (number, fixed) in TEXTS {
        for (length, text, at) in [
            (0, &b""[..], fixed - 2),
            (2, b"\0\0", fixed),
            (3, b"abc", fixed + 2),
        ] {
            let token = text_token(number, fixed, length, text);
            let body = [&before[..], &token, b"\x2C\0\0"].concat();
            assert_eq!(token_at(&body, 6), refused(8, 6 + at));
            assert_eq!(text_at(&body, 6), b"");
            assert_eq!(walk_body(&body), refusal(8, 6 + at));
        }
        // The first bad token counts, whatever follows.
        let first = text_token(number, fixed, 2, b"ab");
        let body = [&first[..], b"\x28\0\0", b"\0"].concat();
        assert_eq!(walk_body(&body), refusal(8, fixed + 1));
    }
}

#[test]
fn exec_counts() {
    let body = b"\x3C\x00\x00\x00\x02a\0b\0c\0";
    match token_at(body, 0) {
        TokenAnswer::Token { length, size, .. } => assert_eq!((length, size), (4, 9)),
        other => panic!("{other:?}"),
    }
    // What follows the two strings is the next token.
    assert_eq!(walk_body(body), refusal(6, 9));
    for count in [4, 5, 255, u32::MAX] {
        let mut more = body.to_vec();
        more[1..5].copy_from_slice(&count.to_be_bytes());
        assert_eq!(token_at(&more, 0), refused(7, 0));
    }
}
