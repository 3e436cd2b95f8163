//! Expanded headers and tokens (paper 02, P5): sizes, orders, and addresses
//! of every length.

use reference::*;

const IPV4: [u8; 4] = [192, 0, 2, 7];
const IPV6: [u8; 16] = [
    0x20, 1, 0x0D, 0xB8, 0x13, 0xB1, 5, 0, 0, 0, 0, 0, 0, 0, 0x74, 1,
];

/// A header's number, its least size, and the width of its times.
const HEADERS: [(u8, usize, usize); 2] = [(0x15, 26, 4), (0x79, 34, 8)];

/// A token's number and the size of its part up to and with the type.
const TOKENS: [(u8, usize); 5] = [(0x7A, 37), (0x7B, 37), (0x7C, 41), (0x7D, 41), (0x7E, 5)];

/// Types that are no type: all up to 20 but two, and others that have 4 or
/// 16 in one of their bytes.
fn bad_types() -> impl Iterator<Item = u32> {
    let large = [
        32,
        128,
        255,
        256,
        260,
        272,
        0x0401,
        0x1000,
        0x0004_0000,
        0x0010_0000,
        0x0400_0000,
        0x1000_0000,
        0x0404_0404,
        0x7FFF_FFFF,
        0x8000_0004,
        0x8000_0010,
        0xFFFF_FFFC,
        u32::MAX,
    ];
    (0..=20).filter(|kind| ![4, 16].contains(kind)).chain(large)
}

/// The bytes of an expanded header with this type and whatever stands where
/// the address should; the count comes later.
fn head(number: u8, kind: u32, address: &[u8], nanoseconds: u64) -> Vec<u8> {
    let width = if number == 0x15 { 4 } else { 8 };
    let mut head = vec![number, 0, 0, 0, 0, 0xA1, 0xB1, 0xB2, 0xC1, 0xC2];
    head.extend(kind.to_be_bytes());
    head.extend(address);
    for time in [0x0102_0304, nanoseconds] {
        head.extend(&time.to_be_bytes()[8 - width..]);
    }
    head
}

/// A record of these bytes with the right counts around a body.
fn framed(head: &[u8], body: &[u8]) -> Vec<u8> {
    let count = (head.len() + body.len() + 7) as u32;
    let mut record = [head, body, &[0x13, 0xB1, 5], &count.to_be_bytes()].concat();
    record[1..5].copy_from_slice(&count.to_be_bytes());
    record
}

/// A good record.
fn good(number: u8, address: &[u8], body: &[u8]) -> Vec<u8> {
    framed(&head(number, address.len() as u32, address, 9), body)
}

/// A token with this type and these bytes behind it.
fn token(number: u8, fixed: usize, kind: u32, address: &[u8]) -> Vec<u8> {
    let mut token = vec![number];
    token.extend((1..fixed as u8 - 4).map(|at| at * 7));
    token.extend(kind.to_be_bytes());
    token.extend(address);
    token
}

fn addresses() -> [&'static [u8]; 2] {
    [&IPV4, &IPV6]
}

/// Number, place and need of what refuses the item at a place.
fn refused(trail: &[u8], place: usize) -> (u8, usize, usize) {
    match item_at(trail, place) {
        Answer::Refused(r) => (r.number, r.place, r.need),
        other => panic!("not refused: {other:?}"),
    }
}

fn refusal<T>(number: u8, place: usize) -> Result<T, Refusal> {
    Err(Refusal {
        number,
        place,
        need: 0,
    })
}

fn header(number: u8, address: &[u8]) -> Header<'_> {
    Header {
        number,
        version: 0xA1,
        event: 0xB1B2,
        modifier: 0xC1C2,
        address,
        seconds: 0x0102_0304,
        nanoseconds: 9,
    }
}

/// Sizes 33, 45, 41 and 53 without a body; each field, the address and the
/// body where they stand; written again byte by byte.
#[test]
fn records_of_all_sizes() {
    let body = b"\x2C\0\x07\x27\0\0\0\0\0";
    let mut sizes = Vec::new();
    for (number, _, _) in HEADERS {
        for address in addresses() {
            for body in [&b""[..], body] {
                let record = good(number, address, body);
                let item = Item::Record {
                    size: record.len(),
                    header: header(number, address),
                    body,
                    tokens: if body.is_empty() { 0 } else { 2 },
                };
                assert_eq!(item_at(&record, 0), Answer::Item(item));
                let mut again = vec![0xEE; record.len() + 3];
                let written = write_record(&mut again, &header(number, address), body);
                assert_eq!(written, Ok(record.len()));
                assert_eq!(again, [&record[..], &[0xEE; 3]].concat());
                sizes.push(record.len() - body.len());
            }
        }
    }
    assert_eq!(sizes, [33, 33, 45, 45, 41, 41, 53, 53]);
}

/// Short needs 5 and then the count, whatever else is wrong.
#[test]
fn cut_at_each_byte() {
    for (number, _, _) in HEADERS {
        for (kind, address) in [(4, &IPV4[..]), (16, &IPV6), (16, &IPV4), (0, &IPV4)] {
            let record = framed(&head(number, kind, address, u64::MAX), b"\x2C\0");
            for cut in 1..record.len() {
                let need = if cut < 5 { 5 } else { record.len() };
                assert_eq!(refused(&record[..cut], 0), (1, 0, need));
                let behind = [&[0x14][..], &record[..cut]].concat();
                assert_eq!(refused(&behind, 1), (1, 1, need));
            }
        }
    }
}

/// The first 4: below the smaller record, and over 65,535, with five bytes.
#[test]
fn bounds_of_the_count() {
    for (number, least, _) in HEADERS {
        let least = least as u32 + 7;
        let start = |count: u32| [&[number][..], &count.to_be_bytes()].concat();
        for count in [0, 7, 25, least - 1, 65_536, 0x1_0000 + least, u32::MAX] {
            assert_eq!(refused(&start(count), 0), (4, 0, 0), "{count}");
        }
        for count in [least, least + 1, least + 11, least + 12, 65_535] {
            let need = count as usize;
            assert_eq!(refused(&start(count), 0), (1, 0, need), "{count}");
        }
    }
}

/// 13 stands at the item's start, after 5 and before 9 and the body.
#[test]
fn types_of_headers() {
    for (number, _, _) in HEADERS {
        for kind in bad_types() {
            for (nanoseconds, body) in [(9, &b""[..]), (u64::MAX, b""), (9, b"\0"), (9, b"\x2C")] {
                for address in addresses() {
                    let bad = head(number, kind, address, nanoseconds);
                    let mut trail = [good(0x15, &IPV4, b""), framed(&bad, body)].concat();
                    assert_eq!(refused(&trail, 33), (13, 33, 0), "{kind}");
                    trail.extend(good(number, address, b""));
                    assert_eq!(refused(&trail, 33), (13, 33, 0), "{kind}");
                    let stopped = run(&trail, State::default());
                    assert_eq!(stopped.refusal.map(|r| (r.number, r.place)), Some((13, 33)));
                    assert_eq!((stopped.state.place, stopped.state.records), (33, 1));
                    let mut wrong = framed(&bad, body);
                    *wrong.last_mut().unwrap() ^= 1;
                    assert_eq!(refused(&wrong, 0), (5, 0, 0), "{kind}");
                }
            }
        }
    }
}

/// 4 for the second time: a count that is enough for type 4 and not for 16.
/// It comes after 5 and before 9 and the body.
#[test]
fn counts_too_small_for_the_larger_address() {
    for (number, least, _) in HEADERS {
        for size in least..least + 14 {
            let mut bytes = head(number, 16, &IPV6, u64::MAX);
            bytes.resize(bytes.len() + 2, 0xFF);
            bytes.truncate(size);
            let record = framed(&bytes, b"");
            let number = match size - least {
                0..12 => 4,
                _ => 9,
            };
            assert_eq!(refused(&record, 0), (number, 0, 0), "{size}");
            let end = record.len() - 1;
            assert_eq!(refused(&record[..end], 0), (1, 0, record.len()));
            let mut other = record.clone();
            other[end] ^= 1;
            assert_eq!(refused(&other, 0), (5, 0, 0), "{size}");
            other[end] ^= 1;
            // With type 4 the count is enough.
            other[13] = 4;
            let small = matches!(item_at(&other, 0), Answer::Refused(r) if r.number == 4);
            assert!(!small, "{size}");
            other[13] = 15;
            assert_eq!(refused(&other, 0), (13, 0, 0), "{size}");
        }
    }
}

/// 9 comes before the body; places of the body count from behind the address.
#[test]
fn times_and_bodies() {
    for (number, _, width) in HEADERS {
        for address in addresses() {
            let kind = address.len() as u32;
            let size = 14 + address.len() + 2 * width;
            for (nanoseconds, refusal) in [(999_999_999, (6, size, 0)), (1_000_000_000, (9, 0, 0))]
            {
                let record = framed(&head(number, kind, address, nanoseconds), b"\0");
                assert_eq!(refused(&record, 0), refusal);
            }
            for (body, no, place) in [
                (&b"\x2C\0\0\x15"[..], 6, 3),
                (b"\x2C\0\0\x79\0\0\0\0", 6, 3),
                (b"\x2C\0\0\x2C\0", 7, 3),
                (b"\x2C\0\0\x28\0\x02ab", 8, 7),
                (b"\x2C\0\0\x7E\0\0\0", 7, 3),
                (b"\x2C\0\0\x7E\0\0\0\0", 13, 3),
                (b"\x2C\0\0\x7E\0\0\0\x04\x01\x02\x03", 7, 3),
            ] {
                let record = good(number, address, body);
                assert_eq!(refused(&record, 0), (no, size + place, 0));
                let file = b"\x11\0\0\0\x05\0\0\0\x07\0\x02a\0";
                let trail = [&file[..], &record].concat();
                assert_eq!(refused(&trail, 13), (no, 13 + size + place, 0));
            }
        }
    }
}

/// 7 up to the type, then 13 however little follows, then 7 for the address.
#[test]
fn types_of_tokens() {
    for (number, fixed) in TOKENS {
        let at = |token: &[u8]| {
            let body = [b"\x2C\0\x07", token].concat();
            let walked = walk_body(&body);
            let read = match token_at(&body, 3) {
                TokenAnswer::Token { .. } => Ok(2),
                TokenAnswer::Refused(refusal) => Err(refusal),
                TokenAnswer::End => panic!("no token"),
            };
            assert_eq!(walked, read);
            assert_eq!(text_at(&body, 3), b"");
            walked
        };
        for (kind, address) in [(4, &IPV4[..]), (16, &IPV6)] {
            let whole = token(number, fixed, kind, address);
            assert_eq!(whole.len(), fixed + kind as usize);
            for cut in 1..whole.len() {
                assert_eq!(at(&whole[..cut]), refusal(7, 3), "{number:02X} {cut}");
            }
            assert_eq!(at(&whole), Ok(2));
        }
        for kind in bad_types() {
            for address in [&[][..], &[1], &IPV4, &IPV6, &[0x2C; 21]] {
                let whole = token(number, fixed, kind, address);
                for cut in 1..fixed {
                    assert_eq!(at(&whole[..cut]), refusal(7, 3));
                }
                assert_eq!(at(&whole), refusal(13, 3), "{number:02X} {kind}");
            }
        }
    }
}

/// What follows the address is the next token; the address is the varying
/// part.
#[test]
fn addresses_of_tokens() {
    for (number, fixed) in TOKENS {
        for address in addresses() {
            let kind = address.len() as u32;
            let whole = token(number, fixed, kind, address);
            let body = [b"\x2C\0\x07", &whole[..], b"\x2C\0\x07"].concat();
            assert_eq!(walk_body(&body), Ok(3));
            let TokenAnswer::Token {
                token,
                start,
                length,
                size,
            } = token_at(&body, 3)
            else {
                panic!("no token");
            };
            assert_eq!(token.number(), number);
            assert_eq!((start, length), (3 + fixed, address.len()));
            assert_eq!(size, whole.len());
            assert_eq!(&body[start..start + length], address);
        }
    }
}

/// Expanded headers are items everywhere, and no body tokens anywhere.
#[test]
fn headers_in_bodies() {
    for number in [0x15, 0x79] {
        for address in addresses() {
            let inside = good(number, address, b"");
            assert_eq!(walk_body(&inside), refusal(6, 0));
            let opaque = [&[0x29, 0, inside.len() as u8][..], &inside].concat();
            let record = good(number, address, &opaque);
            let found = run(&record, State::default());
            assert_eq!((found.refusal, found.state.records), (None, 1));
        }
    }
    // The tokens' numbers begin no item.
    for (number, fixed) in TOKENS {
        assert_eq!(refused(&token(number, fixed, 4, &IPV4), 0), (3, 0, 0));
    }
}

fn party<P>(port: P, address: &[u8]) -> Party<P, &[u8]> {
    Party {
        audit: 1,
        effective_user: 2,
        effective_group: 3,
        real_user: 4,
        real_group: 5,
        process: 6,
        session: 7,
        port,
        address,
    }
}

/// The arguments of each token writer with this address, and the size of the
/// part before it.
fn tokens_with(address: &[u8]) -> [(WriteToken<'_>, usize); 5] {
    let (small, wide) = (party(8, address), party(1 << 40, address));
    [
        (WriteToken::Subject32Ex(small), 37),
        (WriteToken::Process32Ex(small), 37),
        (WriteToken::Subject64Ex(wide), 41),
        (WriteToken::Process64Ex(wide), 41),
        (WriteToken::InAddrEx { address }, 5),
    ]
}

/// Lengths of addresses to be written, the good ones among them.
fn lengths() -> impl Iterator<Item = usize> {
    (0..=20).chain([32, 255, 260, 272, 65_535, 65_536, 65_540, 65_552])
}

/// 13, place 0, before 10; otherwise the length is the type.
#[test]
fn token_writers_take_any_length() {
    for length in lengths() {
        let address: Vec<u8> = (0..length).map(|at| at as u8).collect();
        for (token, fixed) in tokens_with(&address) {
            let size = fixed + length;
            let good = [4, 16].contains(&length);
            for room in [0, size - 1, size, size + 5] {
                let mut dst = vec![0xEE; room];
                let answer = write_token(&mut dst, &token);
                let expected = match (good, room < size) {
                    (false, _) => refusal(13, 0),
                    (true, true) => refusal(10, 0),
                    (true, false) => Ok(size),
                };
                assert_eq!(answer, expected, "{length} into {room}");
                let written = answer.unwrap_or(0);
                assert!(dst[written..].iter().all(|&byte| byte == 0xEE));
                if written > 0 {
                    let kind = (length as u32).to_be_bytes();
                    assert_eq!(dst[0], token.number());
                    assert_eq!(dst[fixed - 4..fixed], kind);
                    assert_eq!(dst[fixed..size], address);
                    assert_eq!(walk_body(&dst[..size]), Ok(1));
                }
            }
        }
    }
}

/// 13, place 0, before 4, 11, 9, the body and 10; then these in their order.
#[test]
fn record_writers_take_any_length() {
    let large = vec![0x2C; 65_535];
    for length in lengths() {
        let address: Vec<u8> = (0..length).map(|at| at as u8).collect();
        let good = [4, 16].contains(&length);
        for (number, least, _) in HEADERS {
            let mut head = header(number, &address);
            let mut told = |version, nanoseconds, body: &[u8], room, number| {
                head.version = version;
                head.nanoseconds = nanoseconds;
                let mut dst = vec![0xEE; room];
                let answer = write_record(&mut dst, &head, body);
                let number = if good { number } else { 13 };
                assert_eq!(answer, refusal(number, 0), "{length}");
                assert!(dst.iter().all(|&byte| byte == 0xEE));
            };
            for room in [0, 100] {
                told(256, u64::MAX, &large, room, 4);
                told(256, u64::MAX, b"\0", room, 11);
                told(11, 1_000_000_000, b"\0", room, 9);
                told(11, 9, b"\0", room, 6);
                told(11, 9, b"\x2C\0", room, 7);
                told(11, 9, b"\x7E\0\0\0\x03", room, 13);
            }
            told(11, 9, b"\x2C\0\0", least + 4, 10);
        }
    }
}

/// The largest records of either address, and one byte more.
#[test]
fn largest_records() {
    for (number, least, _) in HEADERS {
        for address in addresses() {
            let around = least - 4 + address.len() + 7 + 3;
            let body = |size: usize| {
                let length = (size - around) as u16;
                let mut body = [&[0x29][..], &length.to_be_bytes()].concat();
                body.resize(3 + usize::from(length), 0x15);
                body
            };
            let mut dst = vec![0; 65_536];
            let most = write_record(&mut dst, &header(number, address), &body(65_535));
            assert_eq!(most, Ok(65_535));
            let found = run(&dst[..65_535], State::default());
            assert_eq!((found.refusal, found.state.records), (None, 1));
            let over = write_record(&mut dst, &header(number, address), &body(65_536));
            assert_eq!(over, refusal(4, 0));
        }
    }
}

/// The address of a header that has none is not written, nor looked at.
#[test]
fn plain_headers_have_no_address() {
    for number in [0x14, 0x74] {
        let mut dst = [[0; 33]; 2];
        for (dst, address) in dst.iter_mut().zip([&[][..], &[1, 2, 3]]) {
            let size = if number == 0x14 { 25 } else { 33 };
            assert_eq!(write_record(dst, &header(number, address), b""), Ok(size));
            let Answer::Item(Item::Record { header: read, .. }) = item_at(dst, 0) else {
                panic!("no record");
            };
            assert_eq!(read, header(number, &[]));
        }
        assert_eq!(dst[0], dst[1]);
    }
}

/// R lines have the fields that they always had; 13 is told as the others are.
#[test]
fn listing_of_expanded_records() {
    let trail = [
        good(0x15, &IPV4, b""),
        good(0x79, &IPV6, &token(0x7A, 37, 16, &IPV6)),
        framed(&head(0x15, 5, &[0; 5], 9), b""),
    ];
    let expected = "bsmlist\t1\n\
                    R\t0\t33\t45490\t49602\t16909060\t9\t0\n\
                    R\t33\t106\t45490\t49602\t16909060\t9\t1\n";
    let lines = String::from_utf8(listing(&trail.concat())).unwrap();
    assert_eq!(lines, [expected, "X\t13\t139\t0\n"].concat());
    let lines = String::from_utf8(listing(&trail[..2].concat())).unwrap();
    assert_eq!(lines, [expected, "E\t2\t0\n"].concat());
}

/// Steps back go over expanded records, and stop at one that is refused.
#[test]
fn steps_back() {
    let one = good(0x15, &IPV6, b"");
    let two = good(0x79, &IPV4, &token(0x7E, 5, 4, &IPV4));
    let bad = framed(&head(0x79, 15, &IPV6, 9), b"");
    let small = framed(&head(0x15, 16, &IPV4, 9), b"");
    let trail = [&one[..], &two, &one].concat();
    let (found, place, need) = newest(&trail);
    let places: Vec<usize> = found.iter().map(|record| record.0).collect();
    assert_eq!((places, place, need), (vec![95, 45, 0], 0, 7));
    for (at, item) in found {
        assert_eq!(item_at(&trail, at), Answer::Item(item));
    }
    for refused in [bad, small] {
        let trail = [&one[..], &refused, &two].concat();
        let stop = one.len() + refused.len();
        let (found, place, need) = newest(&trail);
        assert_eq!((found.len(), place, need), (1, stop, 0));
    }
    for gone in 1..one.len() - 7 {
        let left = &one[gone..];
        let before = record_before(left, left.len());
        assert_eq!(before, Before::Boundary { need: 45 });
    }
}

/// Two shorts at most, and the same end however a trail grows.
#[test]
fn growing_trails_give_the_same_end() {
    let mut trail = [
        good(0x15, &IPV6, &token(0x7E, 5, 16, &IPV6)),
        good(0x79, &IPV4, b"\x2C\0\0"),
    ]
    .concat();
    for kind in [4, 5, 16] {
        let last = framed(&head(0x15, kind, &IPV4, 9), b"");
        trail.extend(last);
        let (all, whole) = reading(&trail, State::default());
        for first in 0..=trail.len() {
            let (mut items, stopped) = reading(&trail[..first], State::default());
            let (more, end) = reading(&trail, stopped.state);
            items.extend(more);
            assert_eq!((end, &items), (whole, &all));
        }
        trail.truncate(trail.len() - 33);
    }
}
