//! Expanded headers and tokens (paper 02, P5). What is expected comes from how
//! the bytes were put together; the comparisons look at the reference's
//! answers too.

use compare::*;
use generator::*;
use reference::{Answer, Item, Refusal, State, TokenAnswer};

const IPV4: [u8; 4] = [192, 0, 2, 7];

/// An address with bytes of a trailer, zero bytes and numbers of headers.
const IPV6: [u8; 16] = [
    0x20, 0x01, 0x13, 0xB1, 0x05, 0, 0, 0, 0x19, 0x14, 0x15, 0, 0, 0, 0x74, 0x79,
];

const ADDRESSES: [&[u8]; 2] = [&IPV4, &IPV6];

/// The headers with an address: number, width of the times, least record.
const HEADERS: [(u8, usize, usize); 2] = [(0x15, 4, 33), (0x79, 8, 41)];

/// The tokens with an address, and their sizes up to and with the type.
const TOKENS: [(u8, usize); 5] = [(0x7A, 37), (0x7B, 37), (0x7C, 41), (0x7D, 41), (0x7E, 5)];

/// Every type up to 20, and others, some with 4 or 16 in one of their bytes.
fn types() -> impl Iterator<Item = u32> {
    let bytes = [4, 16].map(|small: u32| [small << 8, small << 16, small << 24, small | 1 << 31]);
    let large = [32, 255, 256 + 4, 256 + 16, 0x0404_0404, 0x1010_1010];
    let ends = [65_535, 65_536, 65_540, i32::MAX as u32, 1 << 31, u32::MAX];
    let all = bytes.into_iter().flatten().chain(large).chain(ends);
    (0..=20).chain(all)
}

fn refused(number: u8, place: usize) -> Refusal {
    Refusal {
        number,
        place,
        need: 0,
    }
}

/// The header with this number, type, and bytes behind the type; its count is
/// not set.
fn head(number: u8, width: usize, kind: u32, address: &[u8], nanoseconds: u64) -> Vec<u8> {
    let mut head = vec![number, 0, 0, 0, 0, 11, 0x12, 0x34, 0x56, 0x78];
    head.extend(kind.to_be_bytes());
    head.extend(address);
    for time in [0x0102_0304, nanoseconds] {
        head.extend(&time.to_be_bytes()[8 - width..]);
    }
    head
}

/// Header, body and trailer with the count that they come to.
fn framed(head: &[u8], body: &[u8]) -> Vec<u8> {
    let count = (head.len() + body.len() + 7) as u32;
    let mut record = [head, body, &[0x13, 0xB1, 5], &count.to_be_bytes()].concat();
    record[1..5].copy_from_slice(&count.to_be_bytes());
    record
}

/// A good record.
fn record(number: u8, width: usize, address: &[u8], body: &[u8]) -> Vec<u8> {
    let head = head(number, width, address.len() as u32, address, 2);
    framed(&head, body)
}

/// The token with this number, type, and bytes behind the type.
fn token(number: u8, fixed: usize, kind: u32, address: &[u8]) -> Vec<u8> {
    let mut token = vec![number];
    token.extend((5..fixed).map(|at| at as u8 | 0x80));
    token.extend(kind.to_be_bytes());
    token.extend(address);
    token
}

/// Bodies of all expanded tokens with this address but one of the subjects,
/// another token between them.
fn every_token(address: &[u8]) -> [Vec<u8>; 2] {
    let kind = address.len() as u32;
    [0x7A, 0x7C].map(|without| {
        let tokens = TOKENS.into_iter().filter(|(number, _)| *number != without);
        tokens
            .flat_map(|(number, fixed)| {
                let expanded = token(number, fixed, kind, address);
                [&expanded[..], b"\x2C\0\x16"].concat()
            })
            .collect()
    })
}

/// The same, each beside its address.
fn with_every_token(address: &[u8]) -> [(&[u8], Vec<u8>); 2] {
    every_token(address).map(|body| (address, body))
}

/// A file token, and a good record of each header and address, with bodies of
/// expanded tokens of either length.
fn every_record() -> Vec<u8> {
    let mut trail = raw_file(5, 7, 2, b"a\0");
    for (number, width, _) in HEADERS {
        for address in ADDRESSES {
            trail.extend(record(number, width, address, b""));
            for body in ADDRESSES.map(every_token).as_flattened() {
                trail.extend(record(number, width, address, body));
            }
        }
    }
    trail
}

/// What is told of the item at a place, a refusal or its size and address.
fn told(tally: &mut Tally, trail: &[u8], place: usize) -> Result<(usize, Vec<u8>), Refusal> {
    match same_item(tally, trail, place) {
        Answer::Item(Item::Record { size, header, .. }) => Ok((size, header.address.to_vec())),
        Answer::Refused(refusal) => Err(refusal),
        other => panic!("{other:?} in {}", show(trail)),
    }
}

/// Each byte begins an item or does not, and is a body token or is not.
#[test]
fn numbers_of_items_and_tokens() {
    let mut tally = Tally::new();
    for byte in 0..=255 {
        let is_item = HEADER_NUMBERS.contains(&byte) || byte == 0x11;
        let trail = [byte];
        let answer = same_item(&mut tally, &trail, 0);
        let is_short = matches!(answer, Answer::Refused(Refusal { number: 1, .. }));
        assert_eq!(is_short, is_item, "{byte:02X}");
        assert!(is_item || answer == Answer::Refused(refused(3, 0)));

        let is_token = TOKEN_NUMBERS.contains(&byte);
        let body = [byte; 60];
        let walked = reference::walk_body(&body);
        same_body(&mut tally, &body);
        assert_eq!(walked == Err(refused(6, 0)), !is_token, "{byte:02X}");
    }
    assert_eq!(tally.inputs(), 2 * 256);
}

/// Each type in each header, with 4 and 16 bytes behind it.
#[test]
fn every_type_of_a_header() {
    let mut tally = Tally::new();
    for (number, width, _) in HEADERS {
        for kind in types() {
            for behind in [&[0x2F; 4][..], &[0x2F; 16]] {
                let head = head(number, width, kind, behind, 0);
                let body = b"\x29\0\0".repeat(7);
                let trail = [raw_file(5, 7, 2, b"a\0"), framed(&head, &body)].concat();
                let found = told(&mut tally, &trail, 13);
                match kind {
                    4 | 16 if kind as usize == behind.len() => {
                        assert_eq!(found, Ok((trail.len() - 13, behind.to_vec())));
                    }
                    // The header ends elsewhere.
                    4 | 16 => assert_ne!(found, Err(refused(13, 13))),
                    _ => assert_eq!(found, Err(refused(13, 13)), "{number:02X}, {kind}"),
                }
                same_run(&mut tally, &trail, State::default());
            }
        }
    }
    let types = types().count();
    assert_eq!(tally.inputs(), 2 * types * 2 * 2);
    assert_eq!(tally.refused_times(13), 2 * (types - 2) * 2 * 2);
}

/// Each type in each token, with fewer and more bytes behind it than it says,
/// in records with each header.
#[test]
fn every_type_of_a_token() {
    let mut tally = Tally::new();
    for (number, fixed) in TOKENS {
        for kind in types() {
            for length in 0..=20 {
                let rest = vec![0x2C; length];
                let body = [b"\x2C\0\x16", &token(number, fixed, kind, &rest)[..]].concat();
                same_body(&mut tally, &body);
                same_token(&mut tally, &body, 3);
                let found = reference::walk_body(&body);
                match kind {
                    4 | 16 if length < kind as usize => assert_eq!(found, Err(refused(7, 3))),
                    4 | 16 => assert_ne!(found, Err(refused(7, 3))),
                    _ => assert_eq!(found, Err(refused(13, 3)), "{number:02X}, {kind}"),
                }
                for header in HEADER_NUMBERS {
                    let trail = in_record(header, &body);
                    let start = trail.len() - body.len() - 7;
                    let moved =
                        found.map_err(|refusal| refused(refusal.number, start + refusal.place));
                    let answer = told(&mut tally, &trail, 0);
                    assert_eq!(answer.map(|_| ()), moved.map(|_| ()));
                }
            }
        }
    }
    let bodies = 5 * (types().count() - 2) * 21;
    assert_eq!(tally.refused_times(13), bodies * (2 + 4));
}

/// A record with this header, and an address of 16 bytes where it has one.
fn in_record(number: u8, body: &[u8]) -> Vec<u8> {
    let header = reference::Header {
        number,
        version: 11,
        event: 72,
        modifier: 0,
        address: if matches!(number, 0x15 | 0x79) {
            &IPV6
        } else {
            &[]
        },
        seconds: 1,
        nanoseconds: 2,
    };
    raw_record(&header, body)
}

/// A body that ends at each byte of an expanded token: 7 up to the type's end,
/// then 13 or, for a good type, 7 up to the address's end.
#[test]
fn tokens_cut_at_each_byte() {
    let mut tally = Tally::new();
    for (number, fixed) in TOKENS {
        for kind in types() {
            let whole = [b"\x2C\0\x16", &token(number, fixed, kind, &IPV6)[..]].concat();
            let end = match kind {
                4 | 16 => 3 + fixed + kind as usize,
                _ => usize::MAX,
            };
            for cut in 4..=whole.len().min(end) {
                let body = &whole[..cut];
                same_body(&mut tally, body);
                same_token(&mut tally, body, 3);
                let expected = match cut {
                    _ if cut < 3 + fixed => Err(refused(7, 3)),
                    _ if end == usize::MAX => Err(refused(13, 3)),
                    _ if cut < end => Err(refused(7, 3)),
                    _ => Ok(2),
                };
                assert_eq!(reference::walk_body(body), expected, "{number:02X}, {kind}");
            }
        }
    }
    let types = types().count();
    for (number, fixed) in TOKENS {
        // Each body is walked, and read at the token.
        for (fault, times) in [
            (AddressFault::NoType, types * (fixed - 1)),
            (AddressFault::Type, (types - 2) * (1 + 16)),
            (AddressFault::NoAddress, 4 + 16),
        ] {
            assert_eq!(tally.fault_times((number, fault)), 2 * times);
        }
    }
}

/// A record that is half there waits twice, whatever its type is, and is
/// judged once it is whole.
#[test]
fn records_cut_at_each_byte() {
    let mut tally = Tally::new();
    let front = raw_file(5, 7, 2, b"a\0");
    for (number, width, _) in HEADERS {
        for kind in types() {
            for (address, body) in ADDRESSES.into_iter().flat_map(with_every_token) {
                let head = head(number, width, kind, address, 0);
                let record = framed(&head, &body);
                let trail = [&front[..], &record].concat();
                for cut in 1..record.len() {
                    let need = if cut < 5 { 5 } else { record.len() };
                    let short = Refusal {
                        number: 1,
                        place: 13,
                        need,
                    };
                    let run = same_run(&mut tally, &trail[..13 + cut], State::default());
                    assert_eq!(run.refusal, Some(short));
                }
                let run = same_run(&mut tally, &trail, State::default());
                match kind {
                    4 | 16 if kind as usize == address.len() => assert_eq!(run.refusal, None),
                    4 | 16 => assert!(run.refusal.is_some_and(|refusal| refusal.number != 13)),
                    _ => assert_eq!(run.refusal, Some(refused(13, 13))),
                }
            }
        }
    }
    assert!(tally.inputs() > 40_000, "{}", tally.inputs());
}

/// Records from the least size on: the larger address needs twelve bytes more
/// than the first bound leaves.
#[test]
fn counts_that_an_address_needs() {
    let mut tally = Tally::new();
    for (number, width, least) in HEADERS {
        for kind in [4, 16, 6] {
            // Room for the address and the times, then tokens of three bytes.
            let mut whole = head(number, width, kind, &IPV6[..kind as usize], 0);
            whole.extend(b"\x2C\0\x16".repeat(20));
            for size in least - 7..whole.len() - 7 {
                let record = framed(&whole[..size], b"");
                let found = told(&mut tally, &record, 0);
                let body = size as isize - (least as isize - 7 + kind as isize - 4);
                let expected = match (kind, body) {
                    (6, _) => Err(refused(13, 0)),
                    (_, ..0) => Err(refused(4, 0)),
                    (_, body) if body % 3 == 0 => Ok(record.len()),
                    (_, body) => Err(refused(7, size - body as usize % 3)),
                };
                assert_eq!(
                    found.map(|(size, _)| size),
                    expected,
                    "{number:02X}, {size}"
                );
            }
            for size in 5..least - 7 {
                let record = framed(&whole[..size], b"");
                assert_eq!(told(&mut tally, &record, 0), Err(refused(4, 0)));
            }
        }
    }
    tally.finish_fault_ways("counts", &[]);
    assert_eq!(tally.fault_times((0x15, AddressFault::Count)), 12);
    assert_eq!(tally.fault_times((0x79, AddressFault::Count)), 12);
}

/// The first of all refusals is told: the trailer's, the type's, the count's
/// for the second time, the time's, the body's.
#[test]
fn whole_order_of_a_record() {
    let mut tally = Tally::new();
    for (number, width, least) in HEADERS {
        for choice in 0..1 << 5 {
            let wrong = |bit: u32| choice >> bit & 1 == 1;
            let kind = if wrong(1) { 5 } else { 16 };
            let nanoseconds = if wrong(3) { 1_000_000_000 } else { 0 };
            let mut front = head(number, width, kind, &IPV6, nanoseconds);
            if wrong(4) {
                front.push(0xFF);
            }
            if wrong(2) {
                front.truncate(least - 7 + 11);
            }
            let mut record = framed(&front, b"");
            let end = record.len();
            if wrong(0) {
                record[end - 1] ^= 1;
            }
            let all = [
                wrong(0).then_some(refused(5, 0)),
                wrong(1).then_some(refused(13, 0)),
                wrong(2).then_some(refused(4, 0)),
                wrong(3).then_some(refused(9, 0)),
                wrong(4).then_some(refused(6, end - 8)),
            ];
            let first = all.into_iter().flatten().next();
            assert_eq!(told(&mut tally, &record, 0).err(), first, "{choice:05b}");
        }
    }
    assert_eq!(tally.inputs(), 2 * 32);
    assert_eq!((tally.refused_times(5), tally.refused_times(13)), (32, 16));
}

/// Every writer with an address, and addresses of every length: 13 before all
/// else, whatever the room; the others are written and read back.
#[test]
fn addresses_of_every_length_are_given() {
    let mut rng = Rng::new(751);
    let mut tally = Tally::new();
    let lengths: Vec<usize> = (0..=40).chain([255, 260, 272, 65_540, 65_552]).collect();
    for length in &lengths {
        for number in EXPANDED_NUMBERS {
            let mut args = good_args(&mut rng, number);
            args.bytes = rng.bytes(*length);
            given(&mut tally, &mut rng, WriteArgs::Token(args), *length);
        }
        for number in EXPANDED_HEADERS {
            for (body, nanoseconds) in [(&b""[..], 0), (b"\x2C\0\x16", 7), (b"\0", 1_000_000_000)] {
                let header = HeaderArgs {
                    fields: reference::Header {
                        number,
                        version: 11,
                        event: 1,
                        modifier: 2,
                        address: &[],
                        seconds: 3,
                        nanoseconds,
                    },
                    address: rng.bytes(*length),
                };
                let body = body.to_vec();
                let args = WriteArgs::Record { header, body };
                given(&mut tally, &mut rng, args, *length);
            }
        }
    }
    assert_eq!(tally.inputs(), lengths.len() * (5 + 2 * 3) * 4);
    assert_eq!(
        tally.refused_times(13),
        (lengths.len() - 2) * (5 + 2 * 3) * 4
    );
}

/// Gives arguments with an address of this length to their writer.
fn given(tally: &mut Tally, rng: &mut Rng, args: WriteArgs, length: usize) {
    let size = args.size();
    for room in [0, size - 1, size, size + 20] {
        let answer = same_write(tally, rng, &args, room);
        match length {
            4 | 16 => assert_ne!(answer, Err(refused(13, 0))),
            _ => assert_eq!(answer, Err(refused(13, 0)), "{args:?} into {room}"),
        }
    }
}

/// Addresses of every value of a byte, and where they stand.
#[test]
fn every_byte_of_an_address() {
    let mut tally = Tally::new();
    for address in ADDRESSES {
        for at in 0..address.len() {
            for byte in 0..=255 {
                let mut address = address.to_vec();
                address[at] = byte;
                for (number, width, _) in HEADERS {
                    for body in every_token(&address) {
                        let record = record(number, width, &address, &body);
                        let found = told(&mut tally, &record, 0);
                        assert_eq!(found, Ok((record.len(), address.clone())));
                    }
                }
                for (number, fixed) in TOKENS {
                    let body = token(number, fixed, address.len() as u32, &address);
                    same_token(&mut tally, &body, 0);
                    let TokenAnswer::Token { start, length, .. } = reference::token_at(&body, 0)
                    else {
                        panic!("no token in {}", show(&body));
                    };
                    assert_eq!((start, length), (fixed, address.len()));
                }
            }
        }
    }
    assert_eq!(tally.inputs(), 256 * 20 * (2 * 2 + 5));
    tally.finish_addresses("every byte", &EXPANDED_NUMBERS);
    tally.finish_addresses("every byte", &EXPANDED_HEADERS);
}

/// Expanded records read while they are written, and from the end.
#[test]
fn trails_that_grow_and_steps_back() {
    let trail = every_record();
    let mut tally = Tally::new();
    let mut growing = Growing::new(&trail, State::default());
    for cut in 0..=trail.len() {
        growing.grown(&mut tally, &trail[..cut]);
    }
    growing.finish();
    let (items, run) = reference::reading(&trail, State::default());
    assert_eq!((run.refusal, items.len()), (None, 1 + 2 * 2 * 5));

    same_newest(&trail);
    let places = items[1..].iter().rev().map(|(place, _)| *place);
    assert!(bsm::Newest::new(&trail).map(|(place, _)| place).eq(places));
    let mut rng = Rng::new(752);
    for place in 0..=trail.len() + 1 {
        same_before(&mut tally, &trail, place);
        same_around(&mut tally, &mut rng, &trail, place);
    }
    // The front of the last record is missing.
    let last = items.last().expect("a record").0;
    let size = trail.len() - last;
    for gone in 1..size - 7 {
        let found = same_before(&mut tally, &trail[last + gone..], size - gone);
        assert_eq!(found, reference::Before::Boundary { need: size });
    }
}

/// A record's line has the fields that it has for every header: neither type
/// nor address.
#[test]
fn lines_of_expanded_records() {
    let trail = every_record();
    let items = reference::reading(&trail, State::default()).0;
    let mut listing = "bsmlist\t1\nF\t0\t13\t5\t7\n".to_string();
    for (i, (place, item)) in items[1..].iter().enumerate() {
        let tokens = if i % 5 == 0 { 0 } else { 8 };
        let size = item.size();
        listing += &format!("R\t{place}\t{size}\t4660\t22136\t16909060\t2\t{tokens}\n");
    }
    listing += "E\t20\t1\n";

    let mut out = vec![0; listing.len()];
    let listed = bsm::list(&mut out, &trail, bsm::Cursor::First);
    assert_eq!(listed.cursor, bsm::Cursor::Done);
    assert_eq!(
        std::str::from_utf8(&out[..listed.written]),
        Ok(&listing[..])
    );
    let mut rng = Rng::new(753);
    let mut tally = Tally::new();
    for _ in 0..200 {
        same_lines(&mut tally, &mut rng, &trail, State::default());
        let room = |rng: &mut Rng| rng.between(bsm::LINE_MAX, 300);
        assert!(same_parts(
            &mut tally,
            &mut rng,
            &trail,
            bsm::Cursor::First,
            room
        ));
    }

    // A refusal's line.
    let bad = framed(&head(0x15, 4, 6, &IPV4, 0), b"");
    let mut line = [0; 20];
    let size = bsm::last_line(&mut line, &bad, bsm::State::default()).expect("room");
    assert_eq!(&line[..size], b"X\t13\t0\t0\n");
}
