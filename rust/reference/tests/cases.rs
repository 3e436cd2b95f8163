//! The cases of paper 01, section 'Cases', with the header of paper 02, P2.

use reference::*;

/// Bytes from hexadecimal digits; gaps are ignored.
fn hex(digits: &str) -> Vec<u8> {
    let digits: Vec<u8> = digits
        .bytes()
        .filter(|b| !b.is_ascii_whitespace())
        .collect();
    digits
        .chunks(2)
        .map(|pair| u8::from_str_radix(std::str::from_utf8(pair).unwrap(), 16).unwrap())
        .collect()
}

/// A record as in case 9 with this body and its right size.
fn case_nine(body: &str) -> Vec<u8> {
    let body = hex(body);
    let count = format!("{:08X}", 25 + body.len());
    let mut record = hex(&format!("14 {count} 0B 0048 0000 00000001 00000002"));
    record.extend_from_slice(&body);
    record.extend_from_slice(&hex(&format!("13 B105 {count}")));
    record
}

fn refused(trail: &[u8], place: usize) -> (u8, usize, usize) {
    match item_at(trail, place) {
        Answer::Refused(r) => (r.number, r.place, r.need),
        other => panic!("not refused: {other:?}"),
    }
}

/// Size, event and number of tokens of the record at the start.
fn record(trail: &[u8]) -> (usize, u16, usize) {
    match item_at(trail, 0) {
        Answer::Item(Item::Record {
            size,
            header,
            tokens,
            ..
        }) => (size, header.event, tokens),
        other => panic!("no record: {other:?}"),
    }
}

#[test]
fn case_1_empty_is_end() {
    assert_eq!(item_at(&[], 0), Answer::End);
}

#[test]
fn case_2_place_beyond() {
    assert_eq!(refused(&[], 1), (2, 1, 0));
    assert_eq!(refused(&[], usize::MAX), (2, usize::MAX, 0));
}

#[test]
fn case_3_one_header_byte() {
    assert_eq!(refused(&hex("14"), 0), (1, 0, 5));
    assert_eq!(refused(&hex("74"), 0), (1, 0, 5));
    assert_eq!(refused(&hex("11"), 0), (1, 0, 11));
}

#[test]
fn case_4_trailer_is_no_item() {
    assert_eq!(refused(&hex("13"), 0), (3, 0, 0));
}

#[test]
fn cases_5_to_8_bounds_of_the_count() {
    assert_eq!(refused(&hex("14 00000018"), 0), (4, 0, 0));
    assert_eq!(refused(&hex("14 00000019"), 0), (1, 0, 25));
    assert_eq!(refused(&hex("14 0000001A"), 0), (1, 0, 26));
    assert_eq!(refused(&hex("14 0000FFFF"), 0), (1, 0, 65_535));
    assert_eq!(refused(&hex("14 00010000"), 0), (4, 0, 0));
    assert_eq!(refused(&hex("74 00000020"), 0), (4, 0, 0));
    assert_eq!(refused(&hex("74 00000021"), 0), (1, 0, 33));
    assert_eq!(refused(&hex("74 00000022"), 0), (1, 0, 34));
    assert_eq!(refused(&hex("74 FFFFFFFF"), 0), (4, 0, 0));
}

#[test]
fn case_9_record_without_body() {
    let trail = hex("14 00000019 0B 0048 0000 00000001 00000002 13 B105 00000019");
    assert_eq!(trail, case_nine(""));
    let header = Header {
        number: 0x14,
        version: 11,
        event: 72,
        modifier: 0,
        address: &[],
        seconds: 1,
        nanoseconds: 2,
    };
    let item = Item::Record {
        size: 25,
        header,
        body: &[],
        tokens: 0,
    };
    assert_eq!(item_at(&trail, 0), Answer::Item(item));
}

/// Each field of either header from bytes that no other field has.
#[test]
fn fields_of_both_headers() {
    let small = hex("14 00000019 A1 B1B2 C1C2 D1D2D3D4 01E2E3E4 13 B105 00000019");
    let wide = "74 00000021 A1 B1B2 C1C2 D1D2D3D4D5D6D7D8 0000000001E2E3E4 13 B105 00000021";
    let wide = hex(wide);
    for (trail, seconds) in [(small, 0xD1D2_D3D4), (wide, 0xD1D2_D3D4_D5D6_D7D8)] {
        let header = Header {
            number: trail[0],
            version: 0xA1,
            event: 0xB1B2,
            modifier: 0xC1C2,
            address: &[],
            seconds,
            nanoseconds: 0x01E2_E3E4,
        };
        let item = Item::Record {
            size: trail.len(),
            header,
            body: &[],
            tokens: 0,
        };
        assert_eq!(item_at(&trail, 0), Answer::Item(item));
        let mut again = vec![0; trail.len()];
        assert_eq!(write_record(&mut again, &header, &[]), Ok(trail.len()));
        assert_eq!(again, trail);
    }
}

/// A record with two bytes for the version, as case 9 had them before paper
/// 02, P2. All but the count and the trailer is read one byte off.
fn two_bytes(seconds: u32, nanoseconds: u32, body: &str) -> Vec<u8> {
    let body = hex(body);
    let count = format!("{:08X}", 26 + body.len());
    let head = format!("14 {count} 000B 0048 0000 {seconds:08X} {nanoseconds:08X}");
    [hex(&head), body, hex(&format!("13 B105 {count}"))].concat()
}

#[test]
fn versions_of_two_bytes_are_not_guessed() {
    let old_case_9 = two_bytes(1, 2, "");
    assert_eq!(refused(&old_case_9, 0), (6, 18, 0));
    for (seconds, nanoseconds, body, refusal) in [
        (59, 999_999_999, "", (6, 18, 0)),
        (60, 0, "", (9, 0, 0)),
        (255, 0x2C, "27 00 290001FF", (9, 0, 0)),
        (256, 0x2C, "", (7, 18, 0)),
        (1, 0x2C, "27 00 00000000", (6, 21, 0)),
        (1, 0x2D, "52 00000000 00000000", (8, 24, 0)),
    ] {
        let trail = two_bytes(seconds, nanoseconds, body);
        assert_eq!(refused(&trail, 0), refusal, "{seconds} {nanoseconds}");
        let end = trail.len() - 1;
        assert_eq!(refused(&trail[..end], 0), (1, 0, trail.len()));
    }
    // One that is a record of another event and time.
    let taken = two_bytes(1, 0x2C, "27 00 290001FF");
    assert_eq!(record(&taken), (taken.len(), 0x0B00, 2));
}

#[test]
fn case_10_one_token() {
    let trail = case_nine("27 00 00000000");
    assert_eq!(trail.len(), 31);
    assert_eq!(record(&trail), (31, 72, 1));
}

#[test]
fn case_11_wrong_trailer() {
    let mut trail = case_nine("");
    trail[24] = 0x1B;
    assert_eq!(refused(&trail, 0), (5, 0, 0));
    trail[14..18].copy_from_slice(&1_000_000_000u32.to_be_bytes());
    assert_eq!(refused(&trail, 0), (5, 0, 0));
    trail[24] = 0x19;
    assert_eq!(refused(&trail, 0), (9, 0, 0));
    trail[14..18].copy_from_slice(&999_999_999u32.to_be_bytes());
    assert_eq!(record(&trail), (25, 72, 0));
}

#[test]
fn case_12_file() {
    let trail = hex("11 00000005 00000007 0002 61 00");
    let item = Item::File {
        size: 13,
        seconds: 5,
        microseconds: 7,
        name: b"a",
    };
    assert_eq!(item_at(&trail, 0), Answer::Item(item));
}

#[test]
fn case_13_early_zero_in_the_name() {
    let trail = hex("11 00000005 00000007 0003 00 61 00");
    assert_eq!(refused(&trail, 0), (8, 11, 0));
}

#[test]
fn case_14_token_leaves_the_body() {
    assert_eq!(refused(&case_nine("2C 00"), 0), (7, 18, 0));
}

#[test]
fn case_15_no_token_number() {
    assert_eq!(refused(&case_nine("00"), 0), (6, 18, 0));
    for number in ["11", "13", "14", "15", "74", "79"] {
        assert_eq!(refused(&case_nine(number), 0), (6, 18, 0));
    }
}

#[test]
fn case_16_trailer_inside_an_opaque() {
    let trail = case_nine("29 0007 13 B105 0000001A");
    assert_eq!(trail.len(), 35);
    assert_eq!(record(&trail), (35, 72, 1));
}

#[test]
fn case_17_listing() {
    let mut trail = hex("11 00000005 00000007 0002 61 00");
    trail.extend_from_slice(&case_nine(""));
    let expected = b"bsmlist\t1\nF\t0\t13\t5\t7\nR\t13\t25\t72\t0\t1\t2\t0\nE\t1\t1\n";
    assert_eq!(listing(&trail), expected);
    assert_eq!(program_output(&trail), expected);
}

#[test]
fn places_are_those_of_the_buffer() {
    let mut trail = hex("11 00000005 00000007 0002 61 00");
    trail.extend_from_slice(&case_nine("27 00 00000000 28 0001 61"));
    assert_eq!(refused(&trail, 13), (8, 13 + 18 + 6 + 3, 0));
    assert_eq!(refused(&trail, 12), (3, 12, 0));
    assert_eq!(item_at(&trail, trail.len()), Answer::End);
    let end = trail.len() + 1;
    assert_eq!(refused(&trail, end), (2, end, 0));
}

#[test]
fn file_order() {
    let fixed = |micros: u32, length: u16| {
        let mut token = hex("11 00000005");
        token.extend_from_slice(&micros.to_be_bytes());
        token.extend_from_slice(&length.to_be_bytes());
        token
    };
    let whole = fixed(7, 2);
    for cut in 1..11 {
        assert_eq!(refused(&whole[..cut], 0), (1, 0, 11));
    }
    assert_eq!(refused(&fixed(1_000_000, 0), 0), (9, 0, 0));
    assert_eq!(refused(&fixed(999_999, 0), 0), (8, 9, 0));
    assert_eq!(refused(&fixed(999_999, 1_025), 0), (8, 9, 0));
    assert_eq!(refused(&fixed(999_999, 65_535), 0), (8, 9, 0));
    assert_eq!(refused(&fixed(999_999, 1_024), 0), (1, 0, 1_035));
    let mut unended = fixed(0, 2);
    unended.push(b'a');
    assert_eq!(refused(&unended, 0), (1, 0, 13));
    unended.push(b'b');
    assert_eq!(refused(&unended, 0), (8, 12, 0));
}

/// Paper 02, P1: the byte that spoils a file name, in a trail where the file
/// token is the second item.
#[test]
fn file_names_report_the_byte() {
    let before = case_nine("");
    for (length_and_name, place) in [
        ("0003 00 61 00", 11), // a zero byte before the last
        ("0003 61 00 00", 12),
        ("0004 61 00 00 00", 12), // the first of two
        ("0003 61 00 62", 12),    // before a last byte that is not zero
        ("0003 61 62 63", 13),    // the last byte is not zero
        ("0001 61", 11),
        ("0000", 9), // no byte at all
        ("0000 61 00", 9),
        ("0401", 9), // 1,025 bytes, there or not
        ("0401 00", 9),
    ] {
        let mut trail = before.clone();
        trail.extend(hex(&format!("11 00000005 00000007 {length_and_name}")));
        assert_eq!(refused(&trail, 25), (8, 25 + place, 0), "{length_and_name}");
        let stopped = run(&trail, State::default());
        assert_eq!(
            stopped.refusal.map(|r| (r.number, r.place)),
            Some((8, 25 + place))
        );
        assert_eq!(stopped.state.place, 25);
        trail.extend(hex("00 FF 11"));
        assert_eq!(refused(&trail, 25), (8, 25 + place, 0), "{length_and_name}");
    }
}

/// The same of names of 1,024 and 1,025 bytes.
#[test]
fn long_file_names_report_the_byte() {
    let file = |name: &[u8]| {
        let mut token = hex("11 00000005 00000007");
        token.extend((name.len() as u16).to_be_bytes());
        token.extend(name);
        token
    };
    let mut name = vec![b'n'; 1_024];
    assert_eq!(refused(&file(&name), 0), (8, 11 + 1_023, 0));
    name[1_022] = 0;
    assert_eq!(refused(&file(&name), 0), (8, 11 + 1_022, 0));
    name[1_023] = 0;
    assert_eq!(refused(&file(&name), 0), (8, 11 + 1_022, 0));
    name[1_022] = b'n';
    let good = file(&name);
    assert!(matches!(
        item_at(&good, 0),
        Answer::Item(Item::File { size: 1_035, .. })
    ));
    for name in [[&name[..1_023], b"n\0"].concat(), vec![0; 1_025]] {
        assert_eq!(refused(&file(&name), 0), (8, 9, 0));
    }
}

/// Paper 02, P1: the byte that spoils a token's text, moved to the places of
/// the trail, behind either header.
#[test]
fn texts_of_records_report_the_byte() {
    for (token, at) in [
        ("23 0003 2F 00 00", 4),
        ("28 0003 61 62 63", 5),
        ("28 0000", 1),
        ("2D 01 00000000 0002 00 00", 8),
        ("2D 01 00000000 0000", 6),
        ("71 01 0000000000000000 0002 61 62", 13),
        ("71 01 0000000000000000 0000", 10),
    ] {
        let body = format!("2C 0016 {token} 27 00 00000000");
        let mut trail = hex("11 00000005 00000007 0002 61 00");
        trail.extend(case_nine(&body));
        assert_eq!(refused(&trail, 13), (8, 13 + 18 + 3 + at, 0), "{token}");
        let mut wide = header64(&hex(&body));
        assert_eq!(refused(&wide, 0), (8, 26 + 3 + at, 0), "{token}");
        wide[4] -= 1;
        assert_eq!(refused(&wide, 0), (5, 0, 0), "5 comes first");
    }
}

/// A header64 record around this body.
fn header64(body: &[u8]) -> Vec<u8> {
    let count = (33 + body.len() as u32).to_be_bytes();
    let fields = hex("0B 0048 0000 0000000000000001 0000000000000002");
    [&[0x74], &count[..], &fields, body, &hex("13 B105"), &count].concat()
}

#[test]
fn runs_from_states() {
    let mut trail = hex("11 00000005 00000007 0002 61 00");
    trail.extend_from_slice(&case_nine(""));
    trail.extend_from_slice(&case_nine("")[..24]);
    let fresh = run(&trail, State::default());
    let state = State {
        place: 38,
        records: 1,
        files: 1,
    };
    let refusal = Some(Refusal {
        number: 1,
        place: 38,
        need: 25,
    });
    assert_eq!(fresh, Run { state, refusal });
    let (items, same) = reading(&trail, State::default());
    assert_eq!(same, fresh);
    assert_eq!(items.iter().map(|i| i.0).collect::<Vec<_>>(), [0, 13]);

    // The refusal's place may lie behind the state's.
    let bad = case_nine("00");
    let refusal = Some(Refusal {
        number: 6,
        place: 18,
        need: 0,
    });
    let state = State::default();
    assert_eq!(run(&bad, state), Run { state, refusal });

    for (place, records, files) in [
        (trail.len() + 1, 0, 0),
        (13, 14, 0),
        (13, 7, 7),
        (0, 0, 1),
        (usize::MAX, usize::MAX, 1),
        (0, usize::MAX, usize::MAX),
        (usize::MAX, 0, 0),
    ] {
        let state = State {
            place,
            records,
            files,
        };
        let refusal = Some(Refusal {
            number: 2,
            place,
            need: 0,
        });
        assert_eq!(run(&trail, state), Run { state, refusal });
        assert_eq!(reading(&trail, state), (Vec::new(), Run { state, refusal }));
    }
    let state = State {
        place: 13,
        records: 13,
        files: 0,
    };
    assert_eq!(run(&trail, state).state.records, 14);
}

#[test]
fn growing_trails_give_the_same_end() {
    let mut trail = hex("11 00000005 00000007 0002 61 00");
    trail.extend_from_slice(&case_nine("23 0003 2F 61 00 3C 00000002 61 00 00"));
    trail.extend_from_slice(&case_nine("00"));
    let (all, whole) = reading(&trail, State::default());
    for first in 0..=trail.len() {
        for second in first..=trail.len() {
            let (mut items, a) = reading(&trail[..first], State::default());
            let (more, b) = reading(&trail[..second], a.state);
            let (last, c) = reading(&trail, b.state);
            items.extend(more);
            items.extend(last);
            assert_eq!((c, &items), (whole, &all));
        }
    }
}

#[test]
fn short_stays_until_need_and_comes_at_most_twice() {
    for trail in [
        hex("11 00000005 00000007 0004 61 62 63 00"),
        case_nine("23 0003 2F 61 00"),
    ] {
        let mut shorts = Vec::new();
        for cut in 1..trail.len() {
            let (number, place, need) = refused(&trail[..cut], 0);
            assert_eq!((number, place), (1, 0));
            assert!(cut < need);
            shorts.push(need);
        }
        shorts.dedup();
        assert_eq!(shorts.len(), 2);
        assert_eq!(shorts[1], trail.len());
    }
}
