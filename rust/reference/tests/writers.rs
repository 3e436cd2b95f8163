//! Edges and orders of the writers (paper 01, 'Order when writing').

use reference::*;

const FILL: u8 = 0xA5;

/// Runs a writer on a destination of `room` bytes; checks that nothing
/// outside the written bytes changed and hands these back.
fn written(
    room: usize,
    write: impl FnOnce(&mut [u8]) -> Result<usize, Refusal>,
) -> Result<Vec<u8>, Refusal> {
    let mut dst = vec![FILL; room];
    let answer = write(&mut dst);
    let size = *answer.as_ref().unwrap_or(&0);
    assert!(dst[size..].iter().all(|&b| b == FILL));
    dst.truncate(size);
    answer.map(|_| dst)
}

fn refusal<T>(number: u8, place: usize) -> Result<T, Refusal> {
    Err(Refusal {
        number,
        place,
        need: 0,
    })
}

fn header(number: u8) -> Header<'static> {
    Header {
        number,
        version: 11,
        event: 72,
        modifier: 3,
        address: &[],
        seconds: 1,
        nanoseconds: 2,
    }
}

/// An opaque token that takes `size` bytes.
fn opaque(size: usize) -> Vec<u8> {
    let bytes = vec![0x13; size - 3];
    written(size, |dst| {
        write_token(dst, &WriteToken::Opaque { bytes: &bytes })
    })
    .unwrap()
}

type Make = for<'a> fn(&'a [u8]) -> WriteToken<'a>;

/// The tokens with a text, and the sizes of their fixed parts.
const TEXTS: [(usize, Make); 4] = [
    (3, |text| WriteToken::Path { text }),
    (3, |text| WriteToken::Text { text }),
    (8, |text| WriteToken::Arg32 {
        argument: 1,
        value: 2,
        text,
    }),
    (12, |text| WriteToken::Arg64 {
        argument: 1,
        value: 2,
        text,
    }),
];

#[test]
fn text_length_edge() {
    let most = vec![b'a'; 65_534];
    let over = vec![b'a'; 65_535];
    let mut zero = most.clone();
    zero[7] = 0;
    let mut over_zero = over.clone();
    over_zero[65_534] = 0;
    for (fixed, make) in TEXTS {
        let size = fixed + 65_535;
        let bytes = written(size + 1, |dst| write_token(dst, &make(&most))).unwrap();
        assert_eq!(bytes.len(), size);
        assert_eq!(bytes[fixed - 2..fixed], [0xFF, 0xFF]);
        assert_eq!(bytes[size - 1], 0);
        assert_eq!(walk_body(&bytes), Ok(1));
        let short = written(size - 1, |dst| write_token(dst, &make(&most)));
        assert_eq!(short, refusal(10, 0));
        let big = written(70_000, |dst| write_token(dst, &make(&over)));
        assert_eq!(big, refusal(11, 0));
        // 11 before 8, 8 before 10.
        let both = written(0, |dst| write_token(dst, &make(&over_zero)));
        assert_eq!(both, refusal(11, 0));
        let bad = written(0, |dst| write_token(dst, &make(&zero)));
        assert_eq!(bad, refusal(8, 7));
    }
}

/// 8 reports the first zero byte's place in the text (paper 02, P1).
#[test]
fn texts_with_a_zero_byte() {
    for (_, make) in TEXTS {
        for (text, at) in [
            (&b"\0"[..], 0),
            (b"\0a", 0),
            (b"a\0", 1),
            (b"a\0b", 1),
            (b"a\0b\0", 1),
            (b"abc\0\0", 3),
        ] {
            for room in [0, 100] {
                let bad = written(room, |dst| write_token(dst, &make(text)));
                assert_eq!(bad, refusal(8, at));
            }
        }
    }
}

#[test]
fn opaque_length_edge() {
    let bytes = vec![0; 65_536];
    let token = WriteToken::Opaque {
        bytes: &bytes[..65_535],
    };
    let good = written(65_538, |dst| write_token(dst, &token)).unwrap();
    assert_eq!(good[..3], [0x29, 0xFF, 0xFF]);
    assert_eq!(good.len(), 65_538);
    assert_eq!(walk_body(&good), Ok(1));
    let short = written(65_537, |dst| write_token(dst, &token));
    assert_eq!(short, refusal(10, 0));
    let token = WriteToken::Opaque { bytes: &bytes };
    for room in [0, 70_000] {
        let big = written(room, |dst| write_token(dst, &token));
        assert_eq!(big, refusal(11, 0));
    }
}

#[test]
fn groups_edge() {
    let groups: Vec<u32> = (0..65_536).collect();
    let token = WriteToken::NewGroups {
        groups: &groups[..65_535],
    };
    let size = 3 + 4 * 65_535;
    let good = written(size + 3, |dst| write_token(dst, &token)).unwrap();
    assert_eq!(good.len(), size);
    assert_eq!(good[..3], [0x3B, 0xFF, 0xFF]);
    assert_eq!(good[size - 4..], 65_534u32.to_be_bytes());
    assert_eq!(walk_body(&good), Ok(1));
    let short = written(size - 1, |dst| write_token(dst, &token));
    assert_eq!(short, refusal(10, 0));
    let token = WriteToken::NewGroups { groups: &groups };
    for room in [0, size + 4] {
        let big = written(room, |dst| write_token(dst, &token));
        assert_eq!(big, refusal(11, 0));
    }
}

#[test]
fn exec_strings() {
    for (count, strings, good) in [
        (0, &b""[..], true),
        (0, b"\0", false),
        (0, b"a", false),
        (1, b"", false),
        (1, b"\0", true),
        (1, b"a", false),
        (1, b"a\0", true),
        (1, b"a\0b", false),
        (1, b"\0\0", false),
        (2, b"\0\0", true),
        (2, b"a\0", false),
        (2, b"a\0b", false),
        (u32::MAX, b"a\0", false),
    ] {
        for token in [
            WriteToken::ExecArgs { count, strings },
            WriteToken::ExecEnv { count, strings },
        ] {
            let size = 5 + strings.len();
            let wide = written(size + 1, |dst| write_token(dst, &token));
            let small = written(size - 1, |dst| write_token(dst, &token));
            if good {
                let bytes = wide.unwrap();
                assert_eq!(bytes.len(), size);
                assert_eq!(walk_body(&bytes), Ok(1));
                assert_eq!(small, refusal(10, 0));
            } else {
                assert_eq!(wide, refusal(8, 0));
                assert_eq!(small, refusal(8, 0));
            }
        }
    }
}

#[test]
fn file_name_edge() {
    let name = vec![b'n'; 1_024];
    let good = written(1_040, |dst| write_file(dst, 5, 999_999, &name[..1_023])).unwrap();
    assert_eq!(good.len(), 1_035);
    let item = Item::File {
        size: 1_035,
        seconds: 5,
        microseconds: 999_999,
        name: &name[..1_023],
    };
    assert_eq!(item_at(&good, 0), Answer::Item(item));
    let short = written(1_034, |dst| write_file(dst, 5, 0, &name[..1_023]));
    assert_eq!(short, refusal(10, 0));
    for room in [0, 2_000] {
        let long = written(room, |dst| write_file(dst, 5, 0, &name));
        assert_eq!(long, refusal(8, 0));
        for (bad, at) in [(&b"\0"[..], 0), (b"a\0b", 1), (b"ab\0", 2), (b"a\0\0", 1)] {
            let zero = written(room, |dst| write_file(dst, 5, 0, bad));
            assert_eq!(zero, refusal(8, at));
        }
        let late = written(room, |dst| write_file(dst, 5, 1_000_000, &name));
        assert_eq!(late, refusal(9, 0));
    }
    // Too long a name reports 0, also where a zero byte stands in it.
    for (length, at, place) in [(1_023, 1_000, 1_000), (1_024, 1_000, 0), (1_024, 1_023, 0)] {
        let mut name = name[..length].to_vec();
        name[at] = 0;
        let zero = written(2_000, |dst| write_file(dst, 5, 0, &name));
        assert_eq!(zero, refusal(8, place));
    }
    let empty = written(12, |dst| write_file(dst, 1, 2, b"")).unwrap();
    assert_eq!(empty, b"\x11\0\0\0\x01\0\0\0\x02\0\x01\0");
    assert!(matches!(
        item_at(&empty, 0),
        Answer::Item(Item::File { name: b"", .. })
    ));
}

#[test]
fn record_size_edge() {
    for (number, fixed) in [(0x14, 25), (0x74, 33)] {
        let body = opaque(65_535 - fixed);
        let good = written(65_540, |dst| write_record(dst, &header(number), &body)).unwrap();
        assert_eq!(good.len(), 65_535);
        let item = Item::Record {
            size: 65_535,
            header: header(number),
            body: &body,
            tokens: 1,
        };
        assert_eq!(item_at(&good, 0), Answer::Item(item));
        let short = written(65_534, |dst| write_record(dst, &header(number), &body));
        assert_eq!(short, refusal(10, 0));
        let body = opaque(65_536 - fixed);
        let over = written(65_540, |dst| write_record(dst, &header(number), &body));
        assert_eq!(over, refusal(4, 0));
        let least = written(fixed, |dst| write_record(dst, &header(number), &[])).unwrap();
        assert_eq!(least.len(), fixed);
        assert!(matches!(
            item_at(&least, 0),
            Answer::Item(Item::Record { tokens: 0, .. })
        ));
    }
}

#[test]
fn record_order() {
    let over = opaque(65_536 - 25);
    let bad_body = b"\x27\0\0\0\0\0\x00";
    let mut late = header(0x14);
    late.seconds = 1 << 32;
    late.nanoseconds = 1 << 32;
    // 4 before all others.
    let answer = written(0, |dst| write_record(dst, &late, &over));
    assert_eq!(answer, refusal(4, 0));
    // 11 before 9, for header32 only.
    let answer = written(0, |dst| write_record(dst, &late, bad_body));
    assert_eq!(answer, refusal(11, 0));
    late.seconds = 0;
    let answer = written(0, |dst| write_record(dst, &late, bad_body));
    assert_eq!(answer, refusal(11, 0));
    late.number = 0x74;
    let answer = written(0, |dst| write_record(dst, &late, bad_body));
    assert_eq!(answer, refusal(9, 0));
    // 9 before the body, the body before 10; places from the body's start.
    for number in [0x14, 0x74] {
        let mut head = header(number);
        head.nanoseconds = 1_000_000_000;
        let answer = written(0, |dst| write_record(dst, &head, bad_body));
        assert_eq!(answer, refusal(9, 0));
        head.nanoseconds = 999_999_999;
        let answer = written(0, |dst| write_record(dst, &head, bad_body));
        assert_eq!(answer, refusal(6, 6));
        let answer = written(0, |dst| write_record(dst, &head, b"\x2C\0\0\x2C\0"));
        assert_eq!(answer, refusal(7, 3));
        let answer = written(0, |dst| write_record(dst, &head, b"\x2C\0\0\x28\0\0"));
        assert_eq!(answer, refusal(8, 4));
        let answer = written(0, |dst| write_record(dst, &head, b"\x2C\0\0\x28\0\x02ab"));
        assert_eq!(answer, refusal(8, 7));
        let answer = written(0, |dst| write_record(dst, &head, b"\x2C\0\0"));
        assert_eq!(answer, refusal(10, 0));
    }
}

/// Paper 02, P2: each version that fits one byte is written and read back,
/// each other one is too large.
#[test]
fn every_version() {
    for number in [0x14, 0x74] {
        for version in 0..=u16::MAX {
            let head = Header {
                version,
                ..header(number)
            };
            let answer = written(40, |dst| write_record(dst, &head, &[]));
            let Ok(low) = u8::try_from(version) else {
                assert_eq!(answer, refusal(11, 0));
                continue;
            };
            let bytes = answer.unwrap();
            assert_eq!(bytes[5], low);
            assert!(matches!(
                item_at(&bytes, 0),
                Answer::Item(Item::Record { header, .. }) if header == head
            ));
        }
    }
}

/// A version that is too large is told after 4 and before all others.
#[test]
fn order_of_a_version() {
    for (number, fixed) in [(0x14, 25), (0x74, 33)] {
        for version in [256, 257, 0x0B00, u16::MAX] {
            let mut head = header(number);
            head.version = version;
            let over = opaque(65_536 - fixed);
            let answer = written(0, |dst| write_record(dst, &head, &over));
            assert_eq!(answer, refusal(4, 0));
            for nanoseconds in [2, 1_000_000_000, 1 << 32] {
                head.nanoseconds = nanoseconds;
                for body in [&b""[..], b"\0", b"\x2C\0", b"\x28\0\0"] {
                    for room in [0, 100] {
                        let answer = written(room, |dst| write_record(dst, &head, body));
                        assert_eq!(answer, refusal(11, 0));
                    }
                }
            }
        }
    }
}

#[test]
fn wide_times() {
    let mut head = header(0x74);
    head.seconds = u64::MAX;
    head.nanoseconds = 999_999_999;
    let bytes = written(33, |dst| write_record(dst, &head, &[])).unwrap();
    assert_eq!(bytes[10..18], [0xFF; 8]);
    assert_eq!(bytes[18..26], [0, 0, 0, 0, 0x3B, 0x9A, 0xC9, 0xFF]);
    assert!(matches!(
        item_at(&bytes, 0),
        Answer::Item(Item::Record { header, .. }) if header == head
    ));
    let mut bad = bytes.clone();
    bad[18] = 1;
    assert!(matches!(
        item_at(&bad, 0),
        Answer::Refused(Refusal {
            number: 9,
            place: 0,
            need: 0
        })
    ));
    head.number = 0x14;
    head.seconds = u64::from(u32::MAX);
    let bytes = written(25, |dst| write_record(dst, &head, &[])).unwrap();
    assert!(matches!(
        item_at(&bytes, 0),
        Answer::Item(Item::Record { header, .. }) if header == head
    ));
}
