//! The cases of paper 01, with the header of paper 02, P2, read through the crate `bsm`.

use bsm::{item_at, Cursor, Item, Reason, Refusal, Token};
use generator::{page_record, raw_file, raw_record};

/// The header of case 9.
const HEADER: reference::Header<'static> = reference::Header {
    number: 0x14,
    version: 11,
    event: 72,
    modifier: 0,
    address: &[],
    seconds: 1,
    nanoseconds: 2,
};

/// A record as in case 9 with this body; its length stands in both places.
fn record(body: &[u8]) -> Vec<u8> {
    raw_record(&HEADER, body)
}

/// The bytes of case 12.
fn file() -> Vec<u8> {
    raw_file(5, 7, 2, b"a\0")
}

fn refused(reason: Reason, place: usize, need: usize) -> Result<Option<Item<'static>>, Refusal> {
    Err(Refusal {
        reason,
        place,
        need,
    })
}

/// The record of case 9 with this body.
fn accepted(body: &[u8], tokens: usize) -> Result<Option<Item<'_>>, Refusal> {
    Ok(Some(Item::Record {
        size: 25 + body.len(),
        header: compare::header(HEADER),
        body,
        tokens,
    }))
}

#[test]
fn cases_1_to_8_starts_of_items() {
    let start = |count: u32| [&[0x14][..], &count.to_be_bytes()].concat();
    assert_eq!(item_at(b"", 0), Ok(None));
    assert_eq!(item_at(b"", 1), refused(Reason::Place, 1, 0));
    assert_eq!(item_at(&[0x14], 0), refused(Reason::Short, 0, 5));
    assert_eq!(item_at(&[0x13], 0), refused(Reason::NotAnItem, 0, 0));
    let length = refused(Reason::RecordLength, 0, 0);
    assert_eq!(item_at(&start(0x18), 0), length);
    assert_eq!(item_at(&start(0x19), 0), refused(Reason::Short, 0, 25));
    assert_eq!(item_at(&start(0x1A), 0), refused(Reason::Short, 0, 26));
    assert_eq!(
        item_at(&start(0xFFFF), 0),
        refused(Reason::Short, 0, 65_535)
    );
    assert_eq!(item_at(&start(0x1_0000), 0), length);
}

/// Counts around the bounds of each header.
#[test]
fn counts_around_the_bounds() {
    for (number, least) in [(0x14, 25), (0x15, 33), (0x74, 33), (0x79, 41)] {
        for count in (0..100).chain(65_500..65_600).chain([1 << 24, u32::MAX]) {
            let start = [&[number][..], &count.to_be_bytes()].concat();
            let expected = match count as usize {
                count if (least..=65_535).contains(&count) => refused(Reason::Short, 0, count),
                _ => refused(Reason::RecordLength, 0, 0),
            };
            assert_eq!(item_at(&start, 0), expected, "{number:02X}, {count}");
        }
    }
}

#[test]
fn case_9_record_without_body() {
    let trail = record(b"");
    assert_eq!(trail.len(), 25);
    assert_eq!(item_at(&trail, 0), accepted(b"", 0));
}

/// The bytes of case 9 before P2, with two for the version.
#[test]
fn case_9_with_a_longer_version() {
    let trail = page_record(&HEADER, b"");
    assert_eq!(trail.len(), 26);
    assert_eq!(item_at(&trail, 0), refused(Reason::NotABodyToken, 18, 0));
}

#[test]
fn case_10_record_with_a_return_token() {
    let body = [0x27, 0, 0, 0, 0, 0];
    let trail = record(&body);
    assert_eq!(trail.len(), 31);
    assert_eq!((trail[4], trail[30]), (31, 31));
    assert_eq!(item_at(&trail, 0), accepted(&body, 1));
    let tokens: Vec<_> = bsm::tokens(&body).collect();
    assert_eq!(tokens, [Ok(Token::Return32 { error: 0, value: 0 })]);
}

#[test]
fn case_11_trailer_with_another_length() {
    let mut trail = record(b"");
    trail[24] = 0x1B;
    assert_eq!(item_at(&trail, 0), refused(Reason::Trailer, 0, 0));
    trail[14..18].copy_from_slice(&1_000_000_000u32.to_be_bytes());
    assert_eq!(item_at(&trail, 0), refused(Reason::Trailer, 0, 0));
}

#[test]
fn cases_12_and_13_file_tokens() {
    let item = Item::File {
        size: 13,
        seconds: 5,
        microseconds: 7,
        name: b"a",
    };
    assert_eq!(item_at(&file(), 0), Ok(Some(item)));
    let bad = raw_file(5, 7, 3, b"\0a\0");
    assert_eq!(item_at(&bad, 0), refused(Reason::BadText, 11, 0));
}

#[test]
fn cases_14_to_16_bodies() {
    assert_eq!(
        item_at(&record(&[0x2C, 0]), 0),
        refused(Reason::PastEnd, 18, 0)
    );
    assert_eq!(
        item_at(&record(&[0]), 0),
        refused(Reason::NotABodyToken, 18, 0)
    );
    let opaque = [0x29, 0, 7, 0x13, 0xB1, 0x05, 0, 0, 0, 0x1A];
    let trail = record(&opaque);
    assert_eq!(trail.len(), 35);
    assert_eq!(item_at(&trail, 0), accepted(&opaque, 1));
}

#[test]
fn case_17_listing() {
    let trail = [file(), record(b"")].concat();
    let lines = [
        "bsmlist\t1\n",
        "F\t0\t13\t5\t7\n",
        "R\t13\t25\t72\t0\t1\t2\t0\n",
        "E\t1\t1\n",
    ];
    let whole = lines.concat();

    let mut out = [0; 100];
    let listed = bsm::list(&mut out, &trail, Cursor::First);
    assert_eq!(listed.cursor, Cursor::Done);
    assert_eq!(&out[..listed.written], whole.as_bytes());

    // The same line by line.
    let fresh = bsm::State::default();
    let mut used = bsm::first_line(&mut out).expect("there is room");
    assert_eq!(&out[..used], lines[0].as_bytes());
    used += bsm::item_line(&mut out[used..], &trail, 0).expect("there is room");
    used += bsm::item_line(&mut out[used..], &trail, 13).expect("there is room");
    used += bsm::last_line(&mut out[used..], &trail, fresh).expect("there is room");
    assert_eq!(&out[..used], whole.as_bytes());
}
