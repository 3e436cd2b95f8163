//! Steps back and walks from a trail's end (paper 02, P3).

use reference::*;

/// The smallest record, as in case 9.
const RECORD: [u8; 25] = *b"\x14\0\0\0\x19\x0b\0\x48\0\0\0\0\0\x01\0\0\0\x02\x13\xb1\x05\0\0\0\x19";

/// A file token.
const FILE: [u8; 13] = *b"\x11\0\0\0\x05\0\0\0\x07\0\x02a\0";

fn start(trail: &[u8], place: usize) -> Result<usize, usize> {
    match record_before(trail, place) {
        Before::Record { place, .. } => Ok(place),
        Before::Boundary { need } => Err(need),
        Before::Refused(refusal) => panic!("{refusal:?}"),
    }
}

#[test]
fn a_record_and_its_fields() {
    let trail = [&FILE[..], &RECORD].concat();
    let Answer::Item(expected) = item_at(&trail, 13) else {
        panic!("no record");
    };
    let found = Before::Record {
        place: 13,
        item: expected,
    };
    assert_eq!(record_before(&trail, 38), found);
}

#[test]
fn two_only_beyond_the_buffer() {
    for place in [26, 27, usize::MAX] {
        let Before::Refused(refusal) = record_before(&RECORD, place) else {
            panic!("place {place}");
        };
        assert_eq!((refusal.number, refusal.place, refusal.need), (2, place, 0));
    }
    assert_eq!(start(&[], 0), Err(7));
}

#[test]
fn boundaries() {
    for place in 0..7 {
        assert_eq!(start(&RECORD, place), Err(7));
    }
    for place in 7..25 {
        assert_eq!(start(&RECORD, place), Err(0));
    }
    // Its first byte is missing: a byte in front could make it whole.
    assert_eq!(start(&RECORD[1..], 24), Err(25));
    assert_eq!(start(&RECORD[18..], 7), Err(25));
    // The count is not the header's.
    let mut other = RECORD;
    for (count, need) in [(0, 0), (7, 0), (24, 0), (26, 26), (255, 255)] {
        other[24] = count;
        assert_eq!(start(&other, 25), Err(need));
    }
    // No record is so long.
    other[22] = 1;
    assert_eq!(start(&other, 25), Err(0));
    // A trailer with another magic number, or none.
    for at in 18..21 {
        let mut other = RECORD;
        other[at] ^= 1;
        assert_eq!(start(&other, 25), Err(0));
    }
}

#[test]
fn what_stands_elsewhere_does_not_count() {
    let trail = [&[0xFF; 9], &RECORD[..], &[0xFF; 9]].concat();
    assert_eq!(start(&trail, 34), Ok(9));
}

#[test]
fn walks() {
    let places = |trail: &[u8]| {
        let (records, place, need) = newest(trail);
        let starts: Vec<usize> = records.iter().map(|record| record.0).collect();
        (starts, place, need)
    };
    assert_eq!(places(&[]), (vec![], 0, 7));
    assert_eq!(places(&RECORD.repeat(3)), (vec![50, 25, 0], 0, 7));
    let trail = [&RECORD[..], &FILE, &RECORD, &RECORD].concat();
    assert_eq!(places(&trail), (vec![63, 38], 38, 0));
    assert_eq!(places(&trail[..38]), (vec![], 38, 0));
}

/// A whole record inside of an opaque token is found from its own end, never
/// from that of the record around it.
#[test]
fn a_record_in_an_opaque() {
    let mut trail = vec![0; 53];
    let header = Header {
        number: 0x14,
        version: 11,
        event: 72,
        modifier: 0,
        address: &[],
        seconds: 1,
        nanoseconds: 2,
    };
    let body = [&[0x29, 0, 25], &RECORD[..]].concat();
    assert_eq!(write_record(&mut trail, &header, &body), Ok(53));
    assert_eq!(start(&trail, 46), Ok(21));
    assert_eq!(newest(&trail).0.len(), 1);
}
