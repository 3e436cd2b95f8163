//! Versions that do not fit one byte, in writers and in trails (paper 02,
//! P2).

use generator::*;
use reference::*;
use std::collections::BTreeMap;

/// A version over 255 is told after the address's and the record's length, and
/// before all else.
#[test]
fn large_versions_with_all_else_that_is_wrong() {
    let mut rng = Rng::new(31);
    let mut kinds = BTreeMap::new();
    let calls = (0..8_000).flat_map(|_| write_calls(&mut rng));
    for WriteCall { args, room } in calls {
        let Some(kind) = large_version(&args, room) else {
            continue;
        };
        let number = match kind.1 {
            Beside::Address | Beside::AddressAndMore => 13,
            Beside::Length | Beside::LengthAndMore => 4,
            _ => 11,
        };
        let refusal = Refusal {
            number,
            place: 0,
            need: 0,
        };
        let mut dst = vec![0xA5; room];
        assert_eq!(args.write(&mut dst), Err(refusal), "{kind:02X?}");
        assert!(dst.iter().all(|&byte| byte == 0xA5));
        *kinds.entry(kind).or_insert(0) += 1;
    }
    println!("{kinds:?}");
    assert_eq!(kinds.len(), LARGE_VERSIONS.len());
    for kind in LARGE_VERSIONS {
        assert!(kinds[&kind] >= 100, "{kind:02X?}: {}", kinds[&kind]);
    }
}

/// Good headers have every version that fits, the edges often.
#[test]
fn versions_of_good_headers() {
    let mut rng = Rng::new(32);
    let mut times = [0; 256];
    for _ in 0..40_000 {
        times[usize::from(good_header(&mut rng).fields.version)] += 1;
    }
    assert!(times.iter().all(|&times| times > 0));
    assert!([0, 11, 255].iter().all(|&edge| times[edge] > 4_000));
}

/// What item the reader must find in a record of the manual page: refused with
/// 9 or for its body, or accepted with other fields.
fn found<'a>(header: Header<'a>, body: &'a [u8]) -> Answer<'a> {
    let head = if header.number == 0x14 { 18 } else { 26 };
    let refused = |number, place| {
        Answer::Refused(Refusal {
            number,
            place,
            need: 0,
        })
    };
    if header.nanoseconds > 999_999_999 {
        return refused(9, 0);
    }
    match walk_body(body) {
        Err(refusal) => refused(refusal.number, head + refusal.place),
        Ok(tokens) => Answer::Item(Item::Record {
            size: head + body.len() + 7,
            header,
            body,
            tokens,
        }),
    }
}

/// The answer for a record of the manual page; 0 where it is accepted. Its
/// count and trailer stand where they stood, so that 3, 4 and 5 never come,
/// and nothing is short once it is whole.
fn answer(header: &Header<'_>, body: &[u8]) -> u8 {
    let record = page_record(header, body);
    let (moved, rest) = page_found(header, body);
    assert_eq!(record, raw_record(&moved, &rest));
    let answer = item_at(&record, 0);
    assert_eq!(answer, found(moved, &rest));
    let number = match answer {
        Answer::Refused(refusal) => refusal.number,
        _ => 0,
    };
    assert!(matches!(number, 0 | 6..=9 | 13 | 14), "{number}");
    // The last byte of the seconds alone decides on 9.
    let low = header.seconds as u8;
    let late = if header.number == 0x14 {
        low >= 60
    } else {
        low > 0
    };
    assert_eq!(number == 9, late, "{header:?}");
    number
}

/// How often each answer came for records with these headers and bodies.
fn answers<'a>(records: impl Iterator<Item = (Header<'a>, Vec<u8>)>) -> BTreeMap<(u8, u8), usize> {
    let mut times = BTreeMap::new();
    for (header, body) in records {
        let number = answer(&header, &body);
        *times.entry((header.number, number)).or_insert(0) += 1;
    }
    times
}

/// Headers and bodies of the records of a trail.
fn records(trail: &[u8]) -> Vec<(Header<'_>, Vec<u8>)> {
    let items = reading(trail, State::default()).0.into_iter();
    items
        .filter_map(|(_, item)| match item {
            Item::Record { header, body, .. } => Some((header, body.to_vec())),
            Item::File { .. } => None,
        })
        .collect()
}

/// Asserts that each of these answers came at least a hundred times for
/// either header.
fn often(times: &BTreeMap<(u8, u8), usize>, numbers: &[u8]) {
    for header in [0x14, 0x74] {
        for &number in numbers {
            let found = times.get(&(header, number)).copied().unwrap_or(0);
            assert!(found >= 100, "{header:02X}, {number}: {found}");
        }
    }
}

#[test]
fn records_of_the_manual_page() {
    let mut rng = Rng::new(33);
    let times = answers((0..200_000).map(|_| page_fields(&mut rng, false)));
    println!("good records: {times:?}");
    often(&times, &[6, 7, 9]);
}

/// The largest one: still no 4.
#[test]
fn largest_record_of_the_manual_page() {
    let mut rng = Rng::new(35);
    for number in [0x14, 0x74] {
        let (header, _) = page_fields(&mut rng, false);
        let header = Header { number, ..header };
        let empty = page_record(&header, b"").len();
        let mut body = vec![0x29, 0, 0];
        body.resize(65_535 - empty, 0xA5);
        let length = (body.len() - 3) as u16;
        body[1..3].copy_from_slice(&length.to_be_bytes());
        assert_eq!(walk_body(&body), Ok(1));
        assert_eq!(page_record(&header, &body).len(), 65_535);
        assert!(answer(&header, &body) >= 6);
    }
}

/// Where neither the seconds nor the first byte of the body read gives a
/// record away, it may be taken for another.
#[test]
fn records_of_the_manual_page_that_look_good() {
    let mut rng = Rng::new(34);
    let times = answers((0..100_000).map(|_| page_fields(&mut rng, true)));
    println!("aimed records: {times:?}");
    often(&times, &[0, 6, 7, 8]);
}

/// With times as they come, three of four are told by their seconds.
#[test]
fn usual_records_of_the_manual_page() {
    for trail in [usual_records(20_000_000), small_records(4_000_000)] {
        let records = records(&trail);
        let all = records.len();
        let times = answers(records.into_iter());
        println!("{all} records: {times:?}");
        let of_it = times.iter().filter(|((_, number), _)| *number == 9);
        let late: usize = of_it.map(|(_, times)| times).sum();
        assert!(late * 4 > all * 3, "{late} of {all}");
    }
}
