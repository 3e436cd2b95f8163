//! Versions of records: one byte, two in what the writers take, and two in
//! trails that were written as the manual page has it (paper 02, P2).

use compare::*;
use generator::*;
use reference::{Answer, Header, Item, Refusal, State};
use std::collections::BTreeMap;

/// A header with distinct fields, and the first of the addresses that it can
/// be given.
fn header(number: u8, version: u16) -> HeaderArgs {
    HeaderArgs {
        fields: Header {
            number,
            version,
            event: 0x1234,
            modifier: 0x5678,
            address: &[],
            seconds: 0x9ABC_DEF0,
            nanoseconds: 0x0BCD_EF01,
        },
        address: addresses(number)[0].to_vec(),
    }
}

/// Addresses for the header with this number: good ones of either length and
/// two that are refused; none for one that has no address.
fn addresses(number: u8) -> &'static [&'static [u8]] {
    match number {
        0x15 | 0x79 => &[&[192, 0, 2, 7], &[0x20; 16], &[], &[9; 5]],
        _ => &[&[]],
    }
}

fn refused(number: u8, place: usize) -> Refusal {
    Refusal {
        number,
        place,
        need: 0,
    }
}

/// Each version that fits one byte is written and read back, each other one
/// is too large. What else changes and what is read back, `same_write` looks
/// at.
#[test]
fn every_version() {
    let mut rng = Rng::new(601);
    let mut tally = Tally::new();
    for number in HEADER_NUMBERS {
        for version in 0..=u16::MAX {
            let body = Vec::new();
            let header = header(number, version);
            let size = header.size() + 7;
            let args = WriteArgs::Record { header, body };
            let answer = same_write(&mut tally, &mut rng, &args, size);
            let expected = match version {
                ..=255 => Ok(size),
                _ => Err(refused(11, 0)),
            };
            assert_eq!(answer, expected, "{number:02X}, version {version}");
        }
    }
    assert_eq!((tally.inputs(), tally.answers().0), (4 * 65_536, 4 * 256));
}

/// What a record is to be written from, right or wrong in each of the things
/// that can be refused.
struct Given {
    header: HeaderArgs,
    body: Vec<u8>,
    /// How the body is refused.
    bad: Option<Refusal>,
    room: usize,
}

/// The refusals of what is given, in their order: 13, 4, 11, 9, the body's,
/// 10.
fn refusals(given: &Given) -> impl Iterator<Item = Refusal> {
    let Header {
        number,
        version,
        seconds,
        nanoseconds,
        ..
    } = given.header.fields;
    let length = given.header.address.len();
    let bad_address = matches!(number, 0x15 | 0x79) && length != 4 && length != 16;
    let size = given.header.size() + given.body.len() + 7;
    let narrow = matches!(number, 0x14 | 0x15) && seconds.max(nanoseconds) > u32::MAX.into();
    let all = [
        bad_address.then_some(refused(13, 0)),
        (size > 65_535).then_some(refused(4, 0)),
        (version > 255 || narrow).then_some(refused(11, 0)),
        (nanoseconds > 999_999_999).then_some(refused(9, 0)),
        given.bad,
        (given.room < size).then_some(refused(10, 0)),
    ];
    all.into_iter().flatten()
}

/// Good tokens of this size: nothing, or an opaque.
fn filled(size: usize) -> Vec<u8> {
    let Some(length) = size.checked_sub(3) else {
        return Vec::new();
    };
    let mut token = vec![0x29, (length >> 8) as u8, length as u8];
    token.resize(size, 0x13);
    token
}

/// Bodies that are good or refused with 6, 7, 8, 13 or 14, each small and too
/// large for a record.
fn bodies() -> Vec<(Vec<u8>, Option<Refusal>)> {
    let subjects = [&[0x24][..], &[0; 36]].concat().repeat(2);
    let ends = [
        (&b"\x2C\0\0"[..], 0, 0),
        (b"\0", 6, 0),
        (b"\x2C\0", 7, 0),
        (b"\x28\0\x01t", 8, 3),
        (b"\x7E\0\0\0\x06", 13, 0),
        (&subjects, 14, 37),
    ];
    let mut all = Vec::new();
    for (end, number, at) in ends {
        for front in [filled(0), filled(65_535)] {
            let bad = (number > 0).then(|| refused(number, front.len() + at));
            all.push(([&front[..], end].concat(), bad));
        }
    }
    all
}

/// Headers with each choice of what is wrong with them.
fn all_headers(number: u8) -> Vec<HeaderArgs> {
    let mut all = Vec::new();
    for version in [0, 255, 256, u16::MAX] {
        for seconds in [u32::MAX.into(), 1 << 32] {
            for nanoseconds in [999_999_999, 1_000_000_000, 1 << 32] {
                for address in addresses(number) {
                    let mut header = header(number, version);
                    header.fields.seconds = seconds;
                    header.fields.nanoseconds = nanoseconds;
                    header.address = address.to_vec();
                    all.push(header);
                }
            }
        }
    }
    all
}

/// All that is given, with each choice of what is wrong.
fn all_given(number: u8) -> Vec<Given> {
    let mut all = Vec::new();
    for header in all_headers(number) {
        for (body, bad) in bodies() {
            let size = header.size() + body.len() + 7;
            all.extend([0, size - 1, size, size + 1].map(|room| Given {
                header: header.clone(),
                body: body.clone(),
                bad,
                room,
            }));
        }
    }
    all
}

/// The first of all refusals is told, whatever else is wrong.
#[test]
fn whole_order_of_a_record() {
    let mut rng = Rng::new(602);
    let mut tally = Tally::new();
    for given in HEADER_NUMBERS.into_iter().flat_map(all_given) {
        let first = refusals(&given).next();
        let Given {
            header, body, room, ..
        } = given;
        let args = WriteArgs::Record { header, body };
        let answer = same_write(&mut tally, &mut rng, &args, room);
        assert_eq!(answer.err(), first, "{args:?} into {room}");
    }
    let (none, refused) = tally.answers();
    println!("not refused {none}, refusals {refused:?}");
    assert_eq!(tally.inputs(), (1 + 1 + 4 + 4) * 4 * 2 * 3 * 12 * 4);
    for number in [4, 6, 7, 8, 9, 10, 11, 13, 14] {
        assert!(refused[number - 1] > 0, "{number}");
    }
    assert!(none > 0);
}

/// The answer at the start of a record of the manual page, 0 where it is
/// accepted. Its count and its trailer stand where they stood, so that only 9
/// and the body's refusals are left.
fn told(tally: &mut Tally, header: &Header<'_>, body: &[u8]) -> u8 {
    let record = page_record(header, body);
    let (moved, rest) = page_found(header, body);
    // The last byte of the seconds alone decides on 9.
    let least = if header.number == 0x14 { 60 } else { 1 };
    let late = header.seconds % 256 >= least;
    match same_item(tally, &record, 0) {
        Answer::Item(Item::Record { header, body, .. }) => {
            assert!(!late);
            assert_eq!((header, body), (moved, &rest[..]));
            0
        }
        Answer::Refused(refusal) => {
            let inside = header_size(header.number)..record.len() - 7;
            match refusal.number {
                9 => assert!(late && refusal.place == 0),
                6..=8 | 13 | 14 => assert!(!late && inside.contains(&refusal.place)),
                other => panic!("{other} for {}", show(&record)),
            }
            refusal.number
        }
        other => panic!("{other:?} for {}", show(&record)),
    }
}

/// How often each answer comes for records of the manual page with these
/// headers and bodies, by the header.
fn answers<'a>(records: impl Iterator<Item = (Header<'a>, Vec<u8>)>) -> BTreeMap<(u8, u8), usize> {
    let mut tally = Tally::new();
    let mut times = BTreeMap::new();
    for (header, body) in records {
        let number = told(&mut tally, &header, &body);
        *times.entry((header.number, number)).or_insert(0) += 1;
    }
    println!("{} records: {times:?}", tally.inputs());
    times
}

#[test]
fn records_of_the_manual_page() {
    let mut rng = Rng::new(33);
    for (aimed, often) in [(false, &[6, 7, 9][..]), (true, &[0, 6, 7, 8])] {
        let times = answers((0..TWO_BYTES).map(|_| page_fields(&mut rng, aimed)));
        for number in often {
            assert!(times[&(0x14, *number)] >= 100 && times[&(0x74, *number)] >= 100);
        }
    }
}

/// Records with usual times: the seconds tell three of four.
#[test]
fn usual_records_of_the_manual_page() {
    for trail in [usual_records(20_000_000), small_records(4_000_000)] {
        let items = reference::reading(&trail, State::default()).0.into_iter();
        let records = items.map(|(_, item)| match item {
            Item::Record { header, body, .. } => (header, body.to_vec()),
            Item::File { .. } => panic!("no record"),
        });
        let times = answers(records);
        let sum = |late: bool| -> usize {
            let of_it = times.iter().filter(|((_, n), _)| (*n == 9) == late);
            of_it.map(|(_, times)| times).sum()
        };
        assert!(sum(true) > 3 * sum(false), "{times:?}");
    }
}

/// Such a record between others: what stands before it is read, it is short
/// until its last byte is there, and then it stops the run or is passed.
#[test]
fn trails_of_the_manual_page_cut_at_each_byte() {
    let mut rng = Rng::new(604);
    let mut tally = Tally::new();
    while tally.inputs() < CUT_TWO_BYTES {
        let aimed = rng.chance(2);
        let (header, body) = page_fields(&mut rng, aimed);
        if body.len() > 200 {
            continue;
        }
        let front = good_file(&mut rng);
        let record = page_record(&header, &body);
        let trail = [&front[..], &record, &good_record(&mut rng)].concat();
        let start = front.len();
        for cut in 1..record.len() {
            let need = if cut < 5 { 5 } else { record.len() };
            let run = same_run(&mut tally, &trail[..start + cut], State::default());
            let short = Refusal {
                number: 1,
                place: start,
                need,
            };
            assert_eq!(run.refusal, Some(short));
        }
        let run = same_run(&mut tally, &trail, State::default());
        let passed = told(&mut tally, &header, &body) == 0;
        assert_eq!(run.state.place > start, passed);
    }
    let (passed, refused) = tally.answers();
    println!("passed {passed}, refusals {refused:?}");
    assert!(passed > 0);
    assert!([1, 6, 7, 9]
        .iter()
        .all(|&number| refused[number - 1] >= 100));
}
