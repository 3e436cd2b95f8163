//! Records with more than one subject (paper 02, P7).

use reference::*;

/// The address of a plain subject, and type and address of the others.
const PLAIN: [u8; 4] = [192, 0, 2, 7];
const IPV4: [u8; 8] = [0, 0, 0, 4, 192, 0, 2, 7];
const IPV6: [u8; 20] = [
    0, 0, 0, 16, 0x20, 1, 0x0D, 0xB8, 0, 0, 0, 0, 0, 0, 0, 0, 0, 0, 0x24, 1,
];

/// A file token.
const FILE: [u8; 13] = *b"\x11\0\0\0\x05\0\0\0\x07\0\x02a\0";

/// An iport token.
const IPORT: &[u8] = b"\x2C\0\x07";

/// A subject or process. The byte 24 in its fields begins no token.
fn party(number: u8, port: usize, address: &[u8]) -> Vec<u8> {
    [&[number][..], &[0x24; 28], &vec![0x24; port], address].concat()
}

/// All sizes of the tokens with these numbers.
fn parties([small, wide, small_ex, wide_ex]: [u8; 4]) -> [Vec<u8>; 6] {
    [
        party(small, 4, &PLAIN),
        party(wide, 8, &PLAIN),
        party(small_ex, 4, &IPV4),
        party(small_ex, 4, &IPV6),
        party(wide_ex, 8, &IPV4),
        party(wide_ex, 8, &IPV6),
    ]
}

fn subjects() -> [Vec<u8>; 6] {
    parties([0x24, 0x75, 0x7A, 0x7C])
}

fn processes() -> [Vec<u8>; 6] {
    parties([0x26, 0x77, 0x7B, 0x7D])
}

/// An opaque token around these bytes.
fn opaque(bytes: &[u8]) -> Vec<u8> {
    [&[0x29, 0, bytes.len() as u8], bytes].concat()
}

/// Two subjects, the second at place 40.
fn two() -> Vec<u8> {
    [IPORT, &subjects()[0], &subjects()[3]].concat()
}

/// The headers of all sizes, without their counts.
fn heads() -> Vec<Vec<u8>> {
    let head = |number, address: &[u8], times| {
        let kinds = [number, 0, 0, 0, 0, 11, 0, 72, 0, 0];
        [&kinds, address, &vec![0; times]].concat()
    };
    vec![
        head(0x14, &[], 8),
        head(0x74, &[], 16),
        head(0x15, &IPV4, 8),
        head(0x15, &IPV6, 8),
        head(0x79, &IPV4, 16),
        head(0x79, &IPV6, 16),
    ]
}

/// The record of a header and a body.
fn framed(head: &[u8], body: &[u8]) -> Vec<u8> {
    let count = ((head.len() + body.len() + 7) as u32).to_be_bytes();
    let mut record = [head, body, &[0x13, 0xB1, 5], &count].concat();
    record[1..5].copy_from_slice(&count);
    record
}

/// A header32 record, whose body begins at place 18.
fn record(body: &[u8]) -> Vec<u8> {
    framed(&heads()[0], body)
}

/// Number, place and need of what refuses the item at a place.
fn refused(trail: &[u8], place: usize) -> (u8, usize, usize) {
    match item_at(trail, place) {
        Answer::Refused(r) => (r.number, r.place, r.need),
        other => panic!("not refused: {other:?}"),
    }
}

fn refusal<T>(number: u8, place: usize) -> Result<T, Refusal> {
    Err(Refusal {
        number,
        place,
        need: 0,
    })
}

/// The body's answer from the walk, from the record reader behind a file
/// token and each header, and from the record writer: all are the same.
fn told(body: &[u8]) -> Result<usize, Refusal> {
    let answer = walk_body(body);
    for head in heads() {
        let trail = [&FILE[..], &framed(&head, body)].concat();
        let run = run(&trail, State::default());
        let mut dst = vec![0xEE; trail.len()];
        let written = write_record(&mut dst, &header(&head), body);
        match answer {
            Ok(count) => {
                let Answer::Item(Item::Record { tokens, .. }) = item_at(&trail, 13) else {
                    panic!("no record");
                };
                assert_eq!(tokens, count);
                assert_eq!((run.refusal, run.state.records), (None, 1));
                assert_eq!(written, Ok(trail.len() - 13));
                assert_eq!(dst, [&trail[13..], &[0xEE; 13]].concat());
            }
            Err(fault) => {
                let place = 13 + head.len() + fault.place;
                assert_eq!(refused(&trail, 13), (fault.number, place, 0));
                assert_eq!(run.refusal, Some(Refusal { place, ..fault }));
                assert_eq!((run.state.place, run.state.records), (13, 0));
                assert_eq!(written, Err(fault));
                assert!(dst.iter().all(|&byte| byte == 0xEE));
            }
        }
    }
    answer
}

/// What the writer is given for one of the heads.
fn header(head: &[u8]) -> Header<'_> {
    let number = head[0];
    let times = if number < 0x20 { 8 } else { 16 };
    // Without its type, if there is one.
    let address = head[10..head.len() - times].get(4..);
    Header {
        number,
        version: 11,
        event: 72,
        modifier: 0,
        address: address.unwrap_or(&[]),
        seconds: 0,
        nanoseconds: 0,
    }
}

#[test]
fn one_subject_of_any_kind() {
    for subject in subjects() {
        assert_eq!(told(&subject), Ok(1));
        let body = [IPORT, b"\x23\0\x03/a\0", &subject, IPORT].concat();
        assert_eq!(told(&body), Ok(4));
    }
}

/// 14 stands at the second one, whatever is before, between and behind.
#[test]
fn every_pair_of_kinds() {
    let [process, ..] = processes();
    let hidden = opaque(&subjects()[1]);
    for first in subjects() {
        for second in subjects() {
            for before in [&b""[..], IPORT, &process] {
                for between in [&b""[..], IPORT, &process, &hidden, b"\x28\0\x02$\0"] {
                    let place = before.len() + first.len() + between.len();
                    for behind in [&b""[..], IPORT, &first, b"\0", b"\x7A"] {
                        let body = [before, &first, between, &second, behind].concat();
                        assert_eq!(told(&body), refusal(14, place));
                    }
                }
            }
        }
    }
}

#[test]
fn processes_do_not_count() {
    let all = processes().concat();
    assert_eq!(told(&all), Ok(6));
    assert_eq!(told(&all.repeat(3)), Ok(18));
    for subject in subjects() {
        let body = [&all[..], &subject, &all, &all].concat();
        assert_eq!(told(&body), Ok(19));
        for process in processes() {
            assert_eq!(told(&[&process[..], &subject].concat()), Ok(2));
            assert_eq!(told(&[&subject[..], &process].concat()), Ok(2));
        }
    }
}

/// Nor do the bytes of a subject inside another token.
#[test]
fn hidden_subjects_do_not_count() {
    for subject in subjects() {
        for hidden in subjects() {
            let opaque = opaque(&hidden);
            let body = [&opaque[..], &subject, &opaque, b"\x28\0\x03$$\0"].concat();
            assert_eq!(told(&body), Ok(4));
        }
    }
}

/// Each record has a subject of its own.
#[test]
fn a_subject_in_each_record() {
    let trail = subjects().map(|subject| record(&subject)).concat();
    let found = run(&trail, State::default());
    assert_eq!((found.refusal, found.state.records), (None, 6));
}

/// 7 and 13 of the second one come before its 14.
#[test]
fn faults_of_the_second() {
    for first in subjects() {
        for second in subjects() {
            for cut in 1..second.len() {
                let body = [&first[..], &second[..cut]].concat();
                assert_eq!(told(&body), refusal(7, first.len()), "{cut}");
            }
        }
        for (number, port) in [(0x7A, 4), (0x7C, 8)] {
            for kind in [0, 3, 5, 15, 17, 255] {
                for address in [&b""[..], &PLAIN, &[0; 16]] {
                    let second = party(number, port, &[&[0, 0, 0, kind], address].concat());
                    let body = [&first[..], &second].concat();
                    assert_eq!(told(&body), refusal(13, first.len()), "{kind}");
                }
            }
        }
    }
}

/// All rows of four tokens, good and bad: the leftmost fault counts.
#[test]
fn rows_of_tokens() {
    const SUBJECT: (u8, usize) = (14, 0);
    const OTHER: (u8, usize) = (0, 0);
    let [small, wide, small_ex, .., wide_ex] = subjects();
    let [process, .., process_ex] = processes();
    let pool = [
        (small, SUBJECT),
        (wide, SUBJECT),
        (small_ex, SUBJECT),
        (wide_ex, SUBJECT),
        (process, OTHER),
        (process_ex, OTHER),
        (IPORT.to_vec(), OTHER),
        (vec![0], (6, 0)),
        (b"\x28\xFF\xFF".to_vec(), (7, 0)),
        (b"\x28\0\0".to_vec(), (8, 1)),
        (party(0x7A, 4, &[0, 0, 0, 5]), (13, 0)),
        (party(0x7D, 8, &[0, 0, 0, 5]), (13, 0)),
    ];
    let mut numbers = [0; 15];
    for row in 0..pool.len().pow(4) {
        let (mut body, mut subjects, mut fault) = (Vec::new(), 0, None);
        for at in 0..4 {
            let (token, (number, offset)) = &pool[row / pool.len().pow(at) % pool.len()];
            subjects += usize::from(*number == 14);
            let good = *number == 0 || *number == 14 && subjects == 1;
            if !good && fault.is_none() {
                fault = Some((*number, body.len() + offset));
            }
            body.extend_from_slice(token);
        }
        let expected = match fault {
            None => Ok(4),
            Some((number, place)) => refusal(number, place),
        };
        assert_eq!(walk_body(&body), expected);
        numbers[usize::from(fault.map_or(0, |fault| fault.0))] += 1;
    }
    assert!([0, 6, 7, 8, 13, 14]
        .iter()
        .all(|&number| numbers[number] > 99));
}

/// What refuses the header, the count or the trailer comes first.
#[test]
fn faults_of_the_record() {
    for head in heads() {
        let mut bad = framed(&head, &two());
        assert_eq!(refused(&bad, 0), (14, head.len() + 40, 0));
        let end = bad.len() - 1;
        bad[end] ^= 1;
        assert_eq!(refused(&bad, 0), (5, 0, 0));
        bad[end] ^= 1;
        bad[head.len() - 4] = 0x40;
        assert_eq!(refused(&bad, 0), (9, 0, 0));
        if [0x15, 0x79].contains(&head[0]) {
            bad[13] = 5;
            assert_eq!(refused(&bad, 0), (13, 0, 0));
        }
    }
}

/// The token reader sees one token, and knows of no other.
#[test]
fn token_by_token() {
    let body = subjects().concat();
    assert_eq!(walk_body(&body), refusal(14, 37));
    let mut place = 0;
    for subject in subjects() {
        let TokenAnswer::Token { token, size, .. } = token_at(&body, place) else {
            panic!("no token");
        };
        assert_eq!((token.number(), size), (subject[0], subject.len()));
        place += size;
    }
    assert_eq!(token_at(&body, place), TokenAnswer::End);
}

/// The writer tells 13, 4, 11 and 9 first, and 10 last.
#[test]
fn order_when_writing() {
    let large = [two(), vec![0x2C; 65_535]].concat();
    for head in heads() {
        let good = header(&head);
        let told = |header: &Header<'_>, body: &[u8], number, place| {
            for room in [0, 60, 300] {
                let mut dst = vec![0xEE; room];
                let answer = write_record(&mut dst, header, body);
                assert_eq!(answer, refusal(number, place), "into {room}");
                assert!(dst.iter().all(|&byte| byte == 0xEE));
            }
        };
        told(&good, &two(), 14, 40);
        told(&good, &large, 4, 0);
        let mut bad = good;
        bad.nanoseconds = 1_000_000_000;
        told(&bad, &two(), 9, 0);
        bad.version = 256;
        told(&bad, &two(), 11, 0);
        told(&bad, &large, 4, 0);
        if !good.address.is_empty() {
            bad.address = &PLAIN[..3];
            told(&bad, &large, 13, 0);
        }
        // One subject less is written, where there is room.
        let body = &two()[..40];
        let size = head.len() + body.len() + 7;
        let mut dst = vec![0xEE; size];
        let answer = write_record(&mut dst[..size - 1], &good, body);
        assert_eq!(answer, refusal(10, 0));
        assert!(dst.iter().all(|&byte| byte == 0xEE));
        assert_eq!(write_record(&mut dst, &good, body), Ok(size));
    }
}

/// Short while the record is cut, at most twice; then 14, whatever follows.
#[test]
fn longer_trails() {
    for head in heads() {
        let bad = framed(&head, &two());
        let before = [&FILE[..], &record(&subjects()[2])].concat();
        let start = before.len();
        let whole = [&before[..], &bad].concat();
        for cut in 1..bad.len() {
            let need = if cut < 5 { 5 } else { bad.len() };
            assert_eq!(refused(&whole[..start + cut], start), (1, start, need));
        }
        let place = start + head.len() + 40;
        let behind = [&[0xFF][..], &[0x14], &FILE, &bad, &before, &[0; 70_000]];
        for more in behind.into_iter().chain([&[][..]]) {
            let trail = [&whole, more].concat();
            assert_eq!(refused(&trail, start), (14, place, 0));
        }
    }
}

/// Runs carried on while the trail grows stop where one over all of it does.
#[test]
fn growing_trails_give_the_same_end() {
    let good = record(&subjects()[5]);
    let trail = [&FILE[..], &good, &record(&two()), &good].concat();
    let (all, whole) = reading(&trail, State::default());
    let place = FILE.len() + good.len();
    assert_eq!((all.len(), whole.state.place), (2, place));
    assert_eq!(
        whole.refusal.map(|r| (r.number, r.place)),
        Some((14, place + 58))
    );
    for first in 0..=trail.len() {
        for second in first..=trail.len() {
            let (mut items, a) = reading(&trail[..first], State::default());
            let (more, b) = reading(&trail[..second], a.state);
            let (last, c) = reading(&trail, b.state);
            items.extend(more);
            items.extend(last);
            assert_eq!((c, &items), (whole, &all));
        }
    }
}

#[test]
fn listing_stops() {
    let good = record(&subjects()[0]);
    let trail = [&FILE[..], &good, &record(&two()), &good].concat();
    let expected = "bsmlist\t1\n\
                    F\t0\t13\t5\t7\n\
                    R\t13\t62\t72\t0\t0\t0\t1\n\
                    X\t14\t133\t0\n";
    assert_eq!(listing(&trail), expected.as_bytes());
    assert_eq!(program_output(&trail), expected.as_bytes());
}

/// A record with two subjects is a boundary for the steps back.
#[test]
fn steps_back() {
    let good = record(&subjects()[4]);
    for head in heads() {
        let bad = framed(&head, &two());
        let trail = [&good[..], &bad, &good, &good].concat();
        let stop = good.len() + bad.len();
        let (found, place, need) = newest(&trail);
        let places: Vec<usize> = found.iter().map(|record| record.0).collect();
        let expected = vec![stop + good.len(), stop];
        assert_eq!((places, place, need), (expected, stop, 0));
        assert_eq!(newest(&trail[..stop]), (vec![], stop, 0));
        assert_eq!(newest(&trail[..good.len()]).0.len(), 1);
    }
}

/// Records behind one with two subjects have no numbers.
#[test]
fn index_stops() {
    let good = record(&subjects()[1]);
    let size = good.len();
    let trail = [good.repeat(70), record(&two()), good.repeat(70)].concat();
    let stop = 70 * size;
    let mut table = [77; 3];
    let filled = fill(&trail, State::default(), &mut table);
    assert_eq!(filled.run, run(&trail, State::default()));
    assert_eq!((filled.count, filled.run.state.place), (2, stop));
    assert_eq!(table, [0, 64 * size as u64, 77]);
    let fault = Refusal {
        number: 14,
        place: stop + 58,
        need: 0,
    };
    assert_eq!(filled.run.refusal, Some(fault));
    for count in 0..=2 {
        let last = find(&trail, &table, count, 69);
        assert!(matches!(last, Found::Record { place, .. } if place == 69 * size));
        for n in [70, 71, 127, 128, 139, usize::MAX] {
            let past = find(&trail, &table, count, n);
            assert_eq!(past, Found::Refused(fault), "{n}");
        }
    }
    // An entry at that record gets the refusal, one behind it the records.
    assert_eq!(find(&trail, &[stop as u64], 1, 0), Found::Refused(fault));
    let behind = stop + record(&two()).len();
    let found = find(&trail, &[behind as u64], 1, 2);
    assert!(matches!(found, Found::Record { place, .. } if place == behind + 2 * size));
}
