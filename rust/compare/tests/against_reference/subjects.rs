//! Records with two subjects (paper 02, P7). What is expected comes from how
//! the bodies were put together; the comparisons look at the reference's
//! answers too.

use bsm::{Cursor, LINE_MAX, RECORDS_PER_ENTRY};
use compare::*;
use generator::*;
use reference::{Answer, Before, Found, Header, Refusal, State, TokenAnswer};

/// A body with two subjects, of these kinds, and where the second starts.
struct Two {
    pair: (u8, u8),
    body: Vec<u8>,
    second: usize,
}

fn refused(number: u8, place: usize) -> Refusal {
    Refusal {
        number,
        place,
        need: 0,
    }
}

fn subject(rng: &mut Rng) -> Vec<u8> {
    let number = rng.pick(&SUBJECT_NUMBERS);
    token_of(rng, number)
}

/// What stands around subjects: nothing, or a token that is none. Some have the
/// byte 24 in them, and the opaque holds a subject.
fn others(rng: &mut Rng) -> [Vec<u8>; 8] {
    let held = subject(rng);
    let opaque = [&[0x29, 0, held.len() as u8], &held[..]].concat();
    let [a, b, c, d] = PROCESS_NUMBERS.map(|number| token_of(rng, number));
    let (iport, text) = (b"\x2C\0\x24".to_vec(), b"\x28\0\x03$$\0".to_vec());
    [Vec::new(), iport, text, opaque, a, b, c, d]
}

fn other(rng: &mut Rng) -> Vec<u8> {
    let at = rng.below(8);
    others(rng)[at].clone()
}

/// Bodies with each pair of kinds and each of the others between.
fn bodies(rng: &mut Rng) -> Vec<Two> {
    let mut all = Vec::new();
    for pair in SUBJECT_PAIRS {
        for between in others(rng) {
            let mut body = [other(rng), token_of(rng, pair.0), between].concat();
            let second = body.len();
            body.extend(token_of(rng, pair.1));
            body.extend(other(rng));
            all.push(Two { pair, body, second });
        }
    }
    all
}

/// Headers of each kind, expanded ones with either address.
fn headers() -> [HeaderArgs; 6] {
    let addresses: [(u8, &[u8]); 6] = [
        (0x14, &[]),
        (0x74, &[]),
        (0x15, &[192, 0, 2, 7]),
        (0x15, &[0x24; 16]),
        (0x79, &[192, 0, 2, 7]),
        (0x79, &[0x24; 16]),
    ];
    addresses.map(|(number, address)| HeaderArgs {
        fields: Header {
            number,
            version: 11,
            event: 72,
            modifier: 0,
            address: &[],
            seconds: 0x2424_2424,
            nanoseconds: 2,
        },
        address: address.to_vec(),
    })
}

/// A record with such a body behind other items.
struct InTrail {
    two: Two,
    trail: Vec<u8>,
    /// Where the record starts, and its size.
    start: usize,
    size: usize,
    /// What it is refused with.
    refusal: Refusal,
}

/// All bodies in all headers, each behind what `front` gives.
fn in_trails(rng: &mut Rng, front: impl Fn(&mut Rng) -> Vec<u8>) -> Vec<InTrail> {
    let mut all = Vec::new();
    for header in headers() {
        for two in bodies(rng) {
            let record = raw_record(&header.header(), &two.body);
            let front = front(rng);
            let start = front.len();
            all.push(InTrail {
                refusal: refused(14, start + header.size() + two.second),
                trail: [front, record.clone()].concat(),
                start,
                size: record.len(),
                two,
            });
        }
    }
    all
}

/// At most two small records, and file tokens.
fn front(rng: &mut Rng) -> Vec<u8> {
    let records = rng.below(3);
    many_records(rng, records)
}

/// All that reads a trail stops at the second subject of the record.
fn stops(tally: &mut Tally, bad: &InTrail, trail: &[u8]) {
    let answer = same_item(tally, trail, bad.start);
    assert_eq!(answer, Answer::Refused(bad.refusal), "{}", show(trail));
    let run = same_run(tally, trail, State::default());
    assert_eq!(run.refusal, Some(bad.refusal));
    assert_eq!(run.state.place, bad.start);
    same_step(trail, run.state);
    same_items(trail, State::default());
}

#[test]
fn every_pair_in_every_header() {
    let mut rng = Rng::new(1_101);
    let mut tally = Tally::new();
    for bad in in_trails(&mut rng, front) {
        stops(&mut tally, &bad, &bad.trail);
        let Two { body, second, .. } = &bad.two;
        same_body(&mut tally, body);
        assert_eq!(reference::walk_body(body), Err(refused(14, *second)));
        // The second is not refused by itself.
        same_token(&mut tally, body, *second);
        let answer = reference::token_at(body, *second);
        assert!(matches!(answer, TokenAnswer::Token { .. }));
        // Neither is the body with one of the two alone.
        for part in [&body[..*second], &body[*second..]] {
            same_body(&mut tally, part);
            assert!(reference::walk_body(part).is_ok());
        }
    }
    tally.finish_subjects("every pair");
    assert_eq!(tally.refused_times(14), 6 * 16 * 8 * 3);
    assert_eq!(tally.answers().0, 6 * 16 * 8 * 3);
}

/// Any two tokens: 14 for two subjects alone.
#[test]
fn every_pair_of_tokens() {
    let mut rng = Rng::new(1_102);
    let mut tally = Tally::new();
    for first in TOKEN_NUMBERS {
        for second in TOKEN_NUMBERS {
            for _ in 0..10 {
                let front = token_of(&mut rng, first);
                let body = [&front[..], &token_of(&mut rng, second)].concat();
                same_body(&mut tally, &body);
                let expected = if SUBJECT_PAIRS.contains(&(first, second)) {
                    Err(refused(14, front.len()))
                } else {
                    Ok(2)
                };
                assert_eq!(reference::walk_body(&body), expected);
            }
        }
    }
    assert!(TOKEN_NUMBERS
        .iter()
        .all(|&number| tally.times(number) >= 100));
    assert_eq!(tally.refused_times(14), 16 * 10);
    assert_eq!(tally.answers().0, (25 * 25 - 16) * 10);
}

/// All rows of four tokens, good and bad: the leftmost fault is told, a second
/// subject's own one before 14.
#[test]
fn rows_of_tokens() {
    let mut rng = Rng::new(1_103);
    let mut tally = Tally::new();
    // With the number and the place in it of what refuses each by itself, or 14
    // for a subject.
    let mut pool: Vec<(Vec<u8>, (u8, usize))> = Vec::new();
    for number in SUBJECT_NUMBERS {
        pool.push((token_of(&mut rng, number), (14, 0)));
    }
    for number in PROCESS_NUMBERS {
        pool.push((token_of(&mut rng, number), (0, 0)));
    }
    let bad_type = |number: u8, fixed: usize| [&[number][..], &vec![9; fixed - 1]].concat();
    pool.extend([
        (b"\x2C\0\x07".to_vec(), (0, 0)),
        (vec![0xFF], (6, 0)),
        (b"\x28\xFF\xFF".to_vec(), (7, 0)),
        (b"\x28\0\0".to_vec(), (8, 1)),
        (bad_type(0x7A, 37), (13, 0)),
        (bad_type(0x7C, 41), (13, 0)),
        (bad_type(0x7D, 41), (13, 0)),
    ]);
    for row in 0..pool.len().pow(4) {
        let (mut body, mut subjects, mut fault) = (Vec::new(), 0, None);
        for at in 0..4 {
            let (token, (number, offset)) = &pool[row / pool.len().pow(at) % pool.len()];
            subjects += usize::from(*number == 14);
            let good = *number == 0 || *number == 14 && subjects == 1;
            if !good && fault.is_none() {
                fault = Some(refused(*number, body.len() + offset));
            }
            body.extend_from_slice(token);
        }
        same_body(&mut tally, &body);
        assert_eq!(reference::walk_body(&body).err(), fault, "{row}");
    }
    tally.finish_subjects("rows");
    for number in [6, 7, 8, 13, 14] {
        assert!(tally.refused_times(number) >= 100, "{number}");
    }
    assert!(tally.second_times(13) >= 100 && tally.answers().0 >= 100);
}

/// The body ends at each byte of the second subject: 7 until it is whole.
#[test]
fn second_subjects_cut_at_each_byte() {
    let mut rng = Rng::new(1_104);
    let mut tally = Tally::new();
    let all: Vec<Two> = (0..3).flat_map(|_| bodies(&mut rng)).collect();
    for Two { pair, body, second } in all {
        let TokenAnswer::Token { size, .. } = reference::token_at(&body, second) else {
            panic!("no token in {}", show(&body));
        };
        for cut in 1..=size {
            let body = &body[..second + cut];
            let number = if cut < size { 7 } else { 14 };
            for header in headers() {
                let record = raw_record(&header.header(), body);
                let expected = refused(number, header.size() + second);
                let answer = same_item(&mut tally, &record, 0);
                assert_eq!(answer, Answer::Refused(expected), "{pair:02X?}, {cut}");
            }
        }
    }
    tally.finish_subjects("cut second");
    for pair in SUBJECT_PAIRS {
        assert!(tally.pair_times(7, pair) >= 100, "{pair:02X?}");
    }
}

/// With each type of the second subject that is refused: 13, whatever follows.
#[test]
fn second_subjects_of_a_wrong_type() {
    let mut rng = Rng::new(1_105);
    let mut tally = Tally::new();
    for pair in SUBJECT_PAIRS {
        let fixed = match pair.1 {
            0x7A => 37,
            0x7C => 41,
            _ => continue,
        };
        for kind in 0..=40 {
            let mut body = token_of(&mut rng, pair.0);
            let second = body.len();
            let mut bad = token_of(&mut rng, pair.1);
            bad[fixed - 4..fixed].copy_from_slice(&u32::to_be_bytes(kind));
            body.extend(bad);
            body.extend(subject(&mut rng));
            for header in headers() {
                let record = raw_record(&header.header(), &body);
                let answer = same_item(&mut tally, &record, 0);
                let expected = Answer::Refused(refused(13, header.size() + second));
                assert_eq!(answer == expected, !matches!(kind, 4 | 16), "{kind}");
            }
        }
        assert_eq!(tally.pair_times(13, pair), 6 * 39);
    }
}

/// Short while the record is cut, at most twice; then 14, whatever follows.
#[test]
fn cut_at_each_byte_and_followed_by_more() {
    let mut rng = Rng::new(1_106);
    let mut tally = Tally::new();
    for bad in in_trails(&mut rng, front) {
        let InTrail {
            ref trail,
            start,
            size,
            ..
        } = bad;
        let mut growing = Growing::new(trail, State::default());
        for cut in 0..=trail.len() {
            growing.grown(&mut tally, &trail[..cut]);
        }
        growing.finish();
        for cut in 1..size {
            let need = if cut < 5 { 5 } else { size };
            let short = Refusal {
                number: 1,
                place: start,
                need,
            };
            let answer = same_item(&mut tally, &trail[..start + cut], start);
            assert_eq!(answer, Answer::Refused(short));
        }
        let any = rng.below(40);
        for more in [
            rng.bytes(any),
            vec![0x14],
            good_file(&mut rng),
            good_record(&mut rng),
            trail[start..].to_vec(),
            vec![0; 70_000],
        ] {
            stops(&mut tally, &bad, &[&trail[..], &more].concat());
        }
    }
    tally.finish_subjects("cut");
    assert!(tally.refused_times(1) >= 100);
}

/// The record writer into destinations of each size near the needed one: 14
/// with the place in the body, and no byte written there or around.
#[test]
fn written_into_each_size() {
    let mut rng = Rng::new(1_107);
    let mut tally = Tally::new();
    for header in headers() {
        for Two { body, second, .. } in bodies(&mut rng) {
            let header = header.clone();
            let args = WriteArgs::Record { header, body };
            let size = args.size();
            for room in (size - 4..=size + 4).chain([0, 1, size - second, size + 300]) {
                let answer = same_write(&mut tally, &mut rng, &args, room);
                assert_eq!(answer, Err(refused(14, second)), "{args:?} into {room}");
            }
        }
    }
    tally.finish_subjects("written");
    assert_eq!(tally.refused_times(14), 6 * 16 * 8 * 13);
}

/// Without the second subject the record is written where there is room.
#[test]
fn one_subject_is_written() {
    let mut rng = Rng::new(1_108);
    let mut tally = Tally::new();
    for header in headers() {
        for Two { body, second, .. } in bodies(&mut rng) {
            let args = WriteArgs::Record {
                header: header.clone(),
                body: body[..second].to_vec(),
            };
            let size = args.size();
            for room in size - 4..=size + 4 {
                let expected = if room < size {
                    Err(refused(10, 0))
                } else {
                    Ok(size)
                };
                assert_eq!(same_write(&mut tally, &mut rng, &args, room), expected);
            }
        }
    }
    let all = 6 * 16 * 8;
    assert_eq!(tally.answers().0, all * 5);
    assert_eq!(tally.refused_times(10), all * 4);
}

/// Many processes, of all kinds, beside one subject.
#[test]
fn processes_do_not_count() {
    let mut rng = Rng::new(1_109);
    let mut tally = Tally::new();
    for header in headers() {
        for number in SUBJECT_NUMBERS {
            for count in [0, 1, 2, 7, 100, 900] {
                let mut tokens: Vec<Vec<u8>> = (0..count)
                    .map(|at| token_of(&mut rng, PROCESS_NUMBERS[at % 4]))
                    .collect();
                let at = rng.between(0, count);
                tokens.insert(at, token_of(&mut rng, number));
                let header = header.clone();
                let body = tokens.concat();
                let record = raw_record(&header.header(), &body);
                let answer = same_item(&mut tally, &record, 0);
                assert!(matches!(answer, Answer::Item(_)), "{answer:?}");
                assert_eq!(reference::walk_body(&body), Ok(count + 1));
                same_body(&mut tally, &body);
                // One subject more, behind all of them.
                let more = [&body[..], &subject(&mut rng)].concat();
                same_body(&mut tally, &more);
                let second = Err(refused(14, body.len()));
                assert_eq!(reference::walk_body(&more), second);
                let args = WriteArgs::Record { header, body };
                let size = args.size();
                let written = same_write(&mut tally, &mut rng, &args, size);
                assert_eq!(written, Ok(size));
            }
        }
    }
    let all = 6 * 4 * 6;
    assert_eq!(tally.answers().0, all * 3);
    assert_eq!(tally.refused_times(14), all);
}

/// The listing ends with the line of the refusal.
#[test]
fn listings() {
    let mut rng = Rng::new(1_110);
    let mut tally = Tally::new();
    let mut listed = 0;
    for bad in in_trails(&mut rng, front) {
        let trail = [&bad.trail[..], &good_record(&mut rng)].concat();
        same_lines(&mut tally, &mut rng, &trail, State::default());
        let room = |rng: &mut Rng| rng.between(LINE_MAX, 300);
        assert!(same_parts(
            &mut tally,
            &mut rng,
            &trail,
            Cursor::First,
            room
        ));
        let mut line = [0; LINE_MAX];
        let size = bsm::last_line(&mut line, &trail, bsm::State::default()).expect("room");
        let expected = format!("X\t14\t{}\t0\n", bad.refusal.place);
        assert_eq!(line[..size], *expected.as_bytes());
        let refusal = refusal(bad.refusal);
        let line = bsm::item_line(&mut line, &trail, bad.start);
        assert_eq!(line, Err(refusal));
        listed += 1;
    }
    assert_eq!(listed, 6 * 16 * 8);
    assert!(tally.refused_times(10) >= 100 && tally.answers().0 >= 100);
}

/// A step back meets a boundary at the record, and the records behind it.
#[test]
fn steps_back() {
    let mut rng = Rng::new(1_111);
    let mut tally = Tally::new();
    for bad in in_trails(&mut rng, small_record) {
        let end = bad.trail.len();
        let behind: Vec<Vec<u8>> = (0..2).map(|_| small_record(&mut rng)).collect();
        let trail = [&bad.trail[..], &behind.concat()].concat();
        same_newest(&trail);
        let mut newest = bsm::Newest::new(&trail);
        let found: Vec<usize> = newest.by_ref().map(|(place, _)| place).collect();
        assert_eq!(found, [end + behind[0].len(), end]);
        assert_eq!((newest.place(), newest.boundary()), (end, Some(0)));
        let before = same_before(&mut tally, &trail, end);
        assert_eq!(before, Before::Boundary { need: 0 });
        let before = same_before(&mut tally, &trail, bad.start);
        assert!(matches!(before, Before::Record { place: 0, .. }));
        for place in [end, bad.start] {
            same_around(&mut tally, &mut rng, &trail, place);
        }
    }
    for ending in [Ending::NoItem, Ending::Record] {
        assert!(tally.ending_times(ending) >= 6 * 16 * 8, "{ending:?}");
    }
}

/// Each place of some of these trails.
#[test]
fn steps_back_from_each_place() {
    let mut rng = Rng::new(1_112);
    let mut tally = Tally::new();
    for bad in in_trails(&mut rng, small_record).iter().step_by(7) {
        let trail = [&bad.trail[..], &small_record(&mut rng)].concat();
        for place in 0..=trail.len() + 1 {
            same_before(&mut tally, &trail, place);
        }
    }
    assert!(tally.ending_times(Ending::NoItem) >= 100);
    assert!(tally.refused_times(2) >= 100);
}

/// Fills stop at the record, and records behind it have no numbers.
#[test]
fn indexes() {
    let mut rng = Rng::new(1_113);
    let mut tally = Tally::new();
    let records = |rng: &mut Rng| rng.pick(&[0, 1, 63, 64, 65, 130]);
    let front = |rng: &mut Rng| {
        let count = records(rng);
        many_records(rng, count)
    };
    for bad in in_trails(&mut rng, front).iter().step_by(3) {
        let more = records(&mut rng);
        let trail = [&bad.trail[..], &many_records(&mut rng, more)].concat();
        let mut growing = GrowingIndex::new();
        for cut in [bad.start, bad.trail.len() - 1, trail.len()] {
            growing.grown(&mut tally, &trail[..cut]);
        }
        let run = reference::run(&trail, State::default());
        let count = run.state.records;
        assert_eq!(run.refusal, Some(bad.refusal));
        let table = vec![UNFILLED; count.div_ceil(RECORDS_PER_ENTRY)];
        let (filled, table) = same_fill(&mut tally, &trail, State::default(), &table);
        assert_eq!((filled.run, filled.count), (run, table.len()));
        for n in [count, count + 1, count + more, usize::MAX] {
            growing.find(&mut tally, &trail, n);
            let found = same_find(&mut tally, &trail, &table, table.len(), n);
            assert_eq!(found, Found::Refused(bad.refusal), "{n}");
        }
        if let Some(last) = count.checked_sub(1) {
            let found = same_find(&mut tally, &trail, &table, table.len(), last);
            assert!(matches!(found, Found::Record { .. }));
        }
        // Entries at the record, and behind it.
        let at = same_find(&mut tally, &trail, &[bad.start as u64], 1, 0);
        assert_eq!(at, Found::Refused(bad.refusal));
        let behind = same_find(&mut tally, &trail, &[bad.trail.len() as u64], 1, 0);
        assert_eq!(matches!(behind, Found::Record { .. }), more > 0);
    }
    for indexed in [Indexed::Filled, Indexed::NoRoom] {
        assert!(tally.indexed_times(indexed) >= 100, "{indexed:?}");
    }
    for indexed in [Indexed::Record, Indexed::Refused] {
        assert!(tally.indexed_times(indexed) >= 100, "{indexed:?}");
    }
    assert!(tally.refused_times(14) >= 1_000);
}
