//! Bodies with at most one subject, and with two (paper 02, P7).

use generator::*;
use reference::*;
use std::collections::BTreeMap;
use std::fmt::Debug;

/// How often each came.
type Times<K> = BTreeMap<K, usize>;

fn count<K: Ord>(times: &mut Times<K>, kind: K) {
    *times.entry(kind).or_insert(0) += 1;
}

/// Asserts that each of `kinds` came at least a hundred times, and nothing
/// else did.
fn often<K: Ord + Copy + Debug>(times: &Times<K>, kinds: &[K]) {
    for kind in kinds {
        let found = times.get(kind).copied().unwrap_or(0);
        println!("{kind:02X?}: {found}");
        assert!(found >= 100, "{kind:02X?}: {found}");
    }
    assert_eq!(times.len(), kinds.len());
}

/// The numbers of a body's tokens up to the first that is refused by itself.
fn numbers(body: &[u8]) -> Vec<u8> {
    let (mut place, mut numbers) = (0, Vec::new());
    while let TokenAnswer::Token { token, size, .. } = token_at(body, place) {
        numbers.push(token.number());
        place += size;
    }
    numbers
}

/// The subjects among them.
fn subjects(body: &[u8]) -> Vec<u8> {
    let mut numbers = numbers(body);
    numbers.retain(|number| SUBJECT_NUMBERS.contains(number));
    numbers
}

/// Each kind is the one subject of as many bodies.
#[test]
fn good_bodies_have_at_most_one_subject() {
    let mut rng = Rng::new(61);
    let mut times = Times::new();
    let mut processes = 0;
    for _ in 0..20_000 {
        let body = good_body(&mut rng);
        let numbers = numbers(&body);
        assert_eq!(walk_body(&body), Ok(numbers.len()));
        match subjects(&body)[..] {
            [] => count(&mut times, 0),
            [one] => {
                count(&mut times, one);
                let process = |number| PROCESS_NUMBERS.contains(number);
                processes += usize::from(numbers.iter().filter(|n| process(n)).count() > 1);
            }
            _ => panic!("{numbers:02X?}"),
        }
    }
    println!("{times:02X?}, {processes} with several processes");
    assert!(processes >= 100);
    assert_eq!(times.len(), 5);
    let all: usize = SUBJECT_NUMBERS.iter().map(|number| times[number]).sum();
    for number in SUBJECT_NUMBERS {
        let share = times[&number] as f64 / all as f64;
        assert!((0.22..0.28).contains(&share), "{number:02X}: {share}");
    }
}

/// What a body with two subjects is refused with, where this is wrong too.
fn told(second: u8, wrong: Second) -> &'static [u8] {
    match wrong {
        Second::Nothing | Second::Behind => &[14],
        Second::Before => &[6, 7, 8, 13],
        Second::Cut => &[7],
        Second::Type if EXPANDED_NUMBERS.contains(&second) => &[13],
        Second::Type => &[14],
    }
}

/// What stands before, between and behind the subjects.
#[derive(Clone, Copy, Debug, PartialEq, Eq, PartialOrd, Ord)]
enum Around {
    Before,
    Between,
    Behind,
    ProcessBefore,
    ProcessBetween,
    ProcessBehind,
    Third,
}

const AROUND: [Around; 7] = [
    Around::Before,
    Around::Between,
    Around::Behind,
    Around::ProcessBefore,
    Around::ProcessBetween,
    Around::ProcessBehind,
    Around::Third,
];

/// Counts it for a body that has two subjects.
fn count_around(times: &mut Times<Around>, body: &[u8]) {
    let numbers = numbers(body);
    let is_subject = |number: &u8| SUBJECT_NUMBERS.contains(number);
    let mut parts = numbers.split(is_subject);
    for (any, process) in [
        (Around::Before, Around::ProcessBefore),
        (Around::Between, Around::ProcessBetween),
        (Around::Behind, Around::ProcessBehind),
    ] {
        let part = parts.next().expect("two subjects");
        if !part.is_empty() {
            count(times, any);
        }
        if part.iter().any(|number| PROCESS_NUMBERS.contains(number)) {
            count(times, process);
        }
    }
    if parts.next().is_some() {
        count(times, Around::Third);
    }
}

/// Each pair of kinds, with each thing that can be wrong beside it.
#[test]
fn each_pair_is_met_where_it_is_aimed_at() {
    let mut rng = Rng::new(62);
    let mut times = Times::new();
    let mut around = Times::new();
    let mut before = Times::new();
    for pair in SUBJECT_PAIRS {
        for wrong in SECONDS {
            for _ in 0..200 {
                let body = two_subjects(&mut rng, pair, wrong);
                let refusal = walk_body(&body).expect_err("two subjects");
                let number = refusal.number;
                let expected = told(pair.1, wrong);
                assert!(
                    expected.contains(&number),
                    "{pair:02X?}, {wrong:?}: {number}"
                );
                if wrong == Second::Before {
                    count(&mut before, number);
                    continue;
                }
                assert_eq!(body_subjects(&body, &refusal), Some(pair));
                count(&mut times, (pair, number));
                if number == 14 {
                    count_around(&mut around, &body);
                }
            }
        }
    }
    let mut kinds = Vec::new();
    for pair in SUBJECT_PAIRS {
        kinds.extend([(pair, 7), (pair, 14)]);
        if EXPANDED_NUMBERS.contains(&pair.1) {
            kinds.push((pair, 13));
        }
    }
    often(&times, &kinds);
    often(&around, &AROUND);
    often(&before, &[6, 7, 8, 13]);
}

/// The pairs of 14, and how often 7, 13 and 14 came for a second subject.
#[derive(Default)]
struct Seen {
    pairs: Times<(u8, u8)>,
    numbers: Times<u8>,
}

impl Seen {
    fn count(&mut self, pair: Option<(u8, u8)>, refusal: Refusal) {
        assert!(pair.is_some() || refusal.number != 14);
        let Some(pair) = pair else {
            return;
        };
        count(&mut self.numbers, refusal.number);
        if refusal.number == 14 {
            count(&mut self.pairs, pair);
        }
    }

    fn often(&self) {
        often(&self.pairs, &SUBJECT_PAIRS);
        often(&self.numbers, &[7, 13, 14]);
    }
}

#[test]
fn mixed_trails_meet_all_pairs() {
    let mut rng = Rng::new(63);
    let mut seen = Seen::default();
    let mut headers = Times::new();
    for _ in 0..40_000 {
        let (trail, state) = any_input(&mut rng);
        let run = run(&trail, state);
        if let Some(refusal) = run.refusal {
            let start = run.state.place;
            seen.count(item_subjects(&trail, start, &refusal), refusal);
            if refusal.number == 14 {
                count(&mut headers, (trail[start], start > 0));
            }
        }
    }
    seen.often();
    // In records with each header, first in a trail and behind other items.
    let each = HEADER_NUMBERS.map(|number| [(number, false), (number, true)]);
    often(&headers, each.as_flattened());
}

#[test]
fn mixed_bodies_meet_all_pairs() {
    let mut rng = Rng::new(64);
    let mut seen = Seen::default();
    for _ in 0..40_000 {
        let body = any_body(&mut rng);
        if let Err(refusal) = walk_body(&body) {
            seen.count(body_subjects(&body, &refusal), refusal);
        }
    }
    seen.often();
}

/// Damage alone puts second subjects into trails and bodies.
#[test]
fn damage_meets_all_pairs() {
    let mut rng = Rng::new(65);
    let mut seen = Seen::default();
    let mut trails = 0;
    for _ in 0..90_000 {
        let mut body = good_body(&mut rng);
        damage_body(&mut rng, &mut body);
        if let Err(refusal) = walk_body(&body) {
            seen.count(body_subjects(&body, &refusal), refusal);
        }
        let mut trail = good_trail(&mut rng, 2);
        damage(&mut rng, &mut trail);
        let refusal = run(&trail, State::default()).refusal;
        trails += usize::from(refusal.is_some_and(|refusal| refusal.number == 14));
    }
    seen.often();
    println!("{trails} trails");
    assert!(trails >= 100, "{trails}");
}

/// Records to be written, with each header.
#[test]
fn calls_meet_all_pairs() {
    let mut rng = Rng::new(66);
    let mut seen = Seen::default();
    let mut headers = Times::new();
    let calls = (0..2_000).flat_map(|_| write_calls(&mut rng));
    for WriteCall { args, room } in calls {
        let mut dst = vec![0xA5; room];
        let Err(refusal) = args.write(&mut dst) else {
            continue;
        };
        assert!(dst.iter().all(|&byte| byte == 0xA5));
        seen.count(call_subjects(&args, &refusal), refusal);
        if let (WriteArgs::Record { header, .. }, 14) = (&args, refusal.number) {
            // Told whether or not there is room.
            count(&mut headers, (header.fields.number, room < args.size()));
        }
    }
    seen.often();
    let each = HEADER_NUMBERS.map(|number| [(number, false), (number, true)]);
    often(&headers, each.as_flattened());
}

/// A pair is told from the bytes before the place.
#[test]
fn pairs_by_hand() {
    let subject = |number, port| [&[number][..], &[0; 28], &vec![0; port], &[9; 4]].concat();
    let (small, wide) = (subject(0x24, 4), subject(0x75, 8));
    let body = [&b"\x2C\0\x16"[..], &wide, &small].concat();
    let refused = |number, place| Refusal {
        number,
        place,
        need: 0,
    };
    let second = 3 + wide.len();
    assert_eq!(walk_body(&body), Err(refused(14, second)));
    for number in [7, 13, 14] {
        let told = body_subjects(&body, &refused(number, second));
        assert_eq!(told, Some((0x75, 0x24)));
    }
    assert_eq!(body_subjects(&body, &refused(6, second)), None);
    assert_eq!(body_subjects(&body, &refused(7, 3)), None);
    assert_eq!(body_subjects(&body, &refused(7, 0)), None);
    assert_eq!(body_subjects(&body, &refused(14, body.len())), None);

    let mut rng = Rng::new(67);
    for _ in 0..100 {
        let header = good_header(&mut rng);
        let front = good_file(&mut rng);
        let trail = [&front[..], &raw_record(&header.header(), &body)].concat();
        let place = front.len() + header.size() + second;
        let told = item_subjects(&trail, front.len(), &refused(14, place));
        assert_eq!(told, Some((0x75, 0x24)));
        assert_eq!(item_subjects(&trail, front.len(), &refused(5, place)), None);
        let args = WriteArgs::Record {
            header,
            body: body.clone(),
        };
        let refusal = args.write(&mut []).expect_err("two subjects");
        assert_eq!(refusal, refused(14, second));
        assert_eq!(call_subjects(&args, &refusal), Some((0x75, 0x24)));
    }
}
