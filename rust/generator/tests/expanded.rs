//! Addresses of expanded headers and tokens, and what is wrong with them
//! (paper 02, P5).

use generator::*;
use reference::*;
use std::collections::BTreeMap;
use std::fmt::Debug;

/// How often each came.
type Times<K> = BTreeMap<K, usize>;

/// Asserts that each of `kinds` came at least a hundred times, and nothing
/// else did.
fn often<K: Ord + Copy + Debug>(times: &Times<K>, kinds: &[K]) {
    for kind in kinds {
        let found = times.get(kind).copied().unwrap_or(0);
        println!("{kind:02X?}: {found}");
        assert!(found >= 100, "{kind:02X?}: {found}");
    }
    assert_eq!(times.len(), kinds.len());
}

/// What is wrong where a refusal of a trail is for an address.
fn in_trail(trail: &[u8], state: State) -> Option<(u8, AddressFault)> {
    let run = run(trail, state);
    address_fault(trail, run.state.place, &run.refusal?)
}

#[test]
fn each_is_met_where_it_is_aimed_at() {
    let mut rng = Rng::new(51);
    for aim in ADDRESS_FAULTS {
        let mut met = 0;
        for _ in 0..400 {
            let record = with_address_fault(&mut rng, aim);
            let found = in_trail(&record, State::default());
            met += usize::from(found == Some(aim));
        }
        println!("{aim:02X?}: {met} of 400");
        assert!(met >= 350, "{aim:02X?}: {met} of 400");
    }
}

#[test]
fn mixed_trails_meet_all_of_them() {
    let mut rng = Rng::new(52);
    let mut times = Times::new();
    for _ in 0..20_000 {
        let (trail, state) = any_input(&mut rng);
        if let Some(kind) = in_trail(&trail, state) {
            *times.entry(kind).or_insert(0) += 1;
        }
    }
    often(&times, &ADDRESS_FAULTS);
}

#[test]
fn mixed_bodies_meet_all_of_them() {
    let mut rng = Rng::new(53);
    let mut times = Times::new();
    for _ in 0..20_000 {
        let body = any_body(&mut rng);
        let refusal = walk_body(&body).err();
        if let Some(kind) = refusal.and_then(|refusal| body_address_fault(&body, &refusal)) {
            *times.entry(kind).or_insert(0) += 1;
        }
    }
    often(&times, BODY_ADDRESS_FAULTS);
}

/// A fault is told from the bytes: 13 from the type, 4 from the count, 7 from
/// what the body has.
#[test]
fn faults_by_hand() {
    let refused = |trail: &[u8]| in_trail(trail, State::default());
    let header = |number, address| Header {
        number,
        version: 11,
        event: 72,
        modifier: 0,
        address,
        seconds: 1,
        nanoseconds: 2,
    };
    let around = header(0x14, &[]);
    for (number, least) in [(0x15, 33), (0x79, 41)] {
        let mut record = raw_record(&header(number, &[1, 2, 3]), b"\x2C\0\0");
        assert_eq!(refused(&record), Some((number, AddressFault::Type)));
        record = raw_record(&header(number, &[1, 2, 3, 4]), b"");
        assert_eq!((record.len(), refused(&record)), (least, None));
        record[13] = 16;
        assert_eq!(refused(&record), Some((number, AddressFault::Count)));
        record[4] -= 1;
        assert_eq!(refused(&record), None);
    }
    for (body, fault) in [
        (&b"\x2C\0\0\x7E\0\0\0"[..], AddressFault::NoType),
        (b"\x2C\0\0\x7E\0\0\0\x04", AddressFault::NoAddress),
        (b"\x2C\0\0\x7E\0\0\0\x05", AddressFault::Type),
    ] {
        assert_eq!(refused(&raw_record(&around, body)), Some((0x7E, fault)));
        let wide = raw_record(&header(0x79, &[9; 16]), body);
        assert_eq!(refused(&wide), Some((0x7E, fault)));
    }
    assert_eq!(refused(&raw_record(&around, b"\x2C\0")), None);
}

/// Writers are called with addresses of every length up to 20, and longer
/// ones; only 4 and 16 are taken, and all else is told before what else is
/// wrong.
#[test]
fn addresses_of_every_length_are_given() {
    let mut rng = Rng::new(54);
    let mut lengths = Times::new();
    let mut faults = Times::new();
    let calls = (0..12_000).flat_map(|_| write_calls(&mut rng));
    for WriteCall { args, room } in calls {
        let Some((number, address)) = given_address(&args) else {
            continue;
        };
        let answer = args.write(&mut vec![0; room]);
        if matches!(address.len(), 4 | 16) {
            let told = answer
                .err()
                .and_then(|refusal| call_address_fault(&args, &refusal));
            assert!(told.is_none_or(|told| BODY_ADDRESS_FAULTS.contains(&told)));
        } else {
            let refusal = Refusal {
                number: 13,
                place: 0,
                need: 0,
            };
            assert_eq!(answer, Err(refusal), "{number:02X}");
            let told = call_address_fault(&args, &refusal);
            assert_eq!(told, Some((number, AddressFault::Given)));
            *faults.entry((number, AddressFault::Given)).or_insert(0) += 1;
        }
        let length = address.len().min(21);
        *lengths.entry((number, length)).or_insert(0) += 1;
    }
    let each = EXPANDED_NUMBERS.into_iter().chain([0x15, 0x79]);
    let all: Vec<(u8, usize)> = each
        .flat_map(|number| (0..=21).map(move |length| (number, length)))
        .collect();
    often(&lengths, &all);
    often(&faults, &CALL_ADDRESS_FAULTS);
}

/// Types that are refused come near 4 and 16, and with them in other bytes.
#[test]
fn refused_types_of_all_sorts() {
    let mut rng = Rng::new(55);
    let mut times = Times::new();
    for _ in 0..20_000 {
        let record = with_address_fault(&mut rng, (0x15, AddressFault::Type));
        let Some((0x15, AddressFault::Type)) = in_trail(&record, State::default()) else {
            continue;
        };
        let kind: [u8; 4] = record[10..14].try_into().unwrap();
        let sort = match u32::from_be_bytes(kind) {
            4 | 16 => panic!("{kind:?}"),
            kind @ 0..=20 => kind,
            _ if kind[1..] == [0; 3] => 21,
            _ if matches!(kind[3], 4 | 16) => 22,
            _ => 23,
        };
        *times.entry(sort).or_insert(0) += 1;
    }
    let sorts: Vec<u32> = (0..24).filter(|sort| ![4, 16].contains(sort)).collect();
    often(&times, &sorts);
}
