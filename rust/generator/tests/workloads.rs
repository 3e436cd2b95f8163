//! The trails for timing, and the source of chance.

use generator::*;
use reference::*;
use std::collections::BTreeMap;

/// Reads a whole trail that is accepted and holds records only.
fn records(trail: &[u8]) -> Vec<Item<'_>> {
    let (items, run) = reading(trail, State::default());
    assert_eq!(run.refusal, None);
    assert_eq!(run.state.files, 0);
    assert_eq!(run.state.place, trail.len());
    items.into_iter().map(|(_, item)| item).collect()
}

#[test]
fn sizes_are_as_named() {
    let small = small_records(100_000);
    assert!((100_000..100_059).contains(&small.len()));
    let items = records(&small);
    assert!(items.iter().all(|item| (25..=59).contains(&item.size())));
    assert!(items.iter().any(|item| item.size() == 25));
    assert!(items.iter().any(|item| item.size() > 50));

    let usual = usual_records(100_000);
    assert!((100_000..100_300).contains(&usual.len()));
    for item in records(&usual) {
        assert!((150..=300).contains(&item.size()));
        assert!(matches!(item, Item::Record { tokens: 4, .. }));
    }

    for trail in [large_exec(200_000), large_opaque(200_000)] {
        assert!((200_000..265_536).contains(&trail.len()));
        for item in records(&trail) {
            assert!((60_000..60_200).contains(&item.size()));
            assert!(matches!(item, Item::Record { tokens: 1, .. }));
        }
    }
    assert_eq!(small_records(0), b"");
}

/// Both headers and both subjects, each with either address.
#[test]
fn expanded_records_of_all_kinds() {
    let expanded = expanded_records(100_000);
    assert!((100_000..100_347).contains(&expanded.len()));
    let mut kinds = BTreeMap::new();
    for item in records(&expanded) {
        assert!((161..=347).contains(&item.size()));
        let Item::Record {
            header,
            body,
            tokens: 4,
            ..
        } = item
        else {
            panic!("{item:?}");
        };
        let TokenAnswer::Token { length, .. } = token_at(body, 0) else {
            panic!("no subject");
        };
        let kind = (header.number, header.address.len(), body[0], length);
        *kinds.entry(kind).or_insert(0) += 1;
    }
    assert_eq!(kinds.len(), 16);
    assert!(kinds.values().all(|&times| times > 5), "{kinds:?}");
}

#[test]
fn same_seed_same_bytes() {
    assert_eq!(small_records(10_000), small_records(10_000));
    assert_eq!(usual_records(10_000), usual_records(10_000));
    assert_eq!(expanded_records(10_000), expanded_records(10_000));
    let trail = |seed| any_input(&mut Rng::new(seed));
    for seed in 0..200 {
        assert_eq!(trail(seed), trail(seed));
    }
    assert_ne!(Rng::new(1).bytes(64), Rng::new(2).bytes(64));
}

#[test]
fn chance_stays_in_range() {
    let mut rng = Rng::new(5);
    let mut seen = [0; 10];
    for _ in 0..10_000 {
        seen[rng.below(10)] += 1;
        assert!((3..=5).contains(&rng.between(3, 5)));
    }
    assert!(seen.iter().all(|&count| count > 800));
    assert_eq!(rng.below(0), 0);
    assert_eq!(rng.between(7, 2), 7);
    for width in 1..=64 {
        let most = u64::MAX >> (64 - width);
        let numbers: Vec<u64> = (0..500).map(|_| rng.number(width)).collect();
        assert!(numbers.iter().all(|&number| number <= most));
        assert!(numbers.contains(&0) && numbers.contains(&most));
    }
    for length in 0..20 {
        assert_eq!(rng.bytes(length).len(), length);
    }
}
