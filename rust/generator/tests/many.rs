//! Trails of many small records, and what their records are looked up with
//! (paper 02, P6).

use generator::*;
use reference::*;
use std::collections::BTreeMap;

#[test]
fn as_many_records_as_said() {
    let mut rng = Rng::new(51);
    let (mut files, mut at_multiples) = (0, 0);
    for _ in 0..100 {
        let count = many(&mut rng, 400);
        let trail = many_records(&mut rng, count);
        let (items, run) = reading(&trail, State::default());
        assert_eq!((run.refusal, run.state.records), (None, count));
        assert!(items.iter().all(|(_, item)| item.size() <= 62));
        files += run.state.files;
        let mut records = 0;
        for (_, item) in &items {
            match item {
                Item::Record { .. } => records += 1,
                Item::File { .. } => at_multiples += usize::from(records % 64 == 0),
            }
        }
    }
    assert!(
        files > 1_000 && at_multiples > 200,
        "{files} {at_multiples}"
    );
}

#[test]
fn counts_near_multiples() {
    let mut rng = Rng::new(52);
    let mut near = [0; 5];
    for _ in 0..2_000 {
        let count = many(&mut rng, 400);
        assert!(count <= 400);
        if let Some(times) = near.get_mut((count + 2) % 64) {
            *times += 1;
        }
    }
    assert!(near.iter().all(|&times| times > 100), "{near:?}");
}

/// Each refusal comes past some of the records.
#[test]
fn each_refusal_behind_records() {
    let mut rng = Rng::new(53);
    let mut answers: BTreeMap<u8, usize> = BTreeMap::new();
    for _ in 0..2_000 {
        let trail = indexed_trail(&mut rng, 200);
        let run = run(&trail, State::default());
        let number = run.refusal.map_or(0, |refusal| refusal.number);
        if run.state.records >= 60 {
            *answers.entry(number).or_insert(0) += 1;
        }
    }
    println!("{answers:?}");
    let numbers: Vec<u8> = answers.keys().copied().collect();
    assert_eq!(numbers, [0, 1, 3, 4, 5, 6, 7, 8, 9, 13, 14]);
    assert!(answers.values().all(|&times| times >= 20));
}

/// What an entry of a table is.
fn entry_is(trail: &[u8], items: &[(usize, Item<'_>)], k: usize, entry: u64) -> &'static str {
    let mut records = items
        .iter()
        .filter(|(_, item)| matches!(item, Item::Record { .. }));
    if records
        .nth(64 * k)
        .is_some_and(|item| item.0 as u64 == entry)
    {
        return "its own";
    }
    let place = usize::try_from(entry).unwrap_or(usize::MAX);
    let item = items.iter().find(|item| item.0 == place);
    match item {
        Some((_, Item::Record { .. })) => "another record's",
        Some((_, Item::File { .. })) => "a file token's",
        None if place == trail.len() => "the end",
        None if place < trail.len() => "inside",
        None => "beyond",
    }
}

#[test]
fn tables_with_entries_of_each_kind() {
    let mut rng = Rng::new(54);
    let mut kinds: BTreeMap<&str, usize> = BTreeMap::new();
    let mut lengths = [0; 3];
    for _ in 0..500 {
        let count = many(&mut rng, 300);
        let trail = many_records(&mut rng, count);
        let items = reading(&trail, State::default()).0;
        let table = wild_table(&mut rng, &trail);
        for (k, entry) in table.iter().enumerate() {
            let kind = entry_is(&trail, &items, k, *entry);
            *kinds.entry(kind).or_insert(0) += 1;
        }
        let full = count.div_ceil(64);
        lengths[1 + usize::from(table.len() > full) - usize::from(table.len() < full)] += 1;
    }
    println!("{kinds:?}, shorter, full, longer: {lengths:?}");
    assert_eq!(kinds.len(), 6);
    assert!(kinds.values().all(|&times| times >= 20));
    assert!(lengths.iter().all(|&times| times >= 50));
}

#[test]
fn counts_and_numbers_of_each_kind() {
    let mut rng = Rng::new(55);
    let (mut counts, mut numbers) = ([0; 3], [0; 3]);
    for _ in 0..1_000 {
        let count = wild_count(&mut rng, 3);
        counts[1 + usize::from(count > 3) - usize::from(count < 3)] += 1;
        let n = wild_number(&mut rng, 200);
        numbers[usize::from(n >= 200) + usize::from(n > 1 << 60)] += 1;
    }
    assert!(counts.iter().all(|&times| times > 100), "{counts:?}");
    assert!(numbers.iter().all(|&times| times > 100), "{numbers:?}");
}
