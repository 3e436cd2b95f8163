//! Tables of places, and records by their numbers (paper 02, P6).

use bsm::sys::*;
use bsm::RECORDS_PER_ENTRY;
use compare::*;
use generator::*;
use reference::{Found, Item, State};

/// The refusals of what stands at a place of a trail.
const ITEM_REFUSALS: [u8; 10] = [1, 3, 4, 5, 6, 7, 8, 9, 13, 14];

/// What comes where no state and no entry is refused.
const WITHOUT_TWO: [Indexed; 5] = [
    Indexed::Filled,
    Indexed::NoRoom,
    Indexed::Record,
    Indexed::End,
    Indexed::Refused,
];

/// The records of a trail.
fn records(trail: &[u8]) -> Vec<(usize, Item<'_>)> {
    let items = reference::reading(trail, State::default()).0;
    let is_record = |(_, item): &(usize, Item<'_>)| matches!(item, Item::Record { .. });
    items.into_iter().filter(is_record).collect()
}

/// Numbers around each multiple of 64 up to past so many records, around
/// their end, and the largest ones.
fn numbers(records: usize) -> Vec<usize> {
    let multiples = (0..=records / RECORDS_PER_ENTRY + 2).map(|k| k * RECORDS_PER_ENTRY);
    let mut numbers: Vec<usize> = multiples
        .chain([records])
        .flat_map(|n| n.saturating_sub(2)..=n + 2)
        .collect();
    numbers.extend([usize::MAX / 2, usize::MAX - 64, usize::MAX - 1, usize::MAX]);
    numbers
}

/// Tables of every length up to one more than is needed, filled afresh and
/// carried on, each exchanged for the next.
#[test]
fn every_table_length_while_it_grows() {
    let mut rng = Rng::new(1_001);
    let mut tally = Tally::new();
    while tally.inputs() < FILLS {
        let trail = indexed_trail(&mut rng, 330);
        let mut growing = GrowingIndex::new();
        for cut in growth(&mut rng, trail.len()) {
            growing.grown(&mut tally, &trail[..cut]);
        }
    }
    tally.finish("fills", FILLS, ITEM_REFUSALS.into_iter().chain([10]));
    tally.finish_indexed("fills", &[Indexed::Filled, Indexed::NoRoom]);
}

/// Cut at each byte of the records and file tokens around a multiple of 64
/// records; records are looked up there, and in the whole trail.
#[test]
fn cut_at_each_byte_near_multiples() {
    let mut rng = Rng::new(1_002);
    let mut tally = Tally::new();
    while tally.inputs() < CUT_FILLS {
        let count = rng.between(66, 200);
        let mut trail = many_records(&mut rng, count);
        let number = rng.pick(&READ_REFUSALS);
        trail.extend(refused_item(&mut rng, number));
        let records = records(&trail);
        let mut growing = GrowingIndex::new();
        for multiple in (RECORDS_PER_ENTRY..records.len()).step_by(RECORDS_PER_ENTRY) {
            let (last, item) = records[multiple];
            for cut in records[multiple - 1].0..=last + item.size() + 1 {
                let cut = cut.min(trail.len());
                growing.grown(&mut tally, &trail[..cut]);
                let n = (multiple + rng.below(4)).saturating_sub(2);
                growing.find(&mut tally, &trail[..cut], n);
                growing.find(&mut tally, &trail, n);
            }
        }
    }
    tally.finish("cut fills", CUT_FILLS, [1, 10]);
    tally.finish_indexed("cut fills", &WITHOUT_TWO);
}

/// An item that is refused behind a number of records that is a multiple of
/// 64, one less or one more; cut at each of its bytes, and of those of the
/// record before.
#[test]
fn refused_near_multiples() {
    let mut rng = Rng::new(1_008);
    let mut tally = Tally::new();
    while tally.inputs() < REFUSED_FILLS {
        for number in ITEM_REFUSALS {
            let item = loop {
                let item = refused_item(&mut rng, number);
                if item.len() <= 150 {
                    break item;
                }
            };
            let count = rng.pick(&[63, 64, 65, 127, 128, 129]);
            let trail = [many_records(&mut rng, count), item].concat();
            let mut growing = GrowingIndex::new();
            for cut in records(&trail)[count - 1].0..=trail.len() {
                growing.grown(&mut tally, &trail[..cut]);
                for n in count - 1..=count + 1 {
                    growing.find(&mut tally, &trail[..cut], n);
                }
            }
            for n in numbers(count) {
                growing.find(&mut tally, &trail, n);
            }
        }
    }
    tally.finish("refused fills", REFUSED_FILLS, ITEM_REFUSALS);
    tally.finish_indexed("refused fills", &WITHOUT_TWO);
}

/// With a table filled from bytes that the trail begins with.
#[test]
fn records_by_number() {
    let mut rng = Rng::new(1_003);
    let mut tally = Tally::new();
    while tally.inputs() < BY_NUMBER {
        let trail = indexed_trail(&mut rng, 330);
        let run = reference::run(&trail, State::default());
        let cut = match rng.below(2) {
            0 => trail.len(),
            _ => rng.between(0, trail.len()),
        };
        let table = vec![UNFILLED; 7];
        let fresh = State::default();
        let (filled, table) = same_fill(&mut tally, &trail[..cut], fresh, &table);
        assert!(filled.count <= 6);
        for n in numbers(run.state.records) {
            same_without(&mut tally, &trail, &table, filled.count, n);
        }
    }
    tally.finish("by number", BY_NUMBER, ITEM_REFUSALS);
    let kinds = [Indexed::Record, Indexed::End, Indexed::Refused];
    tally.finish_indexed("by number", &kinds);
    tally.finish_addresses("by number", &EXPANDED_HEADERS);
}

/// Each record of a trail, and what comes past the last, is what reading
/// one after the other has.
#[test]
fn each_record_of_a_trail() {
    let mut rng = Rng::new(1_004);
    let mut tally = Tally::new();
    for _ in 0..40 {
        let trail = indexed_trail(&mut rng, 330);
        let run = reference::run(&trail, State::default());
        let mut table = vec![UNFILLED; 7];
        let filled = bsm::fill_index(&trail, bsm::State::default(), &mut table);
        for (n, (place, item)) in records(&trail).into_iter().enumerate() {
            let found = same_find(&mut tally, &trail, &table, filled.count, n);
            assert_eq!(found, Found::Record { place, item });
            assert!(n % RECORDS_PER_ENTRY != 0 || table[n / RECORDS_PER_ENTRY] == place as u64);
        }
        let last = run.refusal.map_or(Found::End, Found::Refused);
        for n in [run.state.records, run.state.records + 1, usize::MAX] {
            let found = same_find(&mut tally, &trail, &table, filled.count, n);
            assert_eq!(found, last);
        }
    }
    let found = tally.indexed_times(Indexed::Record);
    assert!(found > 3_000, "{found} records");
}

/// Many entries, and tables of few of them.
#[test]
fn a_long_trail() {
    let mut rng = Rng::new(1_009);
    let mut tally = Tally::new();
    let trail = many_records(&mut rng, 20_000);
    let all = records(&trail);
    let (fresh, unfilled) = (State::default(), vec![UNFILLED; 313]);
    let (filled, _) = same_fill(&mut tally, &trail, fresh, &unfilled[1..]);
    assert_eq!((filled.count, filled.run.state), (313, fresh));
    let (filled, table) = same_fill(&mut tally, &trail, fresh, &unfilled);
    assert_eq!((filled.count, filled.run.state.records), (313, 20_000));
    let entries = all.iter().step_by(RECORDS_PER_ENTRY);
    assert!(table
        .iter()
        .copied()
        .eq(entries.map(|record| record.0 as u64)));
    for _ in 0..500 {
        let n = rng.below(20_000);
        let (place, item) = all[n];
        for count in [313, usize::MAX, rng.between(250, 312)] {
            let found = same_find(&mut tally, &trail, &table, count, n);
            assert_eq!(found, Found::Record { place, item });
        }
    }
}

/// Any table, any count, any number.
#[test]
fn wild_tables_counts_and_numbers() {
    let mut rng = Rng::new(1_005);
    let mut tally = Tally::new();
    while tally.inputs() < WILD_TABLES {
        let trail = match rng.below(4) {
            0 => any_input(&mut rng).0,
            _ => indexed_trail(&mut rng, 200),
        };
        let records = reference::run(&trail, State::default()).state.records;
        let table = wild_table(&mut rng, &trail);
        for _ in 0..12 {
            let count = wild_count(&mut rng, table.len());
            let n = wild_number(&mut rng, records);
            same_find(&mut tally, &trail, &table, count, n);
        }
    }
    tally.finish("wild tables", WILD_TABLES, READ_REFUSALS);
    let kinds = [
        Indexed::Record,
        Indexed::End,
        Indexed::Refused,
        Indexed::Beyond,
    ];
    tally.finish_indexed("wild tables", &kinds);
}

/// A state at an item of the trail, with totals that need not be those of the
/// items before it; or any other.
fn any_state(rng: &mut Rng, trail: &[u8]) -> State {
    let items = reference::reading(trail, State::default()).0;
    if items.is_empty() || rng.chance(3) {
        return wild_state(rng, trail.len());
    }
    let place = rng.pick(&items).0;
    let most = place / RECORDS_PER_ENTRY;
    let records = match rng.below(4) {
        0 => rng.between(0, place),
        1 => rng.between(0, most) * RECORDS_PER_ENTRY,
        2 => (rng.between(0, most) * RECORDS_PER_ENTRY).saturating_sub(1),
        _ => rng.between(0, place.min(80)),
    };
    let files = rng.below((place - records).saturating_add(2));
    State {
        place,
        records,
        files,
    }
}

/// Tables with anything in them, around the length that is needed.
#[test]
fn fills_from_wild_states() {
    let mut rng = Rng::new(1_006);
    let mut tally = Tally::new();
    let mut odd = 0;
    while tally.inputs() < WILD_FILLS {
        let trail = match rng.below(4) {
            0 => any_input(&mut rng).0,
            _ => indexed_trail(&mut rng, 140),
        };
        for _ in 0..6 {
            let state = any_state(&mut rng, &trail);
            let run = reference::run(&trail, state);
            let need = run.state.records.div_ceil(RECORDS_PER_ENTRY).min(400);
            let any = rng.below(need + 1);
            let length = rng.pick(&[need, need, need + 1, need.saturating_sub(1), any, 0]);
            let table: Vec<u64> = (0..length).map(|_| rng.u64()).collect();
            let (filled, after) = same_fill(&mut tally, &trail, state, &table);
            odd += usize::from(after != table && !state.records.is_multiple_of(RECORDS_PER_ENTRY));
            // Once more from what it handed back.
            same_fill(&mut tally, &trail, filled.run.state, &after);
        }
        for place in [usize::MAX, usize::MAX - 1, usize::MAX / 2] {
            let state = State {
                place,
                records: rng.below(place),
                files: 0,
            };
            let (filled, _) = same_fill(&mut tally, &trail, state, &[UNFILLED; 2]);
            assert_eq!(filled.run.state, state);
        }
    }
    println!("wild fills: {odd} entered from totals that are no multiple of 64");
    assert!(odd > 1_000);
    tally.finish("wild fills", WILD_FILLS, READ_REFUSALS);
    assert!(tally.refused_times(10) > 1_000);
    let kinds = [Indexed::Filled, Indexed::NoRoom, Indexed::BadState];
    tally.finish_indexed("wild fills", &kinds);
}

/// A null pointer with length 0 stands for nothing.
#[test]
fn null_pointers() {
    let no_bytes = std::ptr::null();
    let (no_table, no_entries) = (std::ptr::null(), std::ptr::null_mut());
    let trail = small_record(&mut Rng::new(1_007));
    // SAFETY: what a null pointer points to has length 0.
    unsafe {
        let filled = bsm_fill_index(no_bytes, 0, 0, 0, 0, no_entries, 0);
        assert_eq!(filled, bsm_filled::default());
        let filled = bsm_fill_index(trail.as_ptr(), trail.len(), 0, 0, 0, no_entries, 0);
        assert_eq!((filled.run.number, filled.count), (10, 1));
        let found = bsm_find_record(no_bytes, 0, no_table, 0, 0, 0);
        assert_eq!(found, bsm_found::default());
        let found = bsm_find_record(trail.as_ptr(), trail.len(), no_table, 0, 1, 0);
        assert_eq!((found.item.kind, found.place), (BSM_RECORD, 0));
    }
}
