//! Tables of places, and records by their numbers (paper 02, P6).

use reference::*;

/// The smallest record, as in case 9.
const RECORD: [u8; 25] = *b"\x14\0\0\0\x19\x0b\0\x48\0\0\0\0\0\x01\0\0\0\x02\x13\xb1\x05\0\0\0\x19";

/// A file token.
const FILE: [u8; 13] = *b"\x11\0\0\0\x05\0\0\0\x07\0\x02a\0";

/// What stands in an entry before a fill.
const OLD: u64 = 77;

/// So many records.
fn records(count: usize) -> Vec<u8> {
    RECORD.repeat(count)
}

/// A state.
fn at(place: usize, records: usize, files: usize) -> State {
    State {
        place,
        records,
        files,
    }
}

/// A fill with a table of so many entries, and the table.
fn filled(trail: &[u8], state: State, entries: usize) -> (Filled, Vec<u64>) {
    let mut table = vec![OLD; entries];
    (fill(trail, state, &mut table), table)
}

/// The numbers of a refusal.
fn refused(refusal: Option<Refusal>) -> (u8, usize, usize) {
    refusal.map_or((0, 0, 0), |refusal| {
        (refusal.number, refusal.place, refusal.need)
    })
}

/// The place of record `n`, nothing at the end, or a refusal's numbers.
fn place(
    trail: &[u8],
    table: &[u64],
    count: usize,
    n: usize,
) -> Result<Option<usize>, (u8, usize, usize)> {
    match find(trail, table, count, n) {
        Found::Record { place, .. } => Ok(Some(place)),
        Found::End => Ok(None),
        Found::Refused(refusal) => Err(refused(Some(refusal))),
    }
}

#[test]
fn one_entry_for_64_records() {
    for (count, entries) in [
        (0, vec![]),
        (1, vec![0]),
        (63, vec![0]),
        (64, vec![0]),
        (65, vec![0, 1_600]),
        (128, vec![0, 1_600]),
        (129, vec![0, 1_600, 3_200]),
    ] {
        let trail = records(count);
        let (answer, table) = filled(&trail, State::default(), 4);
        assert_eq!(answer.run, run(&trail, State::default()));
        assert_eq!(answer.count, entries.len());
        assert_eq!(table[..entries.len()], entries);
        assert!(table[entries.len()..].iter().all(|&entry| entry == OLD));
    }
}

/// File tokens are no records, before them or between them.
#[test]
fn file_tokens_are_passed() {
    let trail = [&FILE[..], &records(64), &FILE, &FILE, &RECORD, &FILE].concat();
    let (answer, table) = filled(&trail, State::default(), 2);
    assert_eq!((answer.count, answer.run.state), (2, at(1_677, 65, 4)));
    assert_eq!(table, [13, 13 + 1_600 + 26]);
    assert_eq!(place(&trail, &table, 2, 64), Ok(Some(1_639)));
    assert_eq!(place(&trail, &table, 2, 65), Ok(None));
}

/// What is refused past the last record is the run's own answer.
#[test]
fn the_runs_own_refusal() {
    let trail = [&records(64), &RECORD[..24]].concat();
    let (answer, table) = filled(&trail, State::default(), 2);
    assert_eq!(refused(answer.run.refusal), (1, 1_600, 25));
    assert_eq!((answer.count, answer.run.state), (1, at(1_600, 64, 0)));
    assert_eq!(table, [0, OLD]);
    for n in [64, 65, 10_000, usize::MAX] {
        assert_eq!(place(&trail, &table, 1, n), Err((1, 1_600, 25)));
    }
    let trail = [&records(3), &[0xFF][..]].concat();
    assert_eq!(place(&trail, &[], 0, 2), Ok(Some(50)));
    assert_eq!(place(&trail, &[], 0, 3), Err((3, 75, 0)));
}

#[test]
fn ten_where_the_table_is_too_short() {
    let trail = records(129);
    for entries in 0..3 {
        let (answer, table) = filled(&trail, State::default(), entries);
        assert_eq!(refused(answer.run.refusal), (10, 0, 0));
        assert_eq!((answer.count, answer.run.state), (3, State::default()));
        assert!(table.iter().all(|&entry| entry == OLD));
    }
    // Also from a state with records, and with room for one of two entries.
    let state = at(1_600, 64, 0);
    let (answer, table) = filled(&trail, state, 2);
    assert_eq!(refused(answer.run.refusal), (10, 0, 0));
    assert_eq!((answer.run.state, table), (state, vec![OLD; 2]));
    // No record needs no entry.
    assert_eq!(filled(&FILE, State::default(), 0).0.run.refusal, None);
}

#[test]
fn two_comes_first() {
    // 80 records would have two entries.
    for (state, count) in [(at(101, 80, 0), 2), (at(50, 40, 11), 1)] {
        for entries in 0..3 {
            let (answer, table) = filled(&records(4), state, entries);
            assert_eq!(refused(answer.run.refusal), (2, state.place, 0));
            assert_eq!((answer.count, answer.run.state), (count, state));
            assert!(table.iter().all(|&entry| entry == OLD));
        }
    }
    let most = at(usize::MAX, usize::MAX, 0);
    let (answer, _) = filled(&[], most, 0);
    assert_eq!((answer.count, answer.run.state), (1 << 58, most));
}

/// Only the entries of records that this fill reads.
#[test]
fn from_a_state_with_records() {
    let trail = records(200);
    let (answer, table) = filled(&trail, at(10 * 25, 10, 0), 4);
    assert_eq!((answer.count, answer.run.state.records), (4, 200));
    assert_eq!(table, [OLD, 1_600, 3_200, 4_800]);
    let (_, table) = filled(&trail, at(64 * 25, 64, 0), 4);
    assert_eq!(table, [OLD, 1_600, 3_200, 4_800]);
    let (_, table) = filled(&trail, at(65 * 25, 65, 0), 4);
    assert_eq!(table, [OLD, OLD, 3_200, 4_800]);
    // Totals that are not the trail's are taken as they are.
    let (answer, table) = filled(&trail, at(199 * 25, 128, 9), 4);
    assert_eq!((answer.count, answer.run.state), (3, at(5_000, 129, 9)));
    assert_eq!(table, [OLD, OLD, 4_975, OLD]);
    // Nothing is read, and the state's own records need their entries.
    let end = at(5_000, 200, 0);
    assert_eq!(refused(filled(&trail, end, 3).0.run.refusal), (10, 0, 0));
    let (answer, table) = filled(&trail, end, 4);
    assert_eq!((answer.run.refusal, table), (None, vec![OLD; 4]));
}

#[test]
fn carried_on() {
    let trail = [&records(70)[..], &FILE, &records(70)].concat();
    let mut table = [OLD; 3];
    let mut state = State::default();
    for cut in 0..=trail.len() {
        // With shorter tables first, most of which are too short.
        for entries in 0..3 {
            state = fill(&trail[..cut], state, &mut table[..entries]).run.state;
        }
        let answer = fill(&trail[..cut], state, &mut table);
        let (fresh, entries) = filled(&trail[..cut], State::default(), 3);
        assert_eq!((answer, table[..].to_vec()), (fresh, entries));
        state = answer.run.state;
    }
    assert_eq!((state, table), (at(3_513, 140, 1), [0, 1_600, 3_213]));
}

#[test]
fn a_record_and_its_fields() {
    let trail = [&records(100)[..], &FILE, &RECORD].concat();
    let (_, table) = filled(&trail, State::default(), 2);
    let Answer::Item(expected) = item_at(&trail, 2_513) else {
        panic!("no record");
    };
    let found = Found::Record {
        place: 2_513,
        item: expected,
    };
    for count in [0, 1, 2, 3, usize::MAX] {
        assert_eq!(find(&trail, &table, count, 100), found);
        assert_eq!(find(&trail, &table, count, 101), Found::End);
    }
    assert_eq!(find(&trail, &[], usize::MAX, 100), found);
}

/// Any table and any count get an answer.
#[test]
fn tables_that_nobody_filled() {
    let trail = records(100);
    // Beyond the trail.
    let wild = [2_501, u64::MAX];
    assert_eq!(place(&trail, &wild, 2, 0), Err((2, 2_501, 0)));
    assert_eq!(place(&trail, &wild, 2, 64), Err((2, usize::MAX, 0)));
    assert_eq!(place(&trail, &wild, 0, 99), Ok(Some(2_475)));
    // At the end, inside of a record, and at another record.
    assert_eq!(place(&trail, &[2_500], 1, 0), Ok(None));
    assert_eq!(place(&trail, &[26], 1, 0), Err((3, 26, 0)));
    assert_eq!(place(&trail, &[0, 0], 2, 63), Ok(Some(63 * 25)));
    assert_eq!(place(&trail, &[0, 0], 2, 64), Ok(Some(0)));
    // Counted on from the last filled entry.
    assert_eq!(place(&trail, &[25, 50], 1, 70), Ok(Some(71 * 25)));
    assert_eq!(place(&trail, &[25, 50], 2, 70), Ok(Some(8 * 25)));
    assert_eq!(place(&trail, &[25, 50], 9, 130), Ok(Some(68 * 25)));
}
