//! Tables of places, and records by their numbers, on both sides.

use crate::expect;
use crate::raw_item::{raw_filled, raw_found};
use crate::reading::{same_address, show};
use crate::tally::Tally;
use bsm::sys::{bsm_fill_index, bsm_filled, bsm_find_record, bsm_found};
use bsm::RECORDS_PER_ENTRY;
use reference::{Filled, Found, State};
use std::ops::Range;

/// What stands in an entry that nothing was entered into. It is no place of a
/// trail.
pub const UNFILLED: u64 = 0xA5A5_A5A5_A5A5_A5A5;

/// What a fill, or a record's number, came to.
#[derive(Clone, Copy, Debug, PartialEq, Eq, PartialOrd, Ord)]
pub enum Indexed {
    /// A fill that entered what it read.
    Filled,
    /// One with too short a table.
    NoRoom,
    /// One from a state that is refused.
    BadState,
    /// The record.
    Record,
    /// The trail's end before it.
    End,
    /// A refused item before it, or itself.
    Refused,
    /// An entry beyond the trail.
    Beyond,
}

/// All of them.
pub const INDEXED: [Indexed; 7] = [
    Indexed::Filled,
    Indexed::NoRoom,
    Indexed::BadState,
    Indexed::Record,
    Indexed::End,
    Indexed::Refused,
    Indexed::Beyond,
];

/// A fill as C makes it.
fn raw_fill(trail: &[u8], state: State, table: &mut [u64]) -> bsm_filled {
    // SAFETY: the pointers and lengths are those of two slices, of which
    // `table` is borrowed alone.
    unsafe {
        bsm_fill_index(
            trail.as_ptr(),
            trail.len(),
            state.place,
            state.records,
            state.files,
            table.as_mut_ptr(),
            table.len(),
        )
    }
}

/// A record by its number as C asks for it.
fn raw_find(trail: &[u8], table: &[u64], count: usize, n: usize) -> bsm_found {
    // SAFETY: the pointers and lengths are those of two slices.
    unsafe {
        bsm_find_record(
            trail.as_ptr(),
            trail.len(),
            table.as_ptr(),
            table.len(),
            count,
            n,
        )
    }
}

/// What `fill` answers, and the table after it, which is lent between two
/// entries that must stay.
fn watched<T>(table: &[u64], fill: impl FnOnce(&mut [u64]) -> T) -> (T, Vec<u64>) {
    let mut all = vec![UNFILLED];
    all.extend(table);
    all.push(UNFILLED);
    let end = all.len() - 1;
    let answer = fill(&mut all[1..end]);
    assert_eq!((all[0], all[end]), (UNFILLED, UNFILLED));
    (answer, all[1..end].to_vec())
}

/// Compares the fill of a table from a state: the answer, the count and every
/// entry. Gives the reference's answer and the table after it.
pub fn same_fill(
    tally: &mut Tally,
    trail: &[u8],
    state: State,
    table: &[u64],
) -> (Filled, Vec<u64>) {
    tally.input();
    let (plain, entries) = watched(table, |table| reference::fill(trail, state, table));
    let expected = bsm::Filled {
        run: expect::run(plain.run),
        count: plain.count,
    };
    let at = expect::state(state);
    let found = watched(table, |table| bsm::fill_index(trail, at, table));
    assert!(
        found == (expected, entries.clone()),
        "{found:?} is not {expected:?} with {entries:?}: {state:?} of {}",
        show(trail)
    );
    let found = watched(table, |table| raw_fill(trail, state, table));
    assert_eq!(found, (raw_filled(plain), entries.clone()));

    only_these(entered(state, &plain), table, &entries);
    count_filled(tally, trail, &plain);
    (plain, entries)
}

/// What a fill came to.
fn indexed(filled: &Filled) -> Indexed {
    match filled.run.refusal.map(|refusal| refusal.number) {
        Some(2) => Indexed::BadState,
        Some(10) => Indexed::NoRoom,
        _ => Indexed::Filled,
    }
}

/// The entries of the records that a fill from this state read.
fn entered(state: State, filled: &Filled) -> Range<usize> {
    match indexed(filled) {
        Indexed::Filled => state.records.div_ceil(RECORDS_PER_ENTRY)..filled.count,
        _ => 0..0,
    }
}

/// Counts what a fill came to.
fn count_filled(tally: &mut Tally, trail: &[u8], filled: &Filled) {
    let run = filled.run;
    tally.indexed(indexed(filled));
    match indexed(filled) {
        Indexed::NoRoom => tally.answer(run.refusal),
        _ => tally.item_answer(trail, run.state.place, run.refusal),
    }
}

/// Asserts that all entries but these stayed.
fn only_these(entered: Range<usize>, before: &[u64], after: &[u64]) {
    assert_eq!(before.len(), after.len());
    assert_eq!(before[..entered.start], after[..entered.start]);
    assert_eq!(before[entered.end..], after[entered.end..]);
}

/// Compares a record by its number: its place, its fields, and where its body
/// and its address stand, or why there is none. Gives the reference's answer.
pub fn same_find<'a>(
    tally: &mut Tally,
    trail: &'a [u8],
    table: &[u64],
    count: usize,
    n: usize,
) -> Found<'a> {
    tally.input();
    let plain = reference::find(trail, table, count, n);
    let expected = match plain {
        Found::Record { place, item } => Ok(Some((place, expect::item(item)))),
        Found::End => Ok(None),
        Found::Refused(refusal) => Err(expect::refusal(refusal)),
    };
    let found = bsm::find_record(trail, table, count, n);
    assert!(
        found == expected,
        "{found:?} is not {expected:?}: record {n} by {count} of {table:?} in {}",
        show(trail)
    );
    let raw = raw_find(trail, table, count, n);
    assert_eq!(raw, raw_found(trail, plain));
    if let (Ok(Some((_, found))), Ok(Some((_, item)))) = (&found, &expected) {
        let part = expect::part_of_item(item).as_ptr_range();
        assert_eq!(expect::part_of_item(found).as_ptr_range(), part);
    }
    count_found(tally, trail, plain);
    plain
}

/// Counts what a record's number led to.
fn count_found(tally: &mut Tally, trail: &[u8], plain: Found<'_>) {
    match plain {
        Found::Record { place, item } => {
            if let Some(address) = same_address(trail, place, Some(&item)) {
                tally.address(trail[place], address.len());
            }
            tally.kind(trail[place]);
            tally.answer(None);
            tally.indexed(Indexed::Record);
        }
        Found::End => {
            tally.answer(None);
            tally.indexed(Indexed::End);
        }
        Found::Refused(refusal) => {
            tally.answer(Some(refusal));
            tally.indexed(match refusal.number {
                2 => Indexed::Beyond,
                _ => Indexed::Refused,
            });
        }
    }
}

/// Compares a record by its number with a table that was filled from bytes
/// that the trail begins with: the answer is the one without a table.
pub fn same_without(tally: &mut Tally, trail: &[u8], table: &[u64], count: usize, n: usize) {
    let with = same_find(tally, trail, table, count, n);
    let without = same_find(tally, trail, &[], 0, n);
    assert_eq!(with, without, "record {n} by {table:?} of {}", show(trail));
}
