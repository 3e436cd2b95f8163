//! An index of places, and a record by its number.

use crate::workload::Workload;
use std::hint::black_box;

/// The part of a trail of records with its first `count`.
pub fn first(trail: &[u8], count: usize) -> &[u8] {
    match reference::find(trail, &[], 0, count) {
        reference::Found::Record { place, .. } => &trail[..place],
        found => panic!("{count} records: {found:?}"),
    }
}

/// A table filled from a whole trail.
fn filled(trail: &[u8]) -> Vec<u64> {
    let records = crate::read::records(trail);
    let mut table = vec![0; records.div_ceil(bsm::RECORDS_PER_ENTRY)];
    reference::fill(trail, reference::State::default(), &mut table);
    table
}

/// The fill of an index over a whole trail.
pub fn fill<'a>(name: &'static str, trail: &'a [u8]) -> Workload<'a> {
    let mut table = filled(trail);
    let mut other = table.clone();
    let proved = move || {
        let filled = bsm::fill_index(black_box(trail), bsm::State::default(), &mut table);
        assert!(filled.run.refusal.is_none());
        filled.count + filled.run.state.place + black_box(&table)[filled.count - 1] as usize
    };
    let plain = move || {
        let filled = reference::fill(black_box(trail), reference::State::default(), &mut other);
        assert!(filled.run.refusal.is_none());
        filled.count + filled.run.state.place + black_box(&other)[filled.count - 1] as usize
    };
    Workload {
        name,
        bytes: trail.len(),
        count: crate::read::records(trail),
        source: trail,
        proved: Box::new(proved),
        plain: Box::new(plain),
    }
}

/// Record `n` of a trail, with its fields and body, by an index of the whole
/// trail.
pub fn find<'a>(name: &'static str, trail: &'a [u8], n: usize) -> Workload<'a> {
    by(name, trail, filled(trail), n)
}

/// The same without an index, from the start.
pub fn from_start<'a>(name: &'static str, trail: &'a [u8], n: usize) -> Workload<'a> {
    by(name, trail, Vec::new(), n)
}

fn by<'a>(name: &'static str, trail: &'a [u8], table: Vec<u64>, n: usize) -> Workload<'a> {
    let entry = n / bsm::RECORDS_PER_ENTRY;
    let (from, before) = match table.get(entry) {
        Some(place) => (*place as usize, n - entry * bsm::RECORDS_PER_ENTRY),
        None => (0, n),
    };
    let to = first(trail, n + 1).len();
    let other = table.clone();
    Workload {
        name,
        bytes: to - from,
        count: before + 1,
        source: &trail[from..to],
        proved: Box::new(move || proved(black_box(trail), black_box(&table), n)),
        plain: Box::new(move || plain(black_box(trail), black_box(&other), n)),
    }
}

/// A pass with the proved library.
fn proved(trail: &[u8], table: &[u64], n: usize) -> usize {
    match bsm::find_record(trail, table, table.len(), n) {
        Ok(Some((
            place,
            bsm::Item::Record {
                header,
                body,
                tokens,
                ..
            },
        ))) => place + usize::from(header.event) + body.len() + tokens,
        _ => 0,
    }
}

/// A pass with the reference.
fn plain(trail: &[u8], table: &[u64], n: usize) -> usize {
    match reference::find(trail, table, table.len(), n) {
        reference::Found::Record {
            place,
            item:
                reference::Item::Record {
                    header,
                    body,
                    tokens,
                    ..
                },
        } => place + usize::from(header.event) + body.len() + tokens,
        _ => 1,
    }
}
