//! Trails of many small records, and tables, counts and numbers to look their
//! records up with (paper 02, P6).

use crate::damage::damage;
use crate::good::{good_header, record_bytes, token_of};
use crate::rng::Rng;
use crate::targeted::{refused_item, READ_REFUSALS};
use crate::values;
use reference::{reading, write_file, Item, State};

/// Every so many records have an entry in a table.
const EACH: usize = 64;

/// A record with any header and at most one small token: 25 to 62 bytes.
pub fn small_record(rng: &mut Rng) -> Vec<u8> {
    let header = good_header(rng);
    let body = match rng.below(3) {
        0 => {
            let number = rng.pick(&[0x27, 0x2A, 0x2C, 0x2F, 0x52]);
            token_of(rng, number)
        }
        _ => Vec::new(),
    };
    record_bytes(&header.header(), &body)
}

/// A file token with a name of at most eight bytes.
fn small_file(rng: &mut Rng) -> Vec<u8> {
    let length = rng.below(9);
    let name = values::letters(rng, length);
    let mut file = vec![0; 12 + length];
    let micros = values::fraction(rng, 999_999);
    let written = write_file(&mut file, rng.u32(), micros, &name);
    assert_eq!(written, Ok(file.len()), "a good file token was refused");
    file
}

/// An accepted trail of so many small records, with file tokens before some
/// of them, often at multiples of 64, and behind the last.
pub fn many_records(rng: &mut Rng, records: usize) -> Vec<u8> {
    let often = rng.pick(&[3, 12, 50]);
    let mut trail = Vec::new();
    for record in 0..=records {
        let bound = if record % EACH == 0 { 2 } else { often };
        while rng.chance(bound) {
            trail.extend(small_file(rng));
        }
        if record < records {
            trail.extend(small_record(rng));
        }
    }
    trail
}

/// A number of records up to `most`, often at or near a multiple of 64.
pub fn many(rng: &mut Rng, most: usize) -> usize {
    match rng.below(4) {
        0 => rng.between(0, most),
        _ => near_multiple(rng, most / EACH).min(most),
    }
}

/// At most two from a multiple of 64, of which it is at most the `most`th.
fn near_multiple(rng: &mut Rng, most: usize) -> usize {
    let multiple = EACH * rng.between(0, most);
    (multiple + rng.below(5)).saturating_sub(2)
}

/// A trail of up to `most` small records that is good, damaged, cut, or ends
/// with an item that is likely refused with any of the numbers but 2.
pub fn indexed_trail(rng: &mut Rng, most: usize) -> Vec<u8> {
    let records = many(rng, most);
    let mut trail = many_records(rng, records);
    match rng.below(8) {
        0 => {}
        1 => damage(rng, &mut trail),
        2 => trail.truncate(rng.between(0, trail.len())),
        _ => {
            let number = rng.pick(&READ_REFUSALS);
            trail.extend(refused_item(rng, number));
            if number != 1 && rng.chance(2) {
                trail.extend(small_record(rng));
            }
        }
    }
    trail
}

/// The entries of a trail's records, some of them exchanged for the places of
/// other items, places inside of items, beyond the trail or far from it; and
/// some left out or added.
pub fn wild_table(rng: &mut Rng, trail: &[u8]) -> Vec<u64> {
    let items = reading(trail, State::default()).0;
    let records = items.iter().filter(|item| is_record(&item.1));
    let mut table: Vec<u64> = records.step_by(EACH).map(|item| item.0 as u64).collect();
    match rng.below(4) {
        0 => table.truncate(rng.between(0, table.len())),
        1 => table.extend((0..rng.below(4)).map(|_| 0)),
        _ => {}
    }
    for entry in &mut table {
        if rng.chance(2) {
            *entry = wild_entry(rng, trail.len(), &items);
        }
    }
    table
}

/// One entry of such a table.
fn wild_entry(rng: &mut Rng, length: usize, items: &[(usize, Item<'_>)]) -> u64 {
    let end = length as u64;
    match rng.below(8) {
        0 => end,
        1 => end + rng.between(1, 3) as u64,
        2 => rng.u64(),
        3 => u64::MAX - rng.below(3) as u64,
        4 => rng.between(0, length) as u64,
        _ if items.is_empty() => 0,
        _ => rng.pick(items).0 as u64,
    }
}

fn is_record(item: &Item<'_>) -> bool {
    matches!(item, Item::Record { .. })
}

/// A count of filled entries for a table of this length, or a wild one.
pub fn wild_count(rng: &mut Rng, length: usize) -> usize {
    match rng.below(8) {
        0 => 0,
        1 => length + 1,
        2 => rng.u64() as usize,
        3 => usize::MAX,
        4 | 5 => rng.between(0, length),
        _ => length,
    }
}

/// The number of a record to be looked up in a trail that has so many: one of
/// them or past them, often near a multiple of 64, or a wild one.
pub fn wild_number(rng: &mut Rng, records: usize) -> usize {
    match rng.below(8) {
        0 => rng.u64() as usize,
        1 => usize::MAX - rng.below(EACH + 2),
        2 => (records + rng.below(3)).saturating_sub(1),
        3 | 4 => rng.between(0, records),
        _ => near_multiple(rng, records / EACH + 1),
    }
}
