//! What a step back from a place of a trail meets (paper 02, P3), told from
//! the bytes before the place, and inputs aimed at each.

use crate::expanded::any_address_fault;
use crate::good::{good_file, good_header, good_record, good_trail};
use crate::layout::{get32, raw_file, raw_record, set};
use crate::rng::Rng;
use crate::targeted::bad_body;
use crate::values;
use reference::{item_at, Answer, Item};

/// What stands before a place.
#[derive(Clone, Copy, Debug, PartialEq, Eq, PartialOrd, Ord)]
pub enum Ending {
    /// The place lies beyond the trail.
    Beyond,
    /// Fewer than seven bytes.
    Few,
    /// Seven bytes that are no trailer.
    NoTrailer,
    /// A trailer with a count over 65,535.
    LargeCount,
    /// A trailer whose count is more than the bytes before the place.
    FarCount,
    /// A trailer, and as many bytes earlier nothing that is accepted.
    NoItem,
    /// A trailer, and as many bytes earlier a file token.
    FileToken,
    /// A trailer, and as many bytes earlier a record of another size.
    OtherSize,
    /// A record.
    Record,
}

use Ending::*;

/// All of them.
pub const ENDINGS: [Ending; 9] = [
    Beyond, Few, NoTrailer, LargeCount, FarCount, NoItem, FileToken, OtherSize, Record,
];

/// What stands before a place of a trail.
pub fn ending_at(trail: &[u8], place: usize) -> Ending {
    let Some(before) = trail.get(..place) else {
        return Beyond;
    };
    let Some(start) = place.checked_sub(7) else {
        return Few;
    };
    if before[start..place - 4] != MARK {
        return NoTrailer;
    }
    match get32(before, place - 4) {
        Some(count) if count > 65_535 => LargeCount,
        Some(count) if count > place => FarCount,
        Some(count) => match item_at(before, place - count) {
            Answer::Item(item @ Item::Record { .. }) if item.size() == count => Record,
            Answer::Item(Item::Record { .. }) => OtherSize,
            Answer::Item(Item::File { .. }) => FileToken,
            _ => NoItem,
        },
        None => unreachable!("four bytes stand there"),
    }
}

/// A trailer's first three bytes.
const MARK: [u8; 3] = [0x13, 0xB1, 0x05];

/// A trailer with this count.
fn trailer(count: u32) -> Vec<u8> {
    let mut trailer = MARK.to_vec();
    trailer.extend(count.to_be_bytes());
    trailer
}

/// A trail and a place that has, mostly, this before it.
pub fn with_ending(rng: &mut Rng, ending: Ending) -> (Vec<u8>, usize) {
    let items = rng.below(3);
    let mut trail = good_trail(rng, items);
    match ending {
        Beyond => {
            let near = trail.len() + 1 + rng.below(4);
            let place = rng.pick(&[near, near, usize::MAX, usize::MAX - 6]);
            return (trail, place);
        }
        Few => {
            trail.extend(good_record(rng));
            return (trail, rng.below(7));
        }
        NoTrailer => trail.extend(without_mark(rng)),
        LargeCount => trail.extend(large_count(rng)),
        FarCount => trail = far_count(rng),
        NoItem => trail.extend(refused_record(rng)),
        FileToken | OtherSize => {
            let mut item = match ending {
                FileToken => good_file(rng),
                _ => good_record(rng),
            };
            let more = rng.below(30);
            item.extend(rng.bytes(more));
            let count = item.len() as u32 + 7;
            trail.extend(item);
            trail.extend(trailer(count));
        }
        Record => trail.extend(good_record(rng)),
    }
    let place = trail.len();
    match rng.below(4) {
        0 => trail.extend(good_record(rng)),
        1 => {
            let more = rng.below(40);
            trail.extend(rng.bytes(more));
        }
        _ => {}
    }
    (trail, place)
}

/// An item that does not end with a trailer: a file token, a record with a
/// damaged one, or one without its last bytes.
fn without_mark(rng: &mut Rng) -> Vec<u8> {
    if rng.chance(3) {
        return good_file(rng);
    }
    let mut record = good_record(rng);
    let end = record.len();
    if rng.chance(3) {
        record.truncate(end - rng.between(1, 18));
    } else {
        let at = end - rng.between(5, 7);
        record[at] ^= 1 << rng.below(8);
    }
    record
}

/// A trailer's count over 65,535, behind a record or in a file token's name.
fn large_count(rng: &mut Rng) -> Vec<u8> {
    if rng.chance(3) {
        return file_like_trailer(rng);
    }
    let mut record = good_record(rng);
    let end = record.len();
    let size = end as u32;
    let any = rng.u32() | 0x1_0000;
    let count = rng.pick(&[65_536, size | 0x1_0000, size << 16, u32::MAX, any]);
    set(&mut record, end - 4, &count.to_be_bytes());
    if rng.chance(2) {
        set(&mut record, 1, &count.to_be_bytes());
    }
    record
}

/// A file token whose name and zero byte end like a trailer.
pub fn file_like_trailer(rng: &mut Rng) -> Vec<u8> {
    let length = rng.below(20);
    let mut name = values::letters(rng, length);
    name.extend(MARK);
    for _ in 0..3 {
        let any = rng.u8().max(1);
        name.push(rng.pick(&[1, 0xFF, any]));
    }
    name.push(0);
    raw_file(rng.u32(), 7, name.len() as u16, &name)
}

/// A record without its first bytes, or one whose trailer has too large a
/// count; nothing before it.
fn far_count(rng: &mut Rng) -> Vec<u8> {
    let mut record = good_record(rng);
    if rng.chance(2) {
        let gone = rng.between(1, record.len() - 7);
        return record.split_off(gone);
    }
    let end = record.len();
    let any = rng.between(end + 1, 65_535);
    let count = rng.pick(&[end + 1, any, 65_535]) as u32;
    set(&mut record, end - 4, &count.to_be_bytes());
    record
}

/// A record that is refused although its counts agree, or a trailer with so
/// small a count that it is not the header's.
fn refused_record(rng: &mut Rng) -> Vec<u8> {
    if rng.chance(3) {
        let mut record = good_record(rng);
        let end = record.len();
        let count = rng.below(end) as u32;
        set(&mut record, end - 4, &count.to_be_bytes());
        return record;
    }
    if rng.chance(4) {
        return any_address_fault(rng);
    }
    let mut header = good_header(rng);
    let body = if rng.chance(4) {
        header.fields.nanoseconds = values::over(rng, 999_999_999, 32);
        Vec::new()
    } else {
        let number = rng.pick(&[6, 7, 8, 13, 14]);
        bad_body(rng, number)
    };
    raw_record(&header.header(), &body)
}
