//! Steps back and walks from a trail's end on both sides.

use crate::expect;
use crate::raw::{raw_address_before, raw_part};
use crate::reading::{same_address, show};
use crate::tally::Tally;
use bsm::Newest;
use generator::{ending_at, Rng};
use reference::{Before, Item, State};

/// The library's answer that an answer of the reference stands for.
fn expected(plain: Before<'_>) -> Result<bsm::Before<'_>, bsm::Refusal> {
    match plain {
        Before::Record { place, item } => Ok(bsm::Before::Record {
            place,
            item: expect::item(item),
        }),
        Before::Boundary { need } => Ok(bsm::Before::Boundary { need }),
        Before::Refused(refusal) => Err(expect::refusal(refusal)),
    }
}

/// Compares the step back from a place, the part and the address of its
/// record included, and gives the reference's answer.
pub fn same_before<'a>(tally: &mut Tally, trail: &'a [u8], place: usize) -> Before<'a> {
    tally.input();
    let plain = reference::record_before(trail, place);
    let found = bsm::record_before(trail, place);
    assert_eq!(
        found,
        expected(plain),
        "step back from {place} of {}",
        show(trail)
    );
    tally.ending(ending_at(trail, place));
    match (plain, found) {
        (Before::Refused(refusal), _) => tally.answer(Some(refusal)),
        (Before::Record { place: start, item }, Ok(bsm::Before::Record { item: found, .. })) => {
            let part = expect::part_of_item(&expect::item(item));
            let told = expect::part_of_item(&found);
            assert_eq!(told.as_ptr_range(), part.as_ptr_range());
            let address = same_address(trail, start, Some(&item));
            let told = raw_address_before(trail, place);
            assert_eq!(told, raw_part(trail, address));
            if let (Some(address), bsm::Item::Record { header, .. }) = (address, found) {
                tally.address(header.kind.number(), address.len());
            }
            tally.answer(None);
        }
        _ => tally.answer(None),
    }
    plain
}

/// Compares the walk from a trail's end; for a trail that reading forward
/// accepts as a whole also with that reading's records.
pub fn same_newest(trail: &[u8]) {
    let (records, place, need) = reference::newest(trail);
    let mut newest = Newest::new(trail);
    for record in &records {
        assert_eq!(newest.boundary(), None);
        let expected = Some((record.0, expect::item(record.1)));
        assert_eq!(newest.next(), expected, "{}", show(trail));
        assert_eq!(newest.place(), record.0);
        same_address(trail, record.0, Some(&record.1));
    }
    for _ in 0..2 {
        assert_eq!(newest.next(), None, "{}", show(trail));
        assert_eq!((newest.place(), newest.boundary()), (place, Some(need)));
    }

    let (items, run) = reference::reading(trail, State::default());
    if run.refusal.is_none() {
        let is_file = |(_, item): &(usize, Item<'_>)| matches!(item, Item::File { .. });
        let file = items.iter().rposition(is_file);
        let behind = file.map_or(0, |at| at + 1);
        let expected: Vec<_> = items[behind..].iter().rev().copied().collect();
        assert_eq!(records, expected, "{}", show(trail));
        let end = file.map_or((0, 7), |at| (items[at].0 + items[at].1.size(), 0));
        assert_eq!((place, need), end, "{}", show(trail));
    }
}

/// Compares the step back from a place with that in a longer trail, and with
/// other bytes in front.
pub fn same_around(tally: &mut Tally, rng: &mut Rng, trail: &[u8], place: usize) {
    let Ok(before) = bsm::record_before(trail, place) else {
        return;
    };
    let more = rng.below(40);
    let longer = [trail, &rng.bytes(more)].concat();
    assert_eq!(bsm::record_before(&longer, place), Ok(before));
    if let bsm::Before::Record { place, .. } = before {
        assert_eq!(
            bsm::address_at(&longer, place),
            bsm::address_at(trail, place)
        );
    }

    let (front, need) = match before {
        // Around the bytes that it names.
        bsm::Before::Boundary { need } if need > 0 => {
            let missing = need - place;
            (rng.between(missing.saturating_sub(3), missing + 3), need)
        }
        _ => (rng.below(40), 0),
    };
    let bytes = [&rng.bytes(front), &longer[..]].concat();
    same_before(tally, &bytes, front + place);
    let found = bsm::record_before(&bytes, front + place);
    match before {
        bsm::Before::Record { place: at, item } => {
            let place = front + at;
            assert_eq!(found, Ok(bsm::Before::Record { place, item }));
            let address = bsm::address_at(&bytes, place);
            assert_eq!(address, bsm::address_at(trail, at));
        }
        _ if front + place < need || need == 0 => assert_eq!(found, Ok(before)),
        _ => assert_ne!(found, Ok(before)),
    }
}
