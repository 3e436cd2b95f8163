//! Reading items, steps and runs on both sides.

use crate::expect;
use crate::raw::{raw_address_next, raw_addresses, raw_part};
use crate::tally::Tally;
use bsm::{Items, Reader, Step};
use reference::{Answer, Item, Run, State};

/// Bytes as hexadecimal, for a failed comparison.
pub fn show(bytes: &[u8]) -> String {
    bytes.iter().map(|byte| format!("{byte:02X}")).collect()
}

/// Compares the item at a place, its part of the trail and its address
/// included, and gives the reference's answer.
pub fn same_item<'a>(tally: &mut Tally, trail: &'a [u8], place: usize) -> Answer<'a> {
    tally.input();
    let plain = reference::item_at(trail, place);
    let expected = match plain {
        Answer::Item(item) => Ok(Some(expect::item(item))),
        Answer::End => Ok(None),
        Answer::Refused(refusal) => Err(expect::refusal(refusal)),
    };
    let found = bsm::item_at(trail, place);
    assert_eq!(found, expected, "item at {place} of {}", show(trail));
    let refusal = match plain {
        Answer::Refused(refusal) => Some(refusal),
        _ => None,
    };
    tally.item_answer(trail, place, refusal);
    let item = match &plain {
        Answer::Item(item) => Some(item),
        _ => None,
    };
    if let Some(address) = same_address(trail, place, item) {
        tally.address(trail[place], address.len());
    }

    let parts = (bsm::body_at(trail, place), bsm::name_at(trail, place));
    match expected {
        Ok(Some(item)) => {
            let part = expect::part_of_item(&item);
            let same = |other: Option<&[u8]>| {
                other.is_some_and(|other| other.as_ptr_range() == part.as_ptr_range())
            };
            let found = found.ok().flatten();
            assert!(same(found.as_ref().map(expect::part_of_item)));
            match item {
                bsm::Item::File { .. } => assert!(parts.0.is_none() && same(parts.1)),
                bsm::Item::Record { .. } => assert!(same(parts.0) && parts.1.is_none()),
            }
        }
        _ => assert_eq!(parts, (None, None), "parts at {place} of {}", show(trail)),
    }
    plain
}

/// Compares what is told of the address in the header of the record at a place,
/// and where it stands, with that of the item that the reference read there,
/// and gives it.
pub(crate) fn same_address<'a>(
    trail: &[u8],
    place: usize,
    plain: Option<&Item<'a>>,
) -> Option<&'a [u8]> {
    let address = plain.and_then(expect::address_of_item);
    let told = bsm::address_at(trail, place);
    assert_eq!(
        told,
        address.map(expect::address),
        "{place} of {}",
        show(trail)
    );
    assert_eq!(raw_addresses(trail, place), [raw_part(trail, address); 2]);
    address
}

/// Compares one step from a state.
pub fn same_step(trail: &[u8], state: State) {
    let sum = state.records.checked_add(state.files);
    let mut address = None;
    let expected = if sum.is_none_or(|sum| sum > state.place) {
        Step::Refused(bsm::Refusal {
            reason: bsm::Reason::Place,
            place: state.place,
            need: 0,
        })
    } else {
        match reference::item_at(trail, state.place) {
            Answer::Item(item) => {
                address = same_address(trail, state.place, Some(&item));
                Step::Item {
                    place: state.place,
                    item: expect::item(item),
                }
            }
            Answer::End => Step::End,
            Answer::Refused(refusal) if refusal.number == 1 => Step::Short {
                place: refusal.place,
                need: refusal.need,
            },
            Answer::Refused(refusal) => Step::Refused(expect::refusal(refusal)),
        }
    };
    let mut after = expect::state(state);
    if let Step::Item { item, .. } = expected {
        after.place += item.size();
        match item {
            bsm::Item::File { .. } => after.files += 1,
            bsm::Item::Record { .. } => after.records += 1,
        }
    }
    let found = bsm::next(trail, expect::state(state));
    assert_eq!(found, (expected, after), "{state:?} of {}", show(trail));
    assert_eq!(raw_address_next(trail, state), raw_part(trail, address));
    let mut reader = Reader::at(expect::state(state));
    assert_eq!((reader.next(trail), reader.state()), (expected, after));
}

/// Compares the run from a state, and gives the reference's answer.
pub fn same_run(tally: &mut Tally, trail: &[u8], state: State) -> Run {
    tally.input();
    let plain = reference::run(trail, state);
    let found = bsm::run(trail, expect::state(state));
    assert_eq!(
        found,
        expect::run(plain),
        "run from {state:?} of {}",
        show(trail)
    );
    tally.item_answer(trail, plain.state.place, plain.refusal);
    plain
}

/// Compares the items that a reading from a state accepts, one after the
/// other, and its end.
pub fn same_items(trail: &[u8], state: State) {
    let (items, run) = reference::reading(trail, state);
    let mut found = Items::new(trail, expect::state(state));
    for (place, item) in items {
        let expected = Some(Ok((place, expect::item(item))));
        assert_eq!(found.next(), expected, "{state:?} of {}", show(trail));
        same_address(trail, place, Some(&item));
    }
    let last = run.refusal.map(|refusal| Err(expect::refusal(refusal)));
    assert_eq!(found.next(), last, "{state:?} of {}", show(trail));
    assert_eq!(found.state(), expect::state(run.state));
    assert_eq!(found.next(), None);
}
