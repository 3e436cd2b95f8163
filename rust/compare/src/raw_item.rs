//! The reference's answers on items, runs and indexes as C sees them.

use crate::expect::{self, address_of_item, part_of_item};
use crate::raw::{raw_part, raw_written};
use bsm::sys::*;
use reference::{Answer, Filled, Found, Item, Refusal, Run};

/// The answer at a place of a trail.
pub fn raw_item(trail: &[u8], answer: Answer<'_>) -> bsm_item {
    match answer {
        Answer::End => bsm_item {
            kind: BSM_END,
            ..bsm_item::default()
        },
        Answer::Item(item) => accepted(trail, item),
        Answer::Refused(refusal) => refused(refusal),
    }
}

/// An accepted item.
fn accepted(trail: &[u8], item: Item<'_>) -> bsm_item {
    let part = raw_part(trail, Some(part_of_item(&expect::item(item))));
    let address = raw_part(trail, address_of_item(&item));
    let told = bsm_item {
        size: item.size() as u64,
        start: part.start,
        length: part.length,
        address_start: address.start,
        address_length: address.length,
        ..bsm_item::default()
    };
    match item {
        Item::File {
            seconds,
            microseconds,
            ..
        } => bsm_item {
            kind: BSM_FILE,
            seconds: seconds.into(),
            fraction: microseconds.into(),
            ..told
        },
        Item::Record { header, tokens, .. } => bsm_item {
            kind: BSM_RECORD,
            header: header.number.into(),
            version: header.version.into(),
            event: header.event.into(),
            modifier: header.modifier.into(),
            seconds: header.seconds,
            fraction: header.nanoseconds,
            tokens: tokens as u64,
            ..told
        },
    }
}

/// A refusal in the place of an item.
fn refused(refusal: Refusal) -> bsm_item {
    bsm_item {
        kind: BSM_REFUSED,
        number: refusal.number.into(),
        place: refusal.place as u64,
        need: refusal.need as u64,
        ..bsm_item::default()
    }
}

/// How a run ended.
pub fn raw_outcome(run: Run) -> bsm_outcome {
    let refusal = run.refusal.map(Err);
    let refusal = refusal.map_or(bsm_written::default(), raw_written);
    bsm_outcome {
        place: run.state.place as u64,
        records: run.state.records as u64,
        files: run.state.files as u64,
        number: refusal.number,
        at: refusal.place,
        need: refusal.need,
    }
}

/// What a fill came to.
pub fn raw_filled(filled: Filled) -> bsm_filled {
    bsm_filled {
        run: raw_outcome(filled.run),
        count: filled.count as u64,
    }
}

/// What a record's number led to.
pub fn raw_found(trail: &[u8], found: Found<'_>) -> bsm_found {
    let (answer, place) = match found {
        Found::Record { place, item } => (Answer::Item(item), place),
        Found::End => (Answer::End, 0),
        Found::Refused(refusal) => (Answer::Refused(refusal), 0),
    };
    bsm_found {
        item: raw_item(trail, answer),
        place: place as u64,
    }
}
