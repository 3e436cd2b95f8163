//! Runs, and items one after the other.

use crate::workload::Workload;
use std::hint::black_box;

/// The run over a whole trail.
pub fn run<'a>(name: &'static str, trail: &'a [u8]) -> Workload<'a> {
    let proved = move || {
        let run = bsm::run(black_box(trail), bsm::State::default());
        assert!(run.refusal.is_none());
        run.state.place + run.state.records
    };
    let plain = move || {
        let run = reference::run(black_box(trail), reference::State::default());
        assert!(run.refusal.is_none());
        run.state.place + run.state.records
    };
    Workload {
        name,
        bytes: trail.len(),
        count: records(trail),
        source: trail,
        proved: Box::new(proved),
        plain: Box::new(plain),
    }
}

/// The items of a trail with their fields and bodies.
pub fn items<'a>(name: &'static str, trail: &'a [u8]) -> Workload<'a> {
    let proved = move || {
        let mut sum = 0;
        for item in bsm::Items::new(black_box(trail), bsm::State::default()) {
            match black_box(item) {
                Ok((
                    place,
                    bsm::Item::Record {
                        header,
                        body,
                        tokens,
                        ..
                    },
                )) => sum += place + usize::from(header.event) + body.len() + tokens,
                _ => return 0,
            }
        }
        sum
    };
    let plain = move || {
        let trail = black_box(trail);
        let mut sum = 0;
        let mut place = 0;
        while let reference::Answer::Item(item) = black_box(reference::item_at(trail, place)) {
            match item {
                reference::Item::Record {
                    header,
                    body,
                    tokens,
                    ..
                } => sum += place + usize::from(header.event) + body.len() + tokens,
                _ => return 1,
            }
            place += item.size();
        }
        sum
    };
    Workload {
        name,
        bytes: trail.len(),
        count: records(trail),
        source: trail,
        proved: Box::new(proved),
        plain: Box::new(plain),
    }
}

/// How many records a trail has.
pub fn records(trail: &[u8]) -> usize {
    reference::run(trail, reference::State::default())
        .state
        .records
}
