//! Records from the end of a trail.

use crate::workload::Workload;
use std::collections::VecDeque;
use std::hint::black_box;

/// The last `most` records of a trail, newest first, with their fields and
/// bodies.
pub fn load<'a>(name: &'static str, trail: &'a [u8], most: usize) -> Workload<'a> {
    let proved = move || {
        let mut newest = bsm::Newest::new(black_box(trail));
        let mut sum = 0;
        for _ in 0..most {
            let Some((place, item)) = newest.next() else {
                break;
            };
            if let bsm::Item::Record {
                header,
                body,
                tokens,
                ..
            } = black_box(item)
            {
                sum += place + usize::from(header.event) + body.len() + tokens;
            }
        }
        sum
    };
    let plain = move || {
        let trail = black_box(trail);
        let mut sum = 0;
        let mut at = trail.len();
        for _ in 0..most {
            let reference::Before::Record { place, item } =
                black_box(reference::record_before(trail, at))
            else {
                break;
            };
            if let reference::Item::Record {
                header,
                body,
                tokens,
                ..
            } = item
            {
                sum += place + usize::from(header.event) + body.len() + tokens;
            }
            at = place;
        }
        sum
    };
    let walked = reference::newest(trail).0;
    let count = walked.len().min(most);
    let start = walked[count - 1].0;
    Workload {
        name,
        bytes: trail.len() - start,
        count,
        source: &trail[start..],
        proved: Box::new(proved),
        plain: Box::new(plain),
    }
}

/// The places of the last `most` records of a trail, by reading all of it.
pub fn forward<'a>(name: &'static str, trail: &'a [u8], most: usize) -> Workload<'a> {
    let proved = move || {
        let mut last = Last::new(most);
        for item in bsm::Items::new(black_box(trail), bsm::State::default()) {
            let Ok((place, _)) = black_box(item) else {
                return 0;
            };
            last.push(place);
        }
        last.sum()
    };
    let plain = move || {
        let trail = black_box(trail);
        let mut last = Last::new(most);
        let mut place = 0;
        while let reference::Answer::Item(item) = black_box(reference::item_at(trail, place)) {
            last.push(place);
            place += item.size();
        }
        last.sum()
    };
    Workload {
        name,
        bytes: trail.len(),
        count: most,
        source: trail,
        proved: Box::new(proved),
        plain: Box::new(plain),
    }
}

/// The last places of many.
struct Last {
    most: usize,
    kept: VecDeque<usize>,
}

impl Last {
    fn new(most: usize) -> Self {
        let kept = VecDeque::with_capacity(most);
        Last { most, kept }
    }

    fn push(&mut self, place: usize) {
        if self.kept.len() == self.most {
            self.kept.pop_front();
        }
        self.kept.push_back(place);
    }

    fn sum(&self) -> usize {
        self.kept.iter().sum()
    }
}
