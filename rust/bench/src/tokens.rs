//! All tokens of all bodies, with their fields.

use crate::workload::Workload;
use std::hint::black_box;

/// Reads each token of each body of a trail.
pub fn load<'a>(name: &'static str, trail: &'a [u8]) -> Workload<'a> {
    let bodies = bodies(trail);
    let others = bodies.clone();
    let bytes = bodies.iter().map(|body| body.len()).sum();
    let count = bodies
        .iter()
        .map(|body| reference::walk_body(body).unwrap_or(0))
        .sum();
    let proved = move || {
        let mut sum = 0;
        for body in &bodies {
            let body = black_box(*body);
            let mut place = 0;
            while let Ok(Some(found)) = bsm::token_at(body, place) {
                sum += place + usize::from(black_box(&found.token).number());
                place += found.size;
            }
        }
        sum
    };
    let plain = move || {
        let mut sum = 0;
        for body in &others {
            let body = black_box(*body);
            let mut place = 0;
            while let reference::TokenAnswer::Token { token, size, .. } =
                reference::token_at(body, place)
            {
                sum += place + usize::from(black_box(&token).number());
                place += size;
            }
        }
        sum
    };
    Workload {
        name,
        bytes,
        count,
        source: trail,
        proved: Box::new(proved),
        plain: Box::new(plain),
    }
}

/// The bodies of a trail's records.
pub fn bodies(trail: &[u8]) -> Vec<&[u8]> {
    let (items, _) = reference::reading(trail, reference::State::default());
    items
        .into_iter()
        .filter_map(|(_, item)| match item {
            reference::Item::Record { body, .. } => Some(body),
            reference::Item::File { .. } => None,
        })
        .collect()
}
