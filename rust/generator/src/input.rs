//! Mixed inputs, states, and lengths at which a trail is read while it
//! grows.

use crate::damage::{damage, damage_body};
use crate::expanded::any_address_fault;
use crate::good::{good_body, good_record, good_trail};
use crate::layout::{is_expanded, TOKEN_NUMBERS};
use crate::rng::Rng;
use crate::targeted::{bad_body, many_faults, targeted, READ_REFUSALS};
use reference::State;

/// A small buffer of random bytes that likely begins like an item.
pub fn random_trail(rng: &mut Rng) -> Vec<u8> {
    let bound = rng.pick(&[4, 12, 30, 70]);
    let length = rng.below(bound);
    let mut bytes = rng.bytes(length);
    if let Some(first) = bytes.first_mut() {
        *first = rng.pick(&[0x11, 0x14, 0x74, 0x15, 0x79, *first]);
    }
    if length > 11 && rng.chance(2) {
        // Sizes small enough to fit now and then.
        match bytes[0] {
            0x11 => {
                bytes[5..9].copy_from_slice(&[0; 4]);
                bytes[9] = 0;
                bytes[10] = rng.below(length) as u8;
            }
            _ => {
                bytes[1..4].copy_from_slice(&[0; 3]);
                bytes[4] = rng.between(24, 60) as u8;
                if length > 13 && is_expanded(bytes[0]) {
                    bytes[10..13].copy_from_slice(&[0; 3]);
                    bytes[13] = rng.pick(&[4, 16, bytes[13]]);
                }
            }
        }
    }
    bytes
}

/// A place in or near a buffer of this length, or a wild one.
pub fn wild_place(rng: &mut Rng, length: usize) -> usize {
    match rng.below(8) {
        0 => length,
        1 => length.saturating_add(1),
        2 => length.saturating_sub(1),
        3 => rng.u64() as usize,
        4 => 0,
        _ => rng.below(length.saturating_add(1)),
    }
}

/// A state for a trail of this length: fresh, sensible, or with a wild
/// place and wild totals, whose sum may overflow.
pub fn wild_state(rng: &mut Rng, trail_len: usize) -> State {
    let place = wild_place(rng, trail_len);
    let (records, files) = match rng.below(8) {
        0 => return State::default(),
        1 => (0, 0),
        2 => {
            let records = rng.below(place.saturating_add(1));
            (records, rng.below((place - records).saturating_add(1)))
        }
        3 => {
            // The sum is the place, or one more.
            let records = rng.below(place.saturating_add(1));
            let files = (place - records).saturating_add(rng.below(2));
            (records, files)
        }
        4 => (rng.below(4), rng.below(4)),
        5 => (usize::MAX - rng.below(3), rng.below(4)),
        6 => (rng.u64() as usize, rng.u64() as usize),
        // Half of the range each, so that the sum just overflows.
        _ => (usize::MAX / 2 + 1, usize::MAX / 2 + rng.below(3)),
    };
    State {
        place,
        records,
        files,
    }
}

/// A trail of any kind, and a state to read it from, mostly fresh.
pub fn any_input(rng: &mut Rng) -> (Vec<u8>, State) {
    let items = rng.pick(&[1, 1, 2, 3, 6]);
    let trail = match rng.below(32) {
        0..=2 => good_trail(rng, items),
        3..=9 => {
            let mut trail = good_trail(rng, items);
            damage(rng, &mut trail);
            trail
        }
        10..=14 => {
            let number = rng.pick(&READ_REFUSALS);
            return targeted(rng, number);
        }
        // 8 comes in many kinds, and so does 14.
        20..=23 => return targeted(rng, 8),
        28..=31 => return targeted(rng, 14),
        way @ (15..=17 | 24..=27) => {
            let mut trail = good_trail(rng, items / 2);
            trail.extend(match way {
                15..=17 => many_faults(rng),
                // So do faults of addresses.
                _ => any_address_fault(rng),
            });
            if rng.chance(2) {
                trail.extend(good_record(rng));
            }
            trail
        }
        _ => random_trail(rng),
    };
    let state = if rng.chance(4) {
        wild_state(rng, trail.len())
    } else {
        State::default()
    };
    (trail, state)
}

/// A body of any kind for the token reader.
pub fn any_body(rng: &mut Rng) -> Vec<u8> {
    let mut body = good_body(rng);
    match rng.below(11) {
        0 => {}
        1 => {
            let length = rng.below(50);
            body = rng.bytes(length);
            if let Some(first) = body.first_mut() {
                *first = rng.pick(&TOKEN_NUMBERS);
            }
        }
        2..=7 => {
            let number = rng.pick(&[6, 7, 7, 8, 8, 13, 14]);
            body = bad_body(rng, number);
        }
        _ => damage_body(rng, &mut body),
    }
    body
}

/// Rising lengths, the last one `length`, for reading a growing trail.
/// Neighbours may be equal.
pub fn growth(rng: &mut Rng, length: usize) -> Vec<usize> {
    let mut cuts: Vec<usize> = (0..rng.below(6)).map(|_| rng.between(0, length)).collect();
    cuts.sort_unstable();
    cuts.push(length);
    cuts
}

/// Input for the program; some of it just below, at or above the program's
/// bound of 65,536 bytes.
pub fn program_input(rng: &mut Rng) -> Vec<u8> {
    let mut input = any_input(rng).0;
    if rng.chance(4) {
        let length = rng.pick(&[65_535, 65_536, 65_537, 70_000]);
        while input.len() < length {
            input.extend(good_trail(rng, 40));
        }
        input.truncate(length);
    }
    input
}
