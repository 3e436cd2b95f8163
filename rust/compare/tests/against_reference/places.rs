//! All prefixes and all places.

use compare::*;
use generator::*;
use reference::State;

/// A trail of at most `most` bytes.
fn short_trail(rng: &mut Rng, most: usize) -> Vec<u8> {
    loop {
        let trail = any_input(rng).0;
        if trail.len() <= most {
            return trail;
        }
    }
}

#[test]
fn all_prefixes() {
    let mut rng = Rng::new(201);
    let mut tally = Tally::new();
    while tally.inputs() < PREFIXES {
        let trail = short_trail(&mut rng, 900);
        for cut in 0..=trail.len() {
            let prefix = &trail[..cut];
            let run = same_run(&mut tally, prefix, State::default());
            same_step(prefix, State::default());
            // The item at which the run stopped.
            same_item(&mut Tally::new(), prefix, run.state.place);
        }
    }
    tally.finish("prefixes", PREFIXES, [1, 3, 4, 5, 6, 7, 8, 9, 13, 14]);
    tally.finish_texts("prefixes", &SPOILT_ITEMS);
    tally.finish_faults("prefixes", &ADDRESS_FAULTS);
}

#[test]
fn all_places() {
    let mut rng = Rng::new(202);
    let mut tally = Tally::new();
    while tally.inputs() < PLACES {
        let trail = short_trail(&mut rng, 400);
        for place in 0..=trail.len() + 2 {
            same_item(&mut tally, &trail, place);
            same_step(
                &trail,
                State {
                    place,
                    records: place / 2,
                    files: place.div_ceil(2) + usize::from(rng.chance(8)),
                },
            );
        }
        let wild = wild_place(&mut rng, trail.len());
        for place in [wild, usize::MAX, usize::MAX - 10, usize::MAX / 2] {
            same_item(&mut tally, &trail, place);
        }
    }
    tally.finish("places", PLACES, READ_REFUSALS);
    tally.finish_ways("places", &READ_WAYS);
    tally.finish_fault_ways("places", &READ_FAULTS);
    tally.finish_addresses("places", &EXPANDED_HEADERS);
}
