//! Trails that grow between two reads (paper 01, 'Lists in demand 3').

use compare::*;
use generator::*;
use reference::{Answer, State};

#[test]
fn cut_at_every_byte() {
    let mut rng = Rng::new(501);
    let mut tally = Tally::new();
    while tally.inputs() < EVERY_BYTE {
        let (trail, first) = any_input(&mut rng);
        if trail.len() > 700 {
            continue;
        }
        let mut growing = Growing::new(&trail, first);
        for cut in 0..=trail.len() {
            growing.grown(&mut tally, &trail[..cut]);
        }
        growing.finish();
    }
    tally.finish("cut at every byte", EVERY_BYTE, READ_REFUSALS);
    tally.finish_ways("cut at every byte", &READ_WAYS);
    tally.finish_fault_ways("cut at every byte", &READ_FAULTS);
}

#[test]
fn random_steps() {
    let mut rng = Rng::new(502);
    let mut tally = Tally::new();
    while tally.inputs() < RANDOM_STEPS {
        let (trail, first) = any_input(&mut rng);
        let mut growing = Growing::new(&trail, first);
        for cut in growth(&mut rng, trail.len()) {
            growing.grown(&mut tally, &trail[..cut]);
        }
        growing.finish();
    }
    tally.finish("random steps", RANDOM_STEPS, READ_REFUSALS);
    tally.finish_texts("random steps", &SPOILT_ITEMS);
    tally.finish_faults("random steps", &ADDRESS_FAULTS);
    tally.finish_subjects("random steps");
}

#[test]
fn one_place_waits_at_most_twice() {
    let mut rng = Rng::new(503);
    let mut tally = Tally::new();
    let mut waits = [0; 3];
    while tally.inputs() < WAITS {
        let mut trail = any_input(&mut rng).0;
        let items = reference::reading(&trail, State::default()).0;
        let place = match rng.below(3) {
            0 => rng.between(0, trail.len()),
            _ if items.is_empty() => 0,
            _ => rng.pick(&items).0,
        };
        let mut cut = rng.between(place, trail.len().min(place + 14));
        let mut shorts = 0;
        while let Answer::Refused(short) = same_item(&mut tally, &trail[..cut], place) {
            if short.number != 1 {
                break;
            }
            shorts += 1;
            let enough = place + short.need;
            assert!(enough > cut && short.place == place);
            if trail.len() < enough {
                let more = rng.bytes(enough - trail.len());
                trail.extend(more);
            }
            // With fewer bytes than it needs, whatever they are.
            let few = rng.between(cut, enough - 1);
            let same = same_item(&mut tally, &trail[..few], place);
            assert_eq!(same, Answer::Refused(short));
            cut = match rng.below(2) {
                0 => enough,
                _ => rng.between(enough, trail.len()),
            };
        }
        assert!(shorts <= 2, "{shorts} waits at {place} of {}", show(&trail));
        waits[shorts] += 1;
    }
    println!("waits 0, 1, 2: {waits:?}");
    assert!(waits.iter().all(|&times| times >= 1_000));
    tally.finish("waits", WAITS, [1, 3, 4, 5, 6, 7, 8, 9, 13, 14]);
    tally.finish_ways("waits", &READ_WAYS);
    tally.finish_fault_ways("waits", &READ_FAULTS);
    tally.finish_addresses("waits", &EXPANDED_HEADERS);
}
