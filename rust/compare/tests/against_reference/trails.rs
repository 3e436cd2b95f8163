//! Whole trails, from fresh and from wild states.

use compare::*;
use generator::*;
use reference::State;
use std::net::IpAddr;

/// Compares all that reads a trail from a state.
fn same_reading(tally: &mut Tally, trail: &[u8], state: State) -> reference::Run {
    let run = same_run(tally, trail, state);
    same_step(trail, state);
    same_items(trail, state);
    run
}

#[test]
fn mixed_trails() {
    let mut rng = Rng::new(101);
    let mut tally = Tally::new();
    while tally.inputs() < MIXED {
        let (trail, state) = any_input(&mut rng);
        same_reading(&mut tally, &trail, state);
    }
    tally.finish("mixed trails", MIXED, READ_REFUSALS);
    tally.finish_texts("mixed trails", &SPOILT_ITEMS);
    tally.finish_faults("mixed trails", &ADDRESS_FAULTS);
    tally.finish_subjects("mixed trails");
}

#[test]
fn good_trails_are_accepted_and_written_again() {
    let mut rng = Rng::new(102);
    let mut tally = Tally::new();
    while tally.inputs() < GOOD {
        let trail = good_trail(&mut rng, 4);
        let run = same_reading(&mut tally, &trail, State::default());
        assert_eq!((run.refusal, run.state.place), (None, trail.len()));
        let mut again = vec![0; trail.len()];
        let mut used = 0;
        for item in bsm::Items::new(&trail, bsm::State::default()) {
            let (place, item) = item.expect("a good trail has no refusal");
            assert_eq!(place, used);
            let address = bsm::address_at(&trail, place);
            used += rewritten(&mut tally, &mut again[used..], &item, address);
        }
        assert_eq!((used, again), (trail.len(), trail));
    }
    tally.finish("good trails", GOOD, []);
    tally.finish_kinds("good trails");
    tally.finish_addresses("good trails", &EXPANDED_HEADERS);
}

/// Writes an item from what was read of it, and of the address in its header,
/// its body token by token.
fn rewritten(
    tally: &mut Tally,
    dst: &mut [u8],
    item: &bsm::Item<'_>,
    address: Option<IpAddr>,
) -> usize {
    let written = match *item {
        bsm::Item::File {
            seconds,
            microseconds,
            name,
            ..
        } => bsm::write_file(dst, seconds, microseconds, name),
        bsm::Item::Record {
            ref header,
            body,
            tokens,
            ..
        } => {
            if let Some(address) = address {
                let length = if address.is_ipv4() { 4 } else { 16 };
                tally.address(header.kind.number(), length);
            }
            let mut again = vec![0; body.len()];
            let mut used = 0;
            let mut count = 0;
            let mut read = bsm::tokens(body);
            loop {
                let place = read.place();
                let Some(token) = read.next() else {
                    break;
                };
                let token = token.expect("a record's body has no refusal");
                tally.kind(token.number());
                let mut groups = Vec::new();
                let new = token.map(
                    |read| {
                        groups.extend(read);
                        &groups[..]
                    },
                    |()| bsm::token_address_at(body, place).expect("it is expanded"),
                );
                used += bsm::write_token(&mut again[used..], &new).expect("it was read");
                count += 1;
            }
            assert_eq!((used, again, count), (body.len(), body.to_vec(), tokens));
            match address {
                None => bsm::write_record(dst, header, body),
                Some(address) => bsm::write_record_ex(dst, header, address, body),
            }
        }
    };
    assert_eq!(written, Ok(item.size()));
    item.size()
}

#[test]
fn damaged_trails() {
    let mut rng = Rng::new(103);
    let mut tally = Tally::new();
    while tally.inputs() < DAMAGED {
        let mut trail = good_trail(&mut rng, 3);
        damage(&mut rng, &mut trail);
        same_reading(&mut tally, &trail, State::default());
    }
    tally.finish("damaged trails", DAMAGED, [1, 3, 4, 5, 6, 7, 8, 9, 13, 14]);
    tally.finish_ways("damaged trails", &READ_WAYS);
}

#[test]
fn trails_aimed_at_each_refusal() {
    let mut rng = Rng::new(104);
    let mut tally = Tally::new();
    while tally.inputs() < AIMED {
        for number in READ_REFUSALS {
            let (trail, state) = targeted(&mut rng, number);
            same_reading(&mut tally, &trail, state);
        }
        let trail = many_faults(&mut rng);
        same_reading(&mut tally, &trail, State::default());
    }
    tally.finish("aimed trails", AIMED, READ_REFUSALS);
    tally.finish_texts("aimed trails", &SPOILT_ITEMS);
    tally.finish_faults("aimed trails", &ADDRESS_FAULTS);
    tally.finish_subjects("aimed trails");
}

#[test]
fn wild_states() {
    let mut rng = Rng::new(105);
    let mut tally = Tally::new();
    let mut trail = Vec::new();
    while tally.inputs() < STATES {
        if tally.inputs().is_multiple_of(16) {
            trail = any_input(&mut rng).0;
        }
        let state = wild_state(&mut rng, trail.len());
        same_reading(&mut tally, &trail, state);
    }
    tally.finish("wild states", STATES, [1, 2, 3]);
}
