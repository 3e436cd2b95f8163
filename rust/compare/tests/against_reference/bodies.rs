//! Body tokens at all places, text access and the walk.

use compare::*;
use generator::*;

#[test]
fn tokens_at_all_places() {
    let mut rng = Rng::new(301);
    let mut tally = Tally::new();
    while tally.inputs() < BODIES {
        let body = any_body(&mut rng);
        same_body(&mut tally, &body);
        if body.len() > 1_000 {
            continue;
        }
        for place in 0..=body.len() + 2 {
            same_token(&mut tally, &body, place);
        }
        let wild = wild_place(&mut rng, body.len());
        for place in [wild, usize::MAX, usize::MAX - 3] {
            same_token(&mut tally, &body, place);
        }
    }
    tally.finish("bodies", BODIES, [2, 6, 7, 8, 13, 14]);
    tally.finish_texts("bodies", SPOILT_BODIES);
    tally.finish_faults("bodies", BODY_ADDRESS_FAULTS);
    tally.finish_addresses("bodies", &EXPANDED_NUMBERS);
    tally.finish_kinds("bodies");
}

/// Bodies longer than any record's, which the token reader takes too. Their
/// last token but one may be a second subject.
#[test]
fn large_bodies() {
    let mut rng = Rng::new(302);
    let mut tally = Tally::new();
    for _ in 0..30 {
        let mut body = Vec::new();
        while body.len() < 150_000 {
            let size = rng.below(70_000) as u16;
            body.push(0x29);
            body.extend(size.to_be_bytes());
            body.extend(rng.bytes(size.into()));
            let more = [&body[..], &good_body(&mut rng)].concat();
            if reference::walk_body(&more).is_ok() {
                body = more;
            }
        }
        same_body(&mut tally, &body);
        let pair = rng.pick(&SUBJECT_PAIRS);
        body.extend(two_subjects(&mut rng, pair, Second::Nothing));
        same_body(&mut tally, &body);
        for _ in 0..20 {
            let place = wild_place(&mut rng, body.len());
            same_token(&mut tally, &body, place);
        }
    }
    assert!(tally.inputs() >= 660);
    assert_eq!(tally.refused_times(14), 30);
}
