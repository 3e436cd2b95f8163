//! What stands before a place (paper 02, P3).

use generator::*;
use reference::{record_before, Before};
use std::collections::BTreeMap;

/// What the reference must answer where this stands before a place.
fn fits(ending: Ending, before: Before<'_>) -> bool {
    match before {
        Before::Refused(refusal) => ending == Ending::Beyond && refusal.number == 2,
        Before::Record { .. } => ending == Ending::Record,
        Before::Boundary { need: 0 } => !matches!(
            ending,
            Ending::Beyond | Ending::Few | Ending::FarCount | Ending::Record
        ),
        Before::Boundary { need: 7 } => ending == Ending::Few,
        Before::Boundary { need } => ending == Ending::FarCount && (8..=65_535).contains(&need),
    }
}

#[test]
fn each_is_met_where_it_is_aimed_at() {
    let mut rng = Rng::new(41);
    for aim in ENDINGS {
        let mut met = 0;
        for _ in 0..400 {
            let (trail, place) = with_ending(&mut rng, aim);
            let found = ending_at(&trail, place);
            met += usize::from(found == aim);
            let before = record_before(&trail, place);
            assert!(fits(found, before), "{found:?}: {before:?}");
        }
        println!("{aim:?}: {met} of 400");
        assert!(met >= 300, "{aim:?}: {met} of 400");
    }
}

#[test]
fn places_of_mixed_trails_meet_most_of_them() {
    let mut rng = Rng::new(42);
    let mut kinds: BTreeMap<Ending, usize> = BTreeMap::new();
    for _ in 0..8_000 {
        let (trail, _) = any_input(&mut rng);
        for place in 0..=trail.len().min(500) + 1 {
            *kinds.entry(ending_at(&trail, place)).or_insert(0) += 1;
        }
    }
    println!("{kinds:?}");
    for kind in ENDINGS {
        if !matches!(kind, Ending::FileToken | Ending::OtherSize) {
            assert!(kinds[&kind] >= 100, "{kind:?}: {}", kinds[&kind]);
        }
    }
}

/// Such a file token is good, and its last seven bytes are a trailer by all
/// but the count.
#[test]
fn names_that_end_like_a_trailer() {
    let mut rng = Rng::new(43);
    for _ in 0..1_000 {
        let file = file_like_trailer(&mut rng);
        let run = reference::run(&file, reference::State::default());
        assert_eq!((run.refusal, run.state.files), (None, 1));
        assert_eq!(ending_at(&file, file.len()), Ending::LargeCount);
    }
}
