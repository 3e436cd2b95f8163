//! What `./soak` does with its seeds, on a few of them.

use compare::soak::{compare_seed, soak};
use compare::{EXPANDED_HEADERS, INDEXED, REASONS};
use generator::*;
use std::sync::atomic::{AtomicUsize, Ordering};

#[test]
fn a_few_seeds_meet_every_answer_and_kind() {
    let asked = AtomicUsize::new(0);
    let enough = || asked.fetch_add(1, Ordering::Relaxed) >= 1_500;
    let soaked = soak(901, 1, enough, compare_seed);
    assert_eq!((soaked.seeds, soaked.differs), (1_500, None));
    assert!(soaked.tally.answers().0 > 100);
    for number in REASONS.map(|reason| reason.number()) {
        assert!(soaked.tally.refused_times(number) > 100, "{number}");
    }
    for number in [&TOKEN_NUMBERS[..], &HEADER_NUMBERS, &[0x11]].concat() {
        assert!(soaked.tally.times(number) > 100, "{number:02X}");
    }
    let shown = soaked.to_string();
    for kind in ADDRESS_FAULTS.into_iter().chain(CALL_ADDRESS_FAULTS) {
        let times = soaked.tally.fault_times(kind);
        assert!(times > 100, "{kind:02X?} {times}");
        let line = format!("\n{times:>12}  {:02X} ", kind.0);
        assert!(shown.contains(&line), "{line}");
    }
    for number in EXPANDED_NUMBERS.into_iter().chain(EXPANDED_HEADERS) {
        for length in [4, 16] {
            let times = soaked.tally.address_times(number, length);
            assert!(times > 100, "{number:02X}, {length}: {times}");
            let line = format!("\n{times:>12}  {number:02X} ");
            assert!(shown.contains(&line), "{line}");
        }
    }
    for kind in SPOILT_ITEMS.into_iter().chain(SPOILT_CALLS) {
        let times = soaked.tally.spoilt_times(kind);
        assert!(times > 100, "{kind:02X?} {times}");
        let line = format!("\n{times:>12}  {:02X} ", kind.0);
        assert!(shown.contains(&line), "{line}");
    }
    for pair in SUBJECT_PAIRS {
        let times = soaked.tally.pair_times(14, pair);
        assert!(times > 100, "{pair:02X?} {times}");
        let line = format!("\n{times:>12}  {:02X} ", pair.1);
        assert!(shown.contains(&line), "{line}");
    }
    for number in [7, 13] {
        let times = soaked.tally.second_times(number);
        assert!(times > 100, "{number} {times}");
        assert!(shown.contains(&format!("\n{times:>12}  ")), "{number}");
    }
    for kind in LARGE_VERSIONS {
        let times = soaked.tally.version_times(kind);
        assert!(times > 100, "{kind:02X?} {times}");
        let line = format!("\n{times:>12}  {:02X} ", kind.0);
        assert!(shown.contains(&line), "{line}");
    }
    for kind in ENDINGS {
        let times = soaked.tally.ending_times(kind);
        assert!(times > 100, "{kind:?} {times}");
        assert!(shown.contains(&format!("\n{times:>12}  ")), "{kind:?}");
    }
    for kind in INDEXED {
        let times = soaked.tally.indexed_times(kind);
        assert!(times > 100, "{kind:?} {times}");
        assert!(shown.contains(&format!("\n{times:>12}  ")), "{kind:?}");
    }

    // The same seeds give the same inputs.
    let mut again = compare::Tally::new();
    (901..2_401).for_each(|seed| compare_seed(&mut again, seed));
    assert_eq!(again.inputs(), soaked.tally.inputs());
    assert_eq!(again.answers(), soaked.tally.answers());
}
