//! Steps back and walks from a trail's end (paper 02, P3).

use compare::*;
use generator::*;
use reference::{write_record, Before, Item};

/// A trail of at most 400 bytes.
fn small_trail(rng: &mut Rng) -> Vec<u8> {
    loop {
        let aim = rng.pick(&ENDINGS);
        let trail = match rng.below(4) {
            0 => any_input(rng).0,
            1 => good_trail(rng, 4),
            _ => with_ending(rng, aim).0,
        };
        if trail.len() <= 400 {
            return trail;
        }
    }
}

#[test]
fn each_place_of_small_trails() {
    let mut rng = Rng::new(701);
    let mut tally = Tally::new();
    while tally.inputs() < STEPS_BACK {
        let trail = small_trail(&mut rng);
        for place in 0..=trail.len() + 2 {
            same_before(&mut tally, &trail, place);
        }
        for place in [usize::MAX, usize::MAX - 6, usize::MAX / 2] {
            same_before(&mut tally, &trail, place);
        }
    }
    tally.finish("steps back", STEPS_BACK, [2]);
    tally.finish_endings("steps back");
    tally.finish_addresses("steps back", &EXPANDED_HEADERS);
}

#[test]
fn aimed_at_each_answer_and_with_other_bytes_around() {
    let mut rng = Rng::new(702);
    let mut tally = Tally::new();
    while tally.inputs() < AIMED_BACK {
        for aim in ENDINGS {
            let (trail, place) = with_ending(&mut rng, aim);
            same_before(&mut tally, &trail, place);
            same_newest(&trail);
            for _ in 0..3 {
                same_around(&mut tally, &mut rng, &trail, place);
            }
        }
    }
    tally.finish("aimed steps back", AIMED_BACK, [2]);
    tally.finish_endings("aimed steps back");
    tally.finish_addresses("aimed steps back", &EXPANDED_HEADERS);
}

/// Whole trails, with file tokens and without, and with what is damaged in
/// them or behind them.
#[test]
fn walks_from_the_end() {
    let mut rng = Rng::new(703);
    let (mut files, mut none, mut walked) = (0, 0, 0);
    for _ in 0..WALKS {
        let mut trail = good_trail(&mut rng, 6);
        same_newest(&trail);
        let run = reference::run(&trail, reference::State::default());
        if run.state.files > 0 {
            files += 1;
        } else {
            none += 1;
        }
        walked += reference::newest(&trail).0.len();
        damage(&mut rng, &mut trail);
        same_newest(&trail);
    }
    println!("walks: {files} with file tokens, {none} without, {walked} records");
    assert!(files > WALKS / 10 && none > WALKS / 10 && walked > WALKS);
}

/// Opaque tokens that hold trailers and whole records: the walk sees only the
/// record around, a step from inside finds what ends there.
#[test]
fn trailers_in_opaques() {
    let mut rng = Rng::new(704);
    let mut inside = 0;
    for _ in 0..5_000 {
        let mut held = good_record(&mut rng);
        if held.len() > 2_000 {
            continue;
        }
        if rng.chance(3) {
            held = held.split_off(held.len() - 7);
        }
        let header = good_header(&mut rng);
        let mut body = vec![0x29];
        body.extend((held.len() as u16).to_be_bytes());
        body.extend(&held);
        let mut record = vec![0; header.size() + body.len() + 7];
        write_record(&mut record, &header.header(), &body).expect("room enough");
        let trail = [good_record(&mut rng), record.clone()].concat();
        let start = trail.len() - record.len();

        same_newest(&trail);
        let places: Vec<usize> = bsm::Newest::new(&trail).map(|found| found.0).collect();
        assert_eq!(places, [start, 0]);
        let mut tally = Tally::new();
        for place in start + 1..trail.len() {
            if let Before::Record { place: at, .. } = same_before(&mut tally, &trail, place) {
                // The record around has another size.
                assert_ne!(at, start);
                inside += usize::from(at > start);
            }
        }
    }
    assert!(inside > 1_000, "{inside}");
}

/// The file token with this name, microseconds and a record before it.
fn behind_record(rng: &mut Rng, micros: u32, name: &[u8]) -> (Vec<u8>, usize) {
    let mut file = vec![0; 12 + name.len()];
    reference::write_file(&mut file, rng.u32(), micros, name).expect("a good file token");
    let mut trail = good_record(rng);
    trail.extend(file);
    let place = trail.len();
    (trail, place)
}

/// No file token's end passes for a record's: names of up to six bytes that
/// are near the bytes of a trailer, with microseconds that are, too.
#[test]
fn names_near_a_trailer() {
    let mut rng = Rng::new(705);
    let mut tally = Tally::new();
    let letters = [0x13, 0xB1, 0x05, 0x01, 0xFF];
    let micros = [0, 999_999, 0x13, 0x13B1, 0x0F_13B1, 0x0B_B105, 0x05_13B1];
    for length in 0..=6_u32 {
        for code in 0..5_usize.pow(length) {
            let name: Vec<u8> = (0..length)
                .map(|at| letters[code / 5_usize.pow(at) % 5])
                .collect();
            let micros = rng.pick(&micros);
            let (trail, place) = behind_record(&mut rng, micros, &name);
            let before = same_before(&mut tally, &trail, place);
            assert_eq!(before, Before::Boundary { need: 0 }, "{name:02X?}");
            same_newest(&trail);
        }
    }
    for _ in 0..5_000 {
        let file = file_like_trailer(&mut rng);
        let trail = [good_trail(&mut rng, 2), file].concat();
        let before = same_before(&mut tally, &trail, trail.len());
        assert_eq!(before, Before::Boundary { need: 0 });
        same_newest(&trail);
    }
    assert!(tally.ending_times(Ending::LargeCount) >= 5_000);
}

/// A record's fields by the step back are those of reading it forward.
#[test]
fn the_same_fields_as_forward() {
    let mut rng = Rng::new(706);
    let mut records = 0;
    for _ in 0..2_000 {
        let trail = good_trail(&mut rng, 5);
        for (place, item) in bsm::Items::new(&trail, bsm::State::default()).map(Result::unwrap) {
            let found = bsm::record_before(&trail, place + item.size());
            match item {
                bsm::Item::File { .. } => {
                    assert_eq!(found, Ok(bsm::Before::Boundary { need: 0 }));
                }
                bsm::Item::Record { .. } => {
                    assert_eq!(found, Ok(bsm::Before::Record { place, item }));
                    records += 1;
                }
            }
        }
        let plain: Vec<(usize, Item<'_>)> = reference::newest(&trail).0;
        assert_eq!(bsm::Newest::new(&trail).count(), plain.len());
    }
    assert!(records > 5_000, "{records}");
}
