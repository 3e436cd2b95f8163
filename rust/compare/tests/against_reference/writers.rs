//! Writers with destinations of every size around the needed one.

use compare::*;
use generator::*;

#[test]
fn destinations_around_the_needed_size() {
    let mut rng = Rng::new(401);
    let mut tally = Tally::new();
    while tally.inputs() < WRITES {
        for call in write_calls(&mut rng) {
            let need = call.args.size();
            let larger = need + rng.between(3, 300);
            let rooms = (need.saturating_sub(2)..=need + 2).chain([0, larger, call.room]);
            let answers: Vec<_> = rooms
                .map(|room| (room, same_write(&mut tally, &mut rng, &call.args, room)))
                .collect();
            // Without too small a room the answer does not depend on it.
            let large = answers[4].1;
            for (room, answer) in answers {
                match large {
                    Ok(size) if room < size => {
                        assert_eq!(answer.map_err(|refusal| refusal.number), Err(10));
                    }
                    _ => assert_eq!(answer, large, "{:?} into {room}", call.args),
                }
            }
        }
    }
    tally.finish("writers", WRITES, [4, 6, 7, 8, 9, 10, 11, 13, 14]);
    tally.finish_texts("writers", &SPOILT_CALLS);
    tally.finish_faults("writers", &CALL_ADDRESS_FAULTS);
    tally.finish_addresses("writers", &EXPANDED_NUMBERS);
    tally.finish_addresses("writers", &EXPANDED_HEADERS);
    tally.finish_subjects("writers");
    tally.finish_versions("writers");
    tally.finish_kinds("writers");
}

/// Bodies of every kind in records with each header, and bad ones whose
/// answer is the walk's, whatever the room.
#[test]
fn bodies_given_to_the_record_writers() {
    let mut rng = Rng::new(402);
    let mut tally = Tally::new();
    while tally.inputs() < RECORDS {
        let (header, body) = (good_header(&mut rng), any_body(&mut rng));
        let walked = reference::walk_body(&body);
        let args = WriteArgs::Record { header, body };
        for room in [0, args.size(), args.size() + 9] {
            let answer = same_write(&mut tally, &mut rng, &args, room);
            match walked {
                Ok(_) if room > 0 => assert_eq!(answer, Ok(args.size())),
                Ok(_) => assert_eq!(answer.map_err(|refusal| refusal.number), Err(10)),
                Err(refusal) => assert_eq!(answer, Err(refusal)),
            }
        }
    }
    tally.finish("record writers", RECORDS, [6, 7, 8, 10, 13, 14]);
    tally.finish_texts("record writers", SPOILT_BODIES);
    tally.finish_faults("record writers", BODY_ADDRESS_FAULTS);
    tally.finish_subjects("record writers");
    tally.finish_addresses("record writers", &EXPANDED_HEADERS);
}
