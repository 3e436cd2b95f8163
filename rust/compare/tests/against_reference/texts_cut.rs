//! A trail with a spoilt text, cut at each byte: 8 is the answer as soon as
//! the item is there, at the same byte, and whatever follows.

use crate::placed::*;
use bsm::{Reason, Refusal, State};
use generator::{header_size, Rng};

/// The answer at the second item, and that of the run over the trail.
fn answers(trail: &[u8], item: usize) -> [Option<Refusal>; 2] {
    let read = bsm::item_at(trail, item).err();
    [read, bsm::run(trail, State::default()).refusal]
}

/// Cuts the trail, whose second item is refused at `place` once `whole` of
/// its bytes are there, and says how many cuts there were.
fn cut_at_each_byte(rng: &mut Rng, placed: &Placed, whole: usize, place: usize) -> usize {
    let trail = &placed.trail[..];
    let refusal = Some(bad_text(place));
    for end in placed.item + 1..=trail.len() {
        let found = answers(&trail[..end], placed.item);
        let there = end - placed.item;
        if there >= whole {
            assert_eq!(found, [refusal, refusal], "{there} bytes");
            continue;
        }
        for short in found.map(|short| short.expect("not all is there")) {
            assert_eq!((short.reason, short.place), (Reason::Short, placed.item));
            assert!(there < short.need && short.need <= whole);
        }
    }
    // Other bytes behind the item.
    let mut other = trail[..placed.item + whole].to_vec();
    for _ in 0..12 {
        other.push(rng.pick(&[0, 1, 0x11, 0x14, 0xFF]));
        assert_eq!(answers(&other, placed.item), [refusal, refusal]);
    }
    trail.len() - placed.item
}

/// The bytes of the second item, which is good.
fn size_of(placed: &Placed) -> usize {
    let item = bsm::item_at(&placed.trail, placed.item);
    item.expect("accepted").expect("an item").size()
}

#[test]
fn each_byte_spoilt_and_each_byte_cut() {
    let mut rng = Rng::new(461);
    let mut cuts = 0;
    for length in (1..=20).chain([64, 145, 146]) {
        for mut placed in placed(&text(0, length)) {
            let whole = size_of(&placed);
            let last = placed.text.end - 1;
            let few = placed.text.clone().step_by(1 + length / 8);
            for at in few.chain([last]) {
                let byte = if at == last { 0x80 } else { 0 };
                let old = std::mem::replace(&mut placed.trail[at], byte);
                cuts += cut_at_each_byte(&mut rng, &placed, whole, at);
                placed.trail[at] = old;
            }
        }
    }
    println!("{cuts} cuts");
    assert!(cuts > 300_000);
}

/// A name's length is judged before the name is there; a token's with the
/// whole record.
#[test]
fn lengths_cut_at_each_byte() {
    let mut rng = Rng::new(462);
    let mut cuts = 0;
    for length in [0, 1_025, 65_535] {
        for name in [&b""[..], b"a\0", &text(0, 1_025)] {
            let placed = in_file(length, name);
            let place = placed.item + 9;
            cuts += cut_at_each_byte(&mut rng, &placed, 11, place);
        }
    }
    for placed in placed(b"").iter().filter(|placed| placed.body.is_some()) {
        let header = placed.trail[placed.item];
        let (body, _) = placed.body.clone().expect("a record");
        let whole = header_size(header) + body.len() + 7;
        let place = placed.text.start - 2;
        cuts += cut_at_each_byte(&mut rng, placed, whole, place);
    }
    println!("{cuts} cuts");
    assert!(cuts > 4_000);
}
