//! Lines of the listing, and the listing in parts.

use bsm::{Cursor, LINE_MAX};
use compare::*;
use generator::*;

#[test]
fn lines() {
    let mut rng = Rng::new(601);
    let mut tally = Tally::new();
    while tally.inputs() < LINES {
        let (trail, from) = any_input(&mut rng);
        same_lines(&mut tally, &mut rng, &trail, from);
    }
    tally.finish("lines", LINES, READ_REFUSALS.into_iter().chain([10]));
}

#[test]
fn parts_join_to_the_listing() {
    let mut rng = Rng::new(602);
    let mut tally = Tally::new();
    while tally.inputs() < PARTS {
        let (mut trail, from) = any_input(&mut rng);
        if rng.chance(4) {
            trail = good_trail(&mut rng, 30);
        }
        let cursor = rng.pick(&[Cursor::First, Cursor::First, Cursor::At(state(from))]);
        let most = rng.pick(&[LINE_MAX, LINE_MAX + 60, 600]);
        let whole = same_parts(&mut tally, &mut rng, &trail, cursor, |rng| {
            rng.between(LINE_MAX, most)
        });
        assert!(whole);
    }
    tally.finish("parts", PARTS, []);
}

#[test]
fn rooms_too_small_for_a_line() {
    let mut rng = Rng::new(603);
    let mut tally = Tally::new();
    let mut stuck = 0;
    for _ in 0..20_000 {
        let (trail, from) = any_input(&mut rng);
        let cursor = rng.pick(&[Cursor::First, Cursor::At(state(from))]);
        let most = rng.pick(&[12, 30, 60, LINE_MAX]);
        let whole = same_parts(&mut tally, &mut rng, &trail, cursor, |rng| rng.below(most));
        stuck += usize::from(!whole);
    }
    assert!(stuck > 5_000 && stuck < 19_000, "{stuck}");
}

/// A record whose line is the longest that a trail can give, but for its
/// place: 65,535 bytes and 21,834 tokens.
fn record_with_long_line() -> Vec<u8> {
    let body = b"\x29\0\0".repeat(21_834);
    let header = reference::Header {
        number: 0x74,
        version: 255,
        event: u16::MAX,
        modifier: u16::MAX,
        address: &[],
        seconds: u64::MAX,
        nanoseconds: 999_999_999,
    };
    raw_record(&header, &body)
}

/// The bound counts seven numbers of twenty digits. A trail has fewer than
/// 2^63 bytes, so that its longest line is in fact shorter.
#[test]
fn longest_lines() {
    let record = record_with_long_line();
    assert_eq!(record.len(), 65_535);
    let place = 100_000_000;
    let mut trail = vec![0; place];
    trail.extend(record);
    let mut out = [0; LINE_MAX];
    let size = bsm::item_line(&mut out, &trail, place).expect("it fits");
    assert_eq!(
        &out[..size],
        b"R\t100000000\t65535\t65535\t65535\t18446744073709551615\t999999999\t21834\n"
    );
    let longest = size - 9 + isize::MAX.to_string().len();
    assert_eq!(longest, 77);
    assert!(longest <= LINE_MAX);

    // The last line names the place that was asked for.
    let far = bsm::State::new(usize::MAX, 0, 0);
    let size = bsm::last_line(&mut out, b"", far).expect("it fits");
    assert_eq!(&out[..size], b"X\t2\t18446744073709551615\t0\n");
    assert_eq!(LINE_MAX, 149);
}

#[test]
fn room_for_no_line_leaves_all_as_it_was() {
    let trail = b"\x11\0\0\0\x05\0\0\0\x07\0\x02a\0";
    let line = b"F\t0\t13\t5\t7\n";
    let behind = bsm::State::new(13, 0, 1);
    for (cursor, size) in [
        (Cursor::First, 10),
        (Cursor::At(bsm::State::default()), line.len()),
        (Cursor::At(behind), 6),
        (Cursor::At(bsm::State::new(7, 8, 9)), 8),
    ] {
        for room in 0..size {
            let mut out = [0xA5; LINE_MAX];
            let listed = bsm::list(&mut out[..room], trail, cursor);
            assert_eq!((listed.written, listed.cursor), (0, cursor));
            assert_eq!(out, [0xA5; LINE_MAX]);
        }
        let listed = bsm::list(&mut [0; LINE_MAX][..size], trail, cursor);
        assert_eq!(listed.written, size);
        assert_ne!(listed.cursor, cursor);
    }
}

#[test]
fn no_line_where_no_item_stands() {
    let trail = b"\x11\0\0\0\x05\0\0\0\x07\0\x02a\0\x14";
    for room in [0, 1, LINE_MAX] {
        let mut out = [0xA5; LINE_MAX];
        let dst = &mut out[..room];
        assert_eq!(bsm::item_line(dst, &trail[..13], 13), Ok(0));
        for place in [1, 13, 15, usize::MAX] {
            let refused = bsm::item_at(trail, place).unwrap_err();
            assert_eq!(bsm::item_line(dst, trail, place), Err(refused));
        }
        assert_eq!(out, [0xA5; LINE_MAX]);
    }
}
