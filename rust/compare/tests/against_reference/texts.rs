//! The byte that refusal 8 names (paper 02, P1): each byte of a text is
//! spoilt in turn, and all that reads must name it, in the places that each
//! counts. What is expected comes from where the damage was done.

use crate::placed::*;
use generator::Rng;
use std::mem::replace;
use std::ops::Range;

/// Bytes that the last byte of a text must not be.
const NOT_ZERO: [u8; 4] = [1, b'z', 0x80, 0xFF];

/// Spoils each byte of the text in turn, and says how many it has.
fn each_byte(placed: &mut Placed) -> usize {
    placed.is_good();
    let last = placed.text.end - 1;
    for at in placed.text.start..last {
        placed.with(at, 0, at);
    }
    for byte in NOT_ZERO {
        placed.with(last, byte, last);
    }
    placed.is_good();
    placed.text.len()
}

#[test]
fn every_byte_of_a_text() {
    let (mut bytes, mut all) = (0, 0);
    for length in lengths() {
        let fills = match length {
            ..=161 => &[0, b'a', 1, 0x80][..],
            _ => &[0],
        };
        all += length * fills.len() * (TOKENS.len() * AROUND.len() * 2 + 1);
        for fill in fills {
            for mut placed in placed(&text(*fill, length)) {
                bytes += each_byte(&mut placed);
            }
        }
    }
    println!("{bytes} bytes spoilt one at a time");
    assert_eq!(bytes, all);
    assert!(bytes > 400_000);
}

/// Longer texts, which only tokens have.
#[test]
fn every_byte_of_a_long_text() {
    for length in [1_025, 3_000] {
        for token in TOKENS {
            let mut placed = in_record(0x14, token, AROUND[3], &text(0, length));
            assert_eq!(each_byte(&mut placed), length);
        }
    }
    let mut largest = in_record(0x14, TOKENS[0], AROUND[0], &text(0, 65_491));
    largest.is_good();
    for at in [0, 1, 40_000, 65_489].map(|at| largest.text.start + at) {
        largest.with(at, 0, at);
    }
    let last = largest.text.end - 1;
    largest.with(last, 1, last);
}

/// Of two spoilt bytes the first counts; the last byte of a text only where
/// no zero byte stands before it.
#[test]
fn two_bytes_of_a_text() {
    let mut rng = Rng::new(451);
    let mut pairs = 0;
    for length in lengths().filter(|&length| length > 1) {
        for mut placed in placed(&text(0, length)) {
            let Range { start, end } = placed.text;
            let all = (start..end).flat_map(|i| (i + 1..end).map(move |j| (i, j)));
            let some = (0..20).map(|_| {
                let j = rng.between(start + 1, end - 1);
                (rng.between(start, j - 1), j)
            });
            let chosen: Vec<_> = match length {
                ..=18 => all.collect(),
                _ => some.chain([(start, end - 1), (end - 2, end - 1)]).collect(),
            };
            for (first, second) in chosen {
                let old = replace(&mut placed.trail[first], 0);
                let byte = if second + 1 == end { 0xFF } else { 0 };
                placed.with(second, byte, first);
                placed.trail[first] = old;
                pairs += 1;
            }
        }
    }
    println!("{pairs} pairs of bytes");
    assert!(pairs > 50_000);
}

/// All bytes zero, or none.
#[test]
fn all_bytes_of_a_text() {
    for length in lengths() {
        let mut zeros = vec![0; length];
        for placed in placed(&zeros) {
            match length {
                1 => placed.is_good(),
                _ => placed.names(placed.text.start),
            }
        }
        zeros.fill(0x80);
        for placed in placed(&zeros) {
            placed.names(placed.text.end - 1);
        }
    }
}

/// A length of 0 is named at the length's first byte.
#[test]
fn no_byte_at_all() {
    let mut seen = 0;
    for placed in placed(b"") {
        placed.names(placed.text.start - 2);
        seen += 1;
    }
    // Whatever stands behind it.
    for name in [&b"\0"[..], b"a\0", b"abc"] {
        let placed = in_file(0, name);
        placed.names(placed.item + 9);
        seen += 1;
    }
    assert_eq!(seen, TOKENS.len() * AROUND.len() * 2 + 1 + 3);
}

/// So is a file name's length over 1,024, whatever the name's bytes and
/// however many there are.
#[test]
fn names_over_1_024_bytes() {
    in_file(1_024, &text(0, 1_024)).is_good();
    for length in (1_025..1_040).chain([1_279, 1_280, 2_047, 2_048, 0x8000, 65_535]) {
        let good = text(0, length);
        let mut early = good.clone();
        early[10] = 0;
        let mut open = good.clone();
        open[length - 1] = 1;
        for name in [&good[..], &early, &open, &good[..1_024], b"a\0", b""] {
            let placed = in_file(length, name);
            placed.names(placed.item + 9);
            let cut = &placed.trail[..placed.item + 11];
            assert_eq!(
                bsm::item_at(cut, placed.item),
                Err(bad_text(placed.item + 9))
            );
        }
    }
    // A token's text may be that long.
    let mut long = in_record(0x74, TOKENS[3], AROUND[1], &text(0, 1_025));
    assert_eq!(each_byte(&mut long), 1_025);
}
