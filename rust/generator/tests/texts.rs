//! Trails that are refused with 8: every kind of text, every way to spoil it,
//! and every place in a record.

use generator::*;
use reference::*;
use std::collections::BTreeMap;
use std::fmt::Debug;

/// How a text is spoilt, from its bytes with the closing zero byte.
fn how(text: &[u8]) -> &'static str {
    let Some((last, before)) = text.split_last() else {
        return "length 0";
    };
    let early = before.iter().filter(|&&byte| byte == 0).count();
    match (early, *last) {
        (0, 0) => "good",
        (0, _) => "last byte",
        (1, 0) => "early zero",
        (_, 0) => "early zeros",
        _ => "early zero and last byte",
    }
}

/// The 2 bytes at `at` as a number.
fn length_at(bytes: &[u8], at: usize) -> usize {
    usize::from(bytes[at]) * 256 + usize::from(bytes[at + 1])
}

/// Where the bad text token stands among the tokens of a body.
fn where_in(body: &[u8], before: usize, end: usize) -> &'static str {
    match (before, end == body.len()) {
        (0, false) => "first",
        (0, true) => "only",
        (_, false) => "middle",
        (_, true) => "last",
    }
}

/// The token of a body that is refused with 8: its number, how its text is
/// spoilt, and where it stands.
fn bad_token(body: &[u8]) -> (u8, &'static str, &'static str) {
    let (mut at, mut before) = (0, 0);
    while let TokenAnswer::Token { size, .. } = token_at(body, at) {
        at += size;
        before += 1;
    }
    let text = match body[at] {
        0x23 | 0x28 => at + 3,
        0x2D => at + 8,
        0x71 => at + 12,
        number => panic!("{number:02X} has no text"),
    };
    let end = text + length_at(body, text - 2);
    (body[at], how(&body[text..end]), where_in(body, before, end))
}

const HOW: [&str; 5] = [
    "length 0",
    "last byte",
    "early zero",
    "early zeros",
    "early zero and last byte",
];

/// How often each came.
type Times<K> = BTreeMap<K, usize>;

/// Asserts that each of `kinds` came at least a hundred times.
fn often<K: Ord + Debug>(times: &Times<K>, kinds: impl IntoIterator<Item = K>) {
    for kind in kinds {
        let found = times.get(&kind).copied().unwrap_or(0);
        assert!(found >= 100, "{kind:02X?}: {found}");
    }
}

/// What came.
#[derive(Debug, Default)]
struct Seen {
    told: Times<(u8, Spoilt)>,
    tokens: Times<(u8, &'static str)>,
    places: Times<(u8, &'static str)>,
    names: Times<&'static str>,
    lengths: Times<usize>,
}

impl Seen {
    /// Counts the file token that a trail begins with.
    fn file(&mut self, trail: &[u8]) {
        let length = length_at(trail, 9);
        *self.lengths.entry(length).or_insert(0) += 1;
        if length <= 1_024 {
            let name = &trail[11..11 + length];
            *self.names.entry(how(name)).or_insert(0) += 1;
        }
    }

    /// Counts the record that a trail begins with.
    fn record(&mut self, trail: &[u8]) {
        let end = length_at(trail, 3) - 7;
        let (number, how, place) = bad_token(&trail[head_size(trail)..end]);
        *self.tokens.entry((number, how)).or_insert(0) += 1;
        *self.places.entry((trail[0], place)).or_insert(0) += 1;
    }
}

#[test]
fn spoilt_texts_of_every_kind() {
    let mut rng = Rng::new(21);
    let mut seen = Seen::default();
    for _ in 0..30_000 {
        let (trail, state) = targeted(&mut rng, 8);
        let run = run(&trail, state);
        let start = run.state.place;
        let Some(refusal) = run.refusal.filter(|refusal| refusal.number == 8) else {
            continue;
        };
        let kind = spoilt_item(&trail, start, refusal.place);
        *seen.told.entry(kind).or_insert(0) += 1;
        match trail[start] {
            0x11 => seen.file(&trail[start..]),
            _ => seen.record(&trail[start..]),
        }
    }
    println!("{:02X?}", (&seen.told, &seen.tokens, &seen.places));
    let each = |number| HOW.map(|how| (number, how));
    often(&seen.tokens, TEXT_NUMBERS.into_iter().flat_map(each));
    for header in HEADER_NUMBERS {
        let places = ["first", "middle", "last", "only"];
        often(&seen.places, places.map(|place| (header, place)));
    }
    often(&seen.names, HOW);
    often(&seen.lengths, [0, 1_024, 1_025, 65_535]);
    often(&seen.told, SPOILT_ITEMS);
    let kinds = (seen.tokens.len(), seen.names.len(), seen.told.len());
    assert_eq!(kinds, (20, 5, 16));
}
