//! Texts placed in trails, for the tests of the byte that refusal 8 names
//! (paper 02, P1).

use bsm::{Header, HeaderKind, Reason, Refusal, State, Step};
use generator::{header_size, raw_file, raw_record};
use std::mem::replace;
use std::net::IpAddr;
use std::ops::Range;

/// The body tokens with a text, and the sizes of their fixed parts, which
/// end with the length.
pub const TOKENS: [(u8, usize); 4] = [(0x23, 3), (0x28, 3), (0x2D, 8), (0x71, 12)];

/// Lengths of texts with their zero byte.
pub fn lengths() -> impl Iterator<Item = usize> {
    let around = [
        62..=66,
        126..=130,
        142..=147,
        158..=161,
        191..=194,
        207..=210,
        255..=258,
    ];
    let largest = [1_022, 1_023, 1_024];
    (1..=41).chain(around.into_iter().flatten()).chain(largest)
}

/// A text of this length without a zero byte, then its zero byte. The fills
/// are bytes that a search for zero bytes could take for one.
pub fn text(fill: u8, length: usize) -> Vec<u8> {
    let mut text: Vec<u8> = match fill {
        0 => (0..length)
            .map(|at| [b'a', 1, 0x80, 0xFF][at % 4])
            .collect(),
        _ => vec![fill; length],
    };
    text[length - 1] = 0;
    text
}

/// A text in a trail whose first item is good, and so is all but the text.
pub struct Placed {
    pub trail: Vec<u8>,
    /// Where the second item starts, which has the text.
    pub item: usize,
    /// Its body and, in the body, the token; nothing for a file token.
    pub body: Option<(Range<usize>, usize)>,
    /// Where the text stands in the trail, its zero byte included.
    pub text: Range<usize>,
}

/// A file token with this length and name between two records.
pub fn in_file(length: usize, name: &[u8]) -> Placed {
    let around = record(0x14, b"");
    let file = raw_file(5, 7, length as u16, name);
    let item = around.len();
    Placed {
        trail: [&around[..], &file, &around].concat(),
        item,
        body: None,
        text: item + 11..item + 11 + name.len(),
    }
}

/// A token with this length and text behind and before good tokens, in a
/// record behind a file token.
pub fn in_record(number: u8, token: (u8, usize), around: [&[u8]; 2], text: &[u8]) -> Placed {
    let mut bytes = vec![token.0];
    bytes.resize(token.1 - 2, 0);
    bytes.extend((text.len() as u16).to_be_bytes());
    bytes.extend(text);
    let body = [around[0], &bytes, around[1]].concat();
    let file = raw_file(5, 7, 2, b"f\0");
    let item = file.len();
    let start = item + header_size(number);
    let at = start + around[0].len() + token.1;
    Placed {
        trail: [&file[..], &record(number, &body), &file].concat(),
        item,
        body: Some((start..start + body.len(), around[0].len())),
        text: at..at + text.len(),
    }
}

fn record(number: u8, body: &[u8]) -> Vec<u8> {
    let header = reference::Header {
        number,
        version: 11,
        event: 72,
        modifier: 0,
        address: &[],
        seconds: 1,
        nanoseconds: 2,
    };
    raw_record(&header, body)
}

/// What stands before and behind the token: nothing, or tokens of each
/// class.
pub const AROUND: [[&[u8]; 2]; 4] = [
    [b"", b""],
    [b"\x27\0\0\0\0\0", b""],
    [b"", b"\x28\0\x02t\0\x2C\0\0"],
    [b"\x23\0\x01\0\x3C\0\0\0\x01a\0", b"\x29\0\x01\0"],
];

/// Texts of this length in file names, in every token, with either header and
/// at every place of a body.
pub fn placed(text: &[u8]) -> Vec<Placed> {
    let mut all = Vec::new();
    for token in TOKENS {
        for around in AROUND {
            all.extend([0x14, 0x74].map(|number| in_record(number, token, around, text)));
        }
    }
    if text.len() <= 1_024 {
        all.push(in_file(text.len(), text));
    }
    all
}

pub fn bad_text(place: usize) -> Refusal {
    Refusal {
        reason: Reason::BadText,
        place,
        need: 0,
    }
}

impl Placed {
    /// Sets a byte of the trail and asserts that `place` is named; then the
    /// byte is as it was.
    pub fn with(&mut self, at: usize, byte: u8, place: usize) {
        let old = replace(&mut self.trail[at], byte);
        self.names(place);
        self.trail[at] = old;
    }

    /// Asserts that all that reads names the byte at a place of the trail.
    pub fn names(&self, place: usize) {
        let (trail, refusal) = (&self.trail[..], bad_text(place));
        assert_eq!(bsm::item_at(trail, self.item), Err(refusal));
        let run = bsm::run(trail, State::default());
        assert_eq!(run.refusal, Some(refusal));
        let (files, records) = match self.body {
            None => (0, 1),
            Some(_) => (1, 0),
        };
        let state = State::new(self.item, records, files);
        assert_eq!(run.state, state);
        assert_eq!(bsm::next(trail, state), (Step::Refused(refusal), state));
        let mut line = [0; 60];
        let size = bsm::last_line(&mut line, trail, state).expect("room");
        assert_eq!(line[..size], *format!("X\t8\t{place}\t0\n").as_bytes());
        assert_eq!(bsm::item_line(&mut line, trail, self.item), Err(refusal));
        if let Some((body, token)) = self.body.clone() {
            let from = body.start;
            names_in_body(&trail[body], token, place - from);
        }
    }

    /// Asserts that nothing is refused.
    pub fn is_good(&self) {
        let run = bsm::run(&self.trail, State::default());
        assert_eq!((run.refusal, run.state.place), (None, self.trail.len()));
        if let Some((body, _)) = self.body.clone() {
            assert!(bsm::walk_body(&self.trail[body]).is_ok());
        }
    }
}

/// The same for the token at `start` of a body, at a place of the body.
fn names_in_body(body: &[u8], start: usize, place: usize) {
    let refusal = bad_text(place);
    assert_eq!(bsm::token_at(body, start), Err(refusal));
    assert_eq!(bsm::text_at(body, start), None);
    assert_eq!(bsm::token_address_at(body, start), None);
    assert_eq!(bsm::walk_body(body), Err(refusal));
    assert_eq!(bsm::tokens(body).last(), Some(Err(refusal)));
    let host = IpAddr::from([192, 0, 2, 7]);
    for kind in [HeaderKind::Header32, HeaderKind::Header64] {
        let header = Header::new(kind);
        let mut dst = [0xA5; 50];
        let written = bsm::write_record(&mut dst, &header, body);
        assert_eq!((written, dst), (Err(refusal), [0xA5; 50]));
        let written = bsm::write_record_ex(&mut dst, &header, host, body);
        assert_eq!((written, dst), (Err(refusal), [0xA5; 50]));
    }
    // Places count from the start of the part that is handed on.
    let rest = &body[start..];
    let refusal = bad_text(place - start);
    assert_eq!(bsm::token_at(rest, 0), Err(refusal));
    assert_eq!(bsm::walk_body(rest), Err(refusal));
}
