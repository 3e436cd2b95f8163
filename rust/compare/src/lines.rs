//! Lines of the listing, and the listing in parts, on both sides.

use crate::expect;
use crate::reading::show;
use crate::tally::Tally;
use crate::writing::Watched;
use bsm::{Cursor, Listed, LINE_MAX};
use generator::{wild_place, Rng};
use reference::{Answer, Refusal, State};

/// Compares a line written on both sides into a destination of `room` bytes.
fn same_line(
    tally: &mut Tally,
    rng: &mut Rng,
    room: usize,
    proved: impl Fn(&mut [u8]) -> Result<usize, bsm::Refusal>,
    plain: impl Fn(&mut [u8]) -> Result<usize, Refusal>,
) {
    tally.input();
    let mut watched = Watched::new(rng, room);
    let mut other = watched.clone();
    let expected = plain(other.dst());
    let found = proved(watched.dst());
    assert_eq!(found, expected.map_err(expect::refusal));
    tally.answer(expected.err());
    let written = watched.written(found.unwrap_or(0));
    assert_eq!(written, other.written(expected.unwrap_or(0)));
}

/// The line of the item at a place, or what stands there instead.
fn plain_item_line(dst: &mut [u8], trail: &[u8], place: usize) -> Result<usize, Refusal> {
    match reference::item_at(trail, place) {
        Answer::Item(item) => reference::item_line(dst, place, &item),
        Answer::End => Ok(0),
        Answer::Refused(refusal) => Err(refusal),
    }
}

/// Compares the first line, the line at a place of a trail, mostly an item's,
/// and the last line of the run from a state, each into several rooms.
pub fn same_lines(tally: &mut Tally, rng: &mut Rng, trail: &[u8], from: State) {
    let room = rng.below(13);
    same_line(tally, rng, room, bsm::first_line, reference::first_line);

    let places = reference::reading(trail, State::default()).0;
    let place = match rng.below(3) {
        0 => wild_place(rng, trail.len()),
        _ if places.is_empty() => 0,
        _ => rng.pick(&places).0,
    };
    let size = plain_item_line(&mut [0; LINE_MAX], trail, place).unwrap_or(20);
    for room in rooms(rng, size) {
        same_line(
            tally,
            rng,
            room,
            |dst| bsm::item_line(dst, trail, place),
            |dst| plain_item_line(dst, trail, place),
        );
    }

    let plain = reference::run(trail, from);
    let size = reference::last_line(&mut [0; LINE_MAX], &plain).unwrap_or(0);
    assert!(size > 0);
    for room in rooms(rng, size) {
        same_line(
            tally,
            rng,
            room,
            |dst| bsm::last_line(dst, trail, expect::state(from)),
            |dst| reference::last_line(dst, &plain),
        );
    }
}

/// Rooms around the needed size.
fn rooms(rng: &mut Rng, size: usize) -> [usize; 6] {
    [
        0,
        rng.below(size),
        size.saturating_sub(1),
        size,
        size + 1,
        rng.between(size, LINE_MAX + 20),
    ]
}

/// The lines of a listing from a cursor on, each with the cursor behind it.
fn plain_lines(trail: &[u8], from: Cursor, start: State) -> Vec<(Vec<u8>, Cursor)> {
    let mut lines = Vec::new();
    let mut push = |write: &dyn Fn(&mut [u8]) -> Result<usize, Refusal>, after: Cursor| {
        let mut line = vec![0; LINE_MAX];
        let size = write(&mut line).expect("a line has at most LINE_MAX bytes");
        line.truncate(size);
        lines.push((line, after));
    };
    if from == Cursor::First {
        push(&reference::first_line, Cursor::At(expect::state(start)));
    }
    let (items, run) = reference::reading(trail, start);
    let mut after = expect::state(start);
    for (place, item) in items {
        after.place += item.size();
        match item {
            reference::Item::File { .. } => after.files += 1,
            reference::Item::Record { .. } => after.records += 1,
        }
        push(
            &|dst| reference::item_line(dst, place, &item),
            Cursor::At(after),
        );
    }
    push(&|dst| reference::last_line(dst, &run), Cursor::Done);
    lines
}

/// Lists in parts with rooms from `room`, compares each part, and says
/// whether the listing came to its end before a room was too small.
pub fn same_parts(
    tally: &mut Tally,
    rng: &mut Rng,
    trail: &[u8],
    from: Cursor,
    room: impl Fn(&mut Rng) -> usize,
) -> bool {
    let start = match from {
        Cursor::At(state) => State {
            place: state.place,
            records: state.records,
            files: state.files,
        },
        _ => State::default(),
    };
    let lines = plain_lines(trail, from, start);
    let mut left = &lines[..];
    let mut cursor = from;
    let mut joined = Vec::new();
    while cursor != Cursor::Done {
        tally.input();
        let room = room(rng);
        let mut part = Vec::new();
        let mut after = cursor;
        while let [(line, behind), rest @ ..] = left {
            if part.len() + line.len() > room {
                break;
            }
            part.extend(line);
            after = *behind;
            left = rest;
        }
        let mut out = Watched::new(rng, room);
        let listed = bsm::list(out.dst(), trail, cursor);
        let expected = Listed {
            written: part.len(),
            cursor: after,
        };
        assert_eq!(
            listed,
            expected,
            "{cursor:?} into {room} of {}",
            show(trail)
        );
        assert_eq!(out.written(listed.written), part);
        tally.answer(None);
        if after == cursor {
            return false;
        }
        joined.extend(part);
        cursor = after;
    }
    if from == Cursor::First {
        assert_eq!(joined, reference::listing(trail));
    }
    let mut out = Watched::new(rng, 200);
    let done = bsm::list(out.dst(), trail, Cursor::Done);
    assert_eq!((done.written, done.cursor), (0, Cursor::Done));
    assert_eq!(out.written(0), b"");
    true
}
