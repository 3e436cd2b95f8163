//! The listing, line by line into a buffer of 64 KiB.

use crate::read::records;
use crate::workload::Workload;
use bsm::Cursor;
use reference::{Refusal, Run, State};
use std::hint::black_box;

const BUFFER: usize = 65_536;

/// Lists a trail from its start to its end.
pub fn load<'a>(name: &'static str, trail: &'a [u8]) -> Workload<'a> {
    let (mut ours, mut theirs) = (Vec::new(), Vec::new());
    let mut buffer = vec![1; BUFFER];
    let mut other = buffer.clone();
    proved(trail, &mut buffer, |part| ours.extend_from_slice(part));
    plain(trail, &mut other, |part| theirs.extend_from_slice(part));
    assert!(ours == theirs && ours == reference::listing(trail));
    Workload {
        name,
        bytes: trail.len(),
        count: records(trail),
        source: trail,
        proved: Box::new(move || {
            let mut sum = 0;
            proved(black_box(trail), &mut buffer, |part| {
                sum += black_box(part).len();
            });
            sum
        }),
        plain: Box::new(move || {
            let mut sum = 0;
            plain(black_box(trail), &mut other, |part| {
                sum += black_box(part).len();
            });
            sum
        }),
    }
}

fn proved(trail: &[u8], out: &mut [u8], mut filled: impl FnMut(&[u8])) {
    let mut cursor = Cursor::First;
    while cursor != Cursor::Done {
        let part = bsm::list(out, trail, cursor);
        filled(&out[..part.written]);
        cursor = part.cursor;
    }
}

fn plain(trail: &[u8], out: &mut [u8], mut filled: impl FnMut(&[u8])) {
    let mut state = State::default();
    let mut used = line(out, 0, &mut filled, reference::first_line);
    let refusal = loop {
        match reference::item_at(trail, state.place) {
            reference::Answer::Item(item) => {
                used = line(out, used, &mut filled, |dst| {
                    reference::item_line(dst, state.place, &item)
                });
                match item {
                    reference::Item::File { .. } => state.files += 1,
                    reference::Item::Record { .. } => state.records += 1,
                }
                state.place += item.size();
            }
            reference::Answer::End => break None,
            reference::Answer::Refused(refusal) => break Some(refusal),
        }
    };
    let run = Run { state, refusal };
    used = line(out, used, &mut filled, |dst| {
        reference::last_line(dst, &run)
    });
    filled(&out[..used]);
}

/// Adds a line to the `used` bytes, or hands those on where it does not fit,
/// and says how many are used then.
#[inline(always)]
fn line(
    out: &mut [u8],
    used: usize,
    filled: &mut impl FnMut(&[u8]),
    write: impl Fn(&mut [u8]) -> Result<usize, Refusal>,
) -> usize {
    match write(&mut out[used..]) {
        Ok(size) => used + size,
        Err(_) => {
            filled(&out[..used]);
            write(out).unwrap_or(0)
        }
    }
}
