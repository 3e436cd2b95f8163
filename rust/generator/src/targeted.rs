//! Inputs aimed at one refusal number, or at several faults at once.

use crate::damage::{damage_body, COUNTS};
use crate::expanded::{any_body_fault, faulty_body, with_address_fault, AddressFault};
use crate::good::{good_body, good_file, good_header, good_record, good_token};
use crate::good::{good_tokens, good_trail};
use crate::layout::{head_size, is_expanded, is_narrow, least_size, raw_file, raw_record, set};
use crate::layout::{shape, HEADER_NUMBERS, TOKEN_NUMBERS};
use crate::rng::Rng;
use crate::subjects::any_two_subjects;
use crate::texts::{bad_name, bad_text, bad_text_token};
use crate::values;
use reference::State;

/// The numbers with which the reading of a trail is refused.
pub const READ_REFUSALS: [u8; 11] = [1, 2, 3, 4, 5, 6, 7, 8, 9, 13, 14];

/// A trail and a state whose reading is likely refused with `number`, one of
/// [`READ_REFUSALS`]. The state is fresh except for number 2, which no fresh
/// state meets. Any other number gives a good trail.
pub fn targeted(rng: &mut Rng, number: u8) -> (Vec<u8>, State) {
    let before = rng.below(3);
    let mut trail = good_trail(rng, before);
    trail.extend(refused_item(rng, number));
    match rng.below(3) {
        0 if number != 1 => trail.extend(good_record(rng)),
        1 if number != 1 => {
            let more = rng.below(40);
            trail.extend(rng.bytes(more));
        }
        _ => {}
    }
    let state = match number {
        2 => refused_state(rng, trail.len()),
        _ => State::default(),
    };
    (trail, state)
}

/// An item that is likely refused with `number`, whatever stands before it;
/// nothing for a number with which no item is.
pub fn refused_item(rng: &mut Rng, number: u8) -> Vec<u8> {
    match number {
        1 => cut_item(rng),
        3 => loop {
            let byte = rng.u8();
            if byte != 0x11 && !HEADER_NUMBERS.contains(&byte) {
                return vec![byte];
            }
        },
        4 if rng.chance(3) => bad_header(rng, AddressFault::Count),
        4 => bad_count(rng),
        13 if rng.chance(3) => bad_header(rng, AddressFault::Type),
        5 => bad_trailer(rng),
        6 | 7 | 13 | 14 => bad_token(rng, number),
        8 if rng.chance(3) => bad_name(rng),
        8 => bad_token(rng, number),
        9 => bad_fraction(rng),
        _ => Vec::new(),
    }
}

/// A state that is refused with 2, whatever the trail of this length.
fn refused_state(rng: &mut Rng, length: usize) -> State {
    let beyond = length.saturating_add(1).saturating_add(rng.below(4));
    let place = rng.between(0, length);
    let over = place + 1;
    let (place, records, files) = match rng.below(5) {
        0 => (beyond, 0, 0),
        1 => (rng.pick(&[beyond, usize::MAX, usize::MAX / 2]), 1, 2),
        2 => {
            let records = rng.between(0, over);
            (place, records, over - records)
        }
        3 => (place, usize::MAX - rng.below(2), rng.between(2, over + 1)),
        _ => (place, usize::MAX / 2 + 1, rng.bits() as usize),
    };
    State {
        place,
        records,
        files,
    }
}

/// A good item without its end.
fn cut_item(rng: &mut Rng) -> Vec<u8> {
    let mut item = if rng.chance(3) {
        good_file(rng)
    } else {
        good_record(rng)
    };
    let keep = match rng.below(4) {
        0 => rng.between(1, 11),
        1 => item.len() - 1,
        _ => rng.between(1, item.len() - 1),
    };
    item.truncate(keep.min(item.len() - 1));
    item
}

/// A record whose count is out of bounds.
fn bad_count(rng: &mut Rng) -> Vec<u8> {
    let mut record = good_record(rng);
    let least = least_size(record[0]) as u32;
    let count = match rng.below(6) {
        0 => least - 1,
        1 => 65_536,
        2 => rng.below(least as usize) as u32,
        3 => rng.u32() | 0x1_0000,
        4 => rng.pick(&[0, 1, 7, 18, 24, u32::MAX, 1 << 31]),
        _ => least | rng.pick(&[0x1_0000, 0x0100_0000, 0x8000_0000]),
    };
    set(&mut record, 1, &count.to_be_bytes());
    if rng.chance(2) {
        let end = record.len();
        set(&mut record, end - 4, &count.to_be_bytes());
    }
    if rng.chance(3) {
        record.truncate(rng.between(5, 12));
    }
    record
}

/// A record with an expanded header that is refused for this.
fn bad_header(rng: &mut Rng, fault: AddressFault) -> Vec<u8> {
    let header = rng.pick(&[0x15, 0x79]);
    with_address_fault(rng, (header, fault))
}

/// A record without its trailer where the count says.
fn bad_trailer(rng: &mut Rng) -> Vec<u8> {
    let mut record = good_record(rng);
    let size = record.len();
    match rng.below(4) {
        0 => {
            let at = size - 1 - rng.below(7);
            record[at] = record[at].wrapping_add(rng.between(1, 255) as u8);
        }
        1 => {
            let at = size - 1 - rng.below(7);
            record[at] ^= 1 << rng.below(8);
        }
        2 => {
            // One byte later than the count says.
            let at = rng.between(head_size(&record), size - 7);
            record.insert(at, rng.byte());
        }
        _ => {
            let less = size > least_size(record[0]);
            let count = if less { size - 1 } else { size + 1 } as u32;
            set(&mut record, 1, &count.to_be_bytes());
        }
    }
    if rng.chance(3) {
        // 9 would come later, and so would 13.
        let end = head_size(&record);
        set(&mut record, end - 4, &[0xFF; 4]);
        if is_expanded(record[0]) && rng.chance(2) {
            set(&mut record, 10, &values::bad_type(rng).to_be_bytes());
        }
    }
    record
}

/// A record with a body refused with 6, 7, 8, 13 or, mostly, 14.
fn bad_token(rng: &mut Rng, number: u8) -> Vec<u8> {
    let header = good_header(rng);
    let body = bad_body(rng, number);
    raw_record(&header.header(), &body)
}

/// A body refused with 6, 7, 8, 13 or, mostly, 14.
pub(crate) fn bad_body(rng: &mut Rng, number: u8) -> Vec<u8> {
    if number == 14 {
        return any_two_subjects(rng);
    }
    if number == 13 || number == 7 && rng.chance(2) {
        let (token, fault) = any_body_fault(rng, number);
        return faulty_body(rng, token, fault);
    }
    let before = rng.below(3);
    let mut body = good_tokens(rng, before);
    match number {
        6 => {
            body.push(no_token(rng));
            let more = rng.below(30);
            body.extend(rng.bytes(more));
        }
        7 => body.extend(overlong_token(rng)),
        _ => {
            body.extend(bad_text_token(rng));
            if rng.chance(2) {
                body.extend(good_token(rng));
            }
        }
    }
    body
}

/// A byte with which no body token begins, often one that begins an item.
pub(crate) fn no_token(rng: &mut Rng) -> u8 {
    let any = loop {
        let byte = rng.byte();
        if shape(byte).is_none() {
            break byte;
        }
    };
    rng.pick(&[any, any, 0x11, 0x13, 0x14, 0x15, 0x74, 0x79])
}

/// A token, last in its body, that has no end there.
fn overlong_token(rng: &mut Rng) -> Vec<u8> {
    let mut token = good_token(rng);
    if rng.chance(2) {
        token.truncate(rng.between(1, token.len() - 1));
        return token;
    }
    let more = rng.below(20);
    match rng.below(3) {
        0 => {
            let number = rng.pick(&[0x23, 0x28, 0x29]);
            let length = (more as u16).saturating_add(rng.pick(&[1, 2, 300, u16::MAX]));
            token = vec![number];
            token.extend(length.to_be_bytes());
            token.extend(rng.bytes(more));
        }
        1 => {
            let count = rng.pick(&[(more / 4) as u16 + 1, 0x4000, 0x8000, u16::MAX]);
            token = vec![0x3B];
            token.extend(count.to_be_bytes());
            token.extend(rng.bytes(more));
        }
        _ => {
            let mut strings = values::strings(rng);
            if rng.chance(3) {
                strings.1.extend(values::letters(rng, more));
            }
            let count = rng.pick(&[strings.0 + 1, strings.0 + 2, u32::MAX, 1 << 31]);
            token = vec![rng.pick(&[0x3C, 0x3D])];
            token.extend(count.to_be_bytes());
            token.extend(strings.1);
        }
    }
    token
}

/// An item with its time fraction over the bound.
fn bad_fraction(rng: &mut Rng) -> Vec<u8> {
    if rng.chance(3) {
        let mut file = good_file(rng);
        let micros = values::over(rng, 999_999, 32) as u32;
        set(&mut file, 5, &micros.to_be_bytes());
        if rng.chance(3) {
            // 8 or short would come later.
            set(&mut file, 9, &rng.u16().to_be_bytes());
        }
        return file;
    }
    let mut header = good_header(rng);
    let narrow = is_narrow(header.fields.number);
    let width = if narrow { 32 } else { 64 };
    header.fields.nanoseconds = values::over(rng, 999_999_999, width);
    let mut body = good_body(rng);
    if rng.chance(3) {
        damage_body(rng, &mut body);
    }
    raw_record(&header.header(), &body)
}

/// One item with several faults, so that the order of refusals shows.
pub fn many_faults(rng: &mut Rng) -> Vec<u8> {
    let mut item = if rng.chance(3) {
        faulty_file(rng)
    } else {
        faulty_record(rng)
    };
    if rng.chance(4) {
        item.truncate(rng.between(1, item.len()));
    }
    if rng.chance(8) {
        item[0] = rng.pick(&[0x11, 0x14, 0x15, 0x74, 0x79, 0x13, 0x23]);
    }
    item
}

/// A file token with several faults.
fn faulty_file(rng: &mut Rng) -> Vec<u8> {
    let mut name = values::name(rng);
    name.push(0);
    if rng.chance(2) {
        name = bad_text(rng);
    }
    let mut length = name.len() as u16;
    if rng.chance(3) {
        length = rng.pick(&[0, 1, 1_024, 1_025, u16::MAX]);
    }
    let mut micros = values::fraction(rng, 999_999);
    if rng.chance(3) {
        micros = values::over(rng, 999_999, 32) as u32;
    }
    raw_file(rng.u32(), micros, length, &name)
}

/// A record with several faults.
fn faulty_record(rng: &mut Rng) -> Vec<u8> {
    let mut header = good_header(rng);
    if rng.chance(3) {
        let width = rng.pick(&[32, 64]);
        header.fields.nanoseconds = values::over(rng, 999_999_999, width);
    }
    if is_expanded(header.fields.number) && rng.chance(3) {
        header.address = values::bad_address(rng);
    }
    let mut body = match rng.below(6) {
        0 => any_two_subjects(rng),
        _ => good_body(rng),
    };
    if rng.chance(2) {
        damage_body(rng, &mut body);
        body.push(rng.pick(&TOKEN_NUMBERS));
    }
    let mut record = raw_record(&header.header(), &body);
    if rng.chance(4) {
        let count = rng.pick(&COUNTS);
        set(&mut record, 1, &count.to_be_bytes());
    }
    if rng.chance(3) {
        let at = record.len() - 1 - rng.below(7);
        record[at] ^= 1 << rng.below(8);
    }
    record
}
