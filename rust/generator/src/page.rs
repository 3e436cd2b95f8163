//! Records with a header32 or header64 in the layout of the manual page, whose
//! version has two bytes. All else in a record is as paper 02, P2, has it.

use crate::good::{good_body, good_header_of};
use crate::layout::{framed, TOKEN_NUMBERS};
use crate::rng::Rng;
use reference::Header;

/// How many bytes of each time are left out in a header with this number.
fn left_out(number: u8) -> usize {
    if number == 0x14 {
        4
    } else {
        0
    }
}

/// A record of the manual page with right sizes around any body. The times
/// of a header32 are cut to 4 bytes.
pub fn page_record(header: &Header<'_>, body: &[u8]) -> Vec<u8> {
    let mut head = vec![header.number, 0, 0, 0, 0];
    for half in [header.version, header.event, header.modifier] {
        head.extend_from_slice(&half.to_be_bytes());
    }
    for time in [header.seconds, header.nanoseconds] {
        head.extend_from_slice(&time.to_be_bytes()[left_out(header.number)..]);
    }
    framed(&head, body)
}

/// What stands where P2 has header and body of such a record: each field
/// begins with the last byte of the one before, and the body with that of the
/// nanoseconds.
pub fn page_found(header: &Header<'_>, body: &[u8]) -> (Header<'static>, Vec<u8>) {
    let width = 64 - 8 * left_out(header.number) as u32;
    let cut = |time: u64| time & (u64::MAX >> (64 - width));
    let moved = |before: u64, time: u64| (before & 0xFF) << (width - 8) | cut(time) >> 8;
    let found = Header {
        number: header.number,
        version: header.version >> 8,
        event: header.version << 8 | header.event >> 8,
        modifier: header.event << 8 | header.modifier >> 8,
        address: &[],
        seconds: moved(header.modifier.into(), header.seconds),
        nanoseconds: moved(header.seconds, header.nanoseconds),
    };
    (found, [&[header.nanoseconds as u8], body].concat())
}

/// Header and body of a good record of the manual page: as they come, or aimed
/// at being read as another good record. Those have 0 as the last byte of the
/// seconds, and a token's number as that of the nanoseconds.
pub fn page_fields(rng: &mut Rng, aimed: bool) -> (Header<'static>, Vec<u8>) {
    let number = rng.pick(&[0x14, 0x74]);
    let mut header = good_header_of(rng, number).fields;
    header.version = rng.u16();
    if aimed {
        header.seconds &= !0xFF;
        let above = header.nanoseconds.min(999_999_000) & !0xFF;
        header.nanoseconds = above | u64::from(rng.pick(&TOKEN_NUMBERS));
    }
    (header, good_body(rng))
}
