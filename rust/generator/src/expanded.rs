//! What is wrong with addresses of expanded headers and tokens (paper 02, P5),
//! told from the bytes at the place of a refusal, and records aimed at each.

use crate::calls::WriteArgs;
use crate::good::{good_body, good_header, good_header_of, good_token, good_tokens, token_of};
use crate::header_args::HeaderArgs;
use crate::layout::{framed, get32, head_size, in_body, is_expanded, least_size, raw_record};
use crate::layout::{set, shape, Tail, EXPANDED_NUMBERS};
use crate::rng::Rng;
use crate::values;
use reference::Refusal;

/// What is wrong with an address.
#[derive(Clone, Copy, Debug, PartialEq, Eq, PartialOrd, Ord)]
pub enum AddressFault {
    /// The type is neither 4 nor 16.
    Type,
    /// The record's count is too small for the larger address alone.
    Count,
    /// The body ends before the type does.
    NoType,
    /// The body ends behind the type and before the address does.
    NoAddress,
    /// An address to be written has neither 4 nor 16 bytes.
    Given,
}

use AddressFault::*;

/// What can be wrong where trails are read, by the number of the header or
/// token.
pub const ADDRESS_FAULTS: [(u8, AddressFault); 19] = [
    (0x15, Type),
    (0x15, Count),
    (0x79, Type),
    (0x79, Count),
    (0x7A, Type),
    (0x7A, NoType),
    (0x7A, NoAddress),
    (0x7B, Type),
    (0x7B, NoType),
    (0x7B, NoAddress),
    (0x7C, Type),
    (0x7C, NoType),
    (0x7C, NoAddress),
    (0x7D, Type),
    (0x7D, NoType),
    (0x7D, NoAddress),
    (0x7E, Type),
    (0x7E, NoType),
    (0x7E, NoAddress),
];

/// The same in bodies.
pub const BODY_ADDRESS_FAULTS: &[(u8, AddressFault)] = ADDRESS_FAULTS.split_at(4).1;

/// What can be wrong in arguments of the writers, a record's body left out.
pub const CALL_ADDRESS_FAULTS: [(u8, AddressFault); 7] = [
    (0x15, Given),
    (0x79, Given),
    (0x7A, Given),
    (0x7B, Given),
    (0x7C, Given),
    (0x7D, Given),
    (0x7E, Given),
];

/// What is wrong with an address in the item at `start`, which is refused so;
/// nothing where it is refused for something else.
pub fn address_fault(trail: &[u8], start: usize, refusal: &Refusal) -> Option<(u8, AddressFault)> {
    let record = trail.get(start..)?;
    let number = *record.first()?;
    match refusal.number {
        13 if refusal.place == start => Some((number, Type)),
        4 if is_expanded(number) => {
            let count = get32(record, 1)?;
            (least_size(number)..=65_535)
                .contains(&count)
                .then_some((number, Count))
        }
        7 | 13 => {
            let (body, refusal) = in_body(trail, start, refusal)?;
            body_address_fault(body, &refusal)
        }
        _ => None,
    }
}

/// The same in a body, with the place counted from its start.
pub fn body_address_fault(body: &[u8], refusal: &Refusal) -> Option<(u8, AddressFault)> {
    let token = body.get(refusal.place..)?;
    match (refusal.number, token, shape(*token.first()?)?) {
        (13, [number, ..], (_, Tail::Address)) => Some((*number, Type)),
        (7, [number, ..], (fixed, Tail::Address)) if token.len() < fixed => Some((*number, NoType)),
        (7, [number, ..], (_, Tail::Address)) => Some((*number, NoAddress)),
        _ => None,
    }
}

/// The same in the arguments of a writer, which refuses them so.
pub fn call_address_fault(args: &WriteArgs, refusal: &Refusal) -> Option<(u8, AddressFault)> {
    match args {
        WriteArgs::Token(args) if refusal.number == 13 => Some((args.fields.number(), Given)),
        WriteArgs::Record { header, .. } if header.is_misaddressed() => {
            Some((header.fields.number, Given))
        }
        WriteArgs::Record { body, .. } => body_address_fault(body, refusal),
        _ => None,
    }
}

/// The number and the address of arguments that have one.
pub fn given_address(args: &WriteArgs) -> Option<(u8, &[u8])> {
    match args {
        WriteArgs::Token(args) if args.tail() == Tail::Address => {
            Some((args.fields.number(), &args.bytes))
        }
        WriteArgs::Record { header, .. } if is_expanded(header.fields.number) => {
            Some((header.fields.number, &header.address))
        }
        _ => None,
    }
}

/// A record that is, mostly, refused for this, which is one of
/// [`ADDRESS_FAULTS`].
pub fn with_address_fault(rng: &mut Rng, (number, fault): (u8, AddressFault)) -> Vec<u8> {
    if !is_expanded(number) {
        let body = faulty_body(rng, number, fault);
        return raw_record(&good_header(rng).header(), &body);
    }
    let mut header = good_header_of(rng, number);
    if rng.chance(4) {
        // 9 would come later.
        header.fields.nanoseconds = values::over(rng, 999_999_999, 32);
    }
    if fault == Count {
        return short_head(rng, header);
    }
    let mut body = good_body(rng);
    if rng.chance(4) {
        body.push(0);
    }
    if rng.chance(2) {
        header.address = values::bad_address(rng);
        return raw_record(&header.header(), &body);
    }
    let mut record = raw_record(&header.header(), &body);
    set(&mut record, 10, &values::bad_type(rng).to_be_bytes());
    record
}

/// The same for any of them.
pub(crate) fn any_address_fault(rng: &mut Rng) -> Vec<u8> {
    let kind = rng.pick(&ADDRESS_FAULTS);
    with_address_fault(rng, kind)
}

/// A record that ends before a header with the larger address does.
fn short_head(rng: &mut Rng, mut header: HeaderArgs) -> Vec<u8> {
    header.address = rng.bytes(16);
    let least = least_size(header.fields.number) - 7;
    let any = rng.between(least, least + 11);
    let size = rng.pick(&[any, any, least, least + 11]);
    let whole = raw_record(&header.header(), &[]);
    framed(&whole[..size], &[])
}

/// A body with a token that is refused for this.
pub(crate) fn faulty_body(rng: &mut Rng, number: u8, fault: AddressFault) -> Vec<u8> {
    let before = rng.below(3);
    let mut body = good_tokens(rng, before);
    body.extend(faulty_token(rng, number, fault));
    if fault == Type && rng.chance(2) {
        body.extend(good_token(rng));
    }
    body
}

/// An expanded token that is refused for this: with a type that is none, or
/// cut before its type ends, or before its address does.
pub(crate) fn faulty_token(rng: &mut Rng, number: u8, fault: AddressFault) -> Vec<u8> {
    let mut token = token_of(rng, number);
    let fixed = shape(number).map_or(1, |shape| shape.0);
    let ends = match fault {
        NoType => 1..fixed,
        NoAddress => fixed..token.len(),
        _ => {
            set(&mut token, fixed - 4, &values::bad_type(rng).to_be_bytes());
            // An address that is not there would be told later.
            let end = rng.between(fixed, token.len());
            token.truncate(rng.pick(&[end, token.len()]));
            return token;
        }
    };
    let any = rng.between(ends.start, ends.end - 1);
    token.truncate(rng.pick(&[any, any, ends.start, ends.end - 1]));
    token
}

/// One of the faults of body tokens that are refused with this, 7 or 13.
pub(crate) fn any_body_fault(rng: &mut Rng, refused: u8) -> (u8, AddressFault) {
    let number = rng.pick(&EXPANDED_NUMBERS);
    match refused {
        13 => (number, Type),
        _ => (number, rng.pick(&[NoType, NoAddress])),
    }
}

/// A record with an expanded header again, with one byte for the type, as the
/// manual page has it.
pub(crate) fn with_one_byte_type(record: &[u8]) -> Vec<u8> {
    let (head, rest) = record.split_at(head_size(record));
    let mut head = head.to_vec();
    head.drain(10..13);
    framed(&head, &rest[..rest.len() - 7])
}

#[cfg(test)]
mod tests {
    use super::*;
    use reference::{item_at, Answer};

    /// A type of one byte is never taken for one of four, which would have to
    /// begin with a zero byte.
    #[test]
    fn types_of_one_byte() {
        let mut rng = Rng::new(56);
        let mut times = [0; 2];
        for round in 0..4_000 {
            let number = [0x15, 0x79][round % 2];
            let header = good_header_of(&mut rng, number);
            let good = raw_record(&header.header(), &good_body(&mut rng));
            let record = with_one_byte_type(&good);
            assert_eq!(record.len() + 3, good.len());
            let small = record.len() < least_size(number);
            let expected = Refusal {
                number: if small { 4 } else { 13 },
                place: 0,
                need: 0,
            };
            assert_eq!(item_at(&record, 0), Answer::Refused(expected));
            times[usize::from(small)] += 1;
        }
        assert!(times.iter().all(|&times| times > 100), "{times:?}");
    }
}
