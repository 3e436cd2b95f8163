//! Records to be written whose version is too large (paper 02, P2), and what
//! else is wrong with them.

use crate::calls::WriteArgs;
use crate::good::{body_for, good_body, good_header_of};
use crate::header_args::HeaderArgs;
use crate::layout::{is_expanded, is_narrow, HEADER_NUMBERS};
use crate::rng::Rng;
use crate::targeted::bad_body;
use crate::values;
use reference::walk_body;

/// What is wrong beside the version.
#[derive(Clone, Copy, Debug, PartialEq, Eq, PartialOrd, Ord)]
pub enum Beside {
    /// Nothing.
    Nothing,
    /// The address's length, which is told before all else.
    Address,
    /// The record's length, which is told before the version.
    Length,
    /// The seconds are too large for their field.
    Seconds,
    /// The nanoseconds are too large for their field.
    Nanoseconds,
    /// The nanoseconds are over 999,999,999 and fit their field.
    Range,
    /// The body, which is refused with this number.
    Body(u8),
    /// The room.
    Room,
    /// Two of these or more, neither the address nor the length among them.
    Several,
    /// The length and others, the address not among them.
    LengthAndMore,
    /// The address and others.
    AddressAndMore,
}

use Beside::*;

/// All of them, for headers that can have them.
const ALL: [Beside; 15] = [
    Nothing,
    Address,
    Length,
    Seconds,
    Nanoseconds,
    Range,
    Body(6),
    Body(7),
    Body(8),
    Body(13),
    Body(14),
    Room,
    Several,
    LengthAndMore,
    AddressAndMore,
];

/// Whether a record with this header can have this wrong.
const fn can_be(number: u8, beside: Beside) -> bool {
    match beside {
        Seconds | Nanoseconds => is_narrow(number),
        Address | AddressAndMore => is_expanded(number),
        _ => true,
    }
}

/// What can be wrong beside a version, by the header's number.
pub const LARGE_VERSIONS: [(u8, Beside); 52] = {
    let mut kinds = [(0, Nothing); 52];
    let (mut at, mut pair) = (0, 0);
    while pair < HEADER_NUMBERS.len() * ALL.len() {
        let number = HEADER_NUMBERS[pair / ALL.len()];
        let beside = ALL[pair % ALL.len()];
        if can_be(number, beside) {
            kinds[at] = (number, beside);
            at += 1;
        }
        pair += 1;
    }
    assert!(at == kinds.len());
    kinds
};

/// The header's number and what is wrong beside the version, where arguments
/// are those of a record with a version over 255.
pub fn large_version(args: &WriteArgs, room: usize) -> Option<(u8, Beside)> {
    let WriteArgs::Record { header, body } = args else {
        return None;
    };
    let fields = header.fields;
    if fields.version < 256 {
        return None;
    }
    let size = args.size();
    let most = if is_narrow(fields.number) {
        u32::MAX.into()
    } else {
        u64::MAX
    };
    let mut all = Vec::new();
    all.extend(header.is_misaddressed().then_some(Address));
    all.extend((size > 65_535).then_some(Length));
    all.extend((fields.seconds > most).then_some(Seconds));
    all.extend(match fields.nanoseconds {
        ..=999_999_999 => None,
        nanoseconds if nanoseconds > most => Some(Nanoseconds),
        _ => Some(Range),
    });
    all.extend(walk_body(body).err().map(|refusal| Body(refusal.number)));
    all.extend((room < size).then_some(Room));
    let beside = match all[..] {
        [] => Nothing,
        [one] => one,
        [Address, ..] => AddressAndMore,
        [Length, ..] => LengthAndMore,
        _ => Several,
    };
    Some((fields.number, beside))
}

/// Arguments of a record with a version over 255, mostly with at most one
/// thing else that is wrong.
pub(crate) fn large_version_args(rng: &mut Rng, number: u8) -> WriteArgs {
    let mut header = good_header_of(rng, number);
    header.fields.version = values::over(rng, 255, 16) as u16;
    let mut body = good_body(rng);
    let times = rng.pick(&[0, 1, 1, 1, 1, 2]);
    for _ in 0..times {
        spoil_more(rng, &mut header, &mut body);
    }
    WriteArgs::Record { header, body }
}

/// Makes one thing else wrong. Seconds and nanoseconds of 33 bits or more fit
/// times of 8 bytes.
fn spoil_more(rng: &mut Rng, header: &mut HeaderArgs, body: &mut Vec<u8>) {
    match rng.below(11) {
        0 => header.fields.seconds = values::over(rng, u32::MAX.into(), 64),
        1 => header.fields.nanoseconds = values::over(rng, u32::MAX.into(), 64),
        2 => header.fields.nanoseconds = values::over(rng, 999_999_999, 32),
        3 | 4 => {
            let size = rng.pick(&[65_535, 65_536, 65_537, 65_544]);
            *body = body_for(rng, header.size(), size);
        }
        5 if is_expanded(header.fields.number) => header.address = values::bad_address(rng),
        _ => {
            let refused = rng.pick(&[6, 7, 8, 13, 14]);
            *body = bad_body(rng, refused);
        }
    }
}
