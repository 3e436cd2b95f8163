//! The refusal and its numbers (paper 01, 'Refusal numbers'; paper 02, P5,
//! P7).

/// An answer that is not a result.
///
/// The numbers: 1 short, 2 place or totals out of range, 3 no item starts
/// here, 4 record size out of bounds, 5 trailer missing, 6 no body token
/// starts here, 7 token leaves the body, 8 bad text, 9 time fraction too
/// large, 10 destination too small, 11 value too large for its field,
/// 12 program input too long, 13 an address's type is neither 4 nor 16, 14 a
/// record's second subject.
#[derive(Clone, Copy, Debug, PartialEq, Eq)]
pub struct Refusal {
    /// Which of the numbers 1 to 14.
    pub number: u8,
    /// The place the refusal speaks of; for number 8 that of the first byte
    /// that offends (paper 02, P1).
    pub place: usize,
    /// For number 1 the bytes that must stand from the item's start on;
    /// otherwise 0.
    pub need: usize,
}

impl Refusal {
    /// A refusal without need.
    #[inline]
    pub(crate) const fn at(number: u8, place: usize) -> Self {
        Refusal {
            number,
            place,
            need: 0,
        }
    }

    /// The short refusal of the item at `place`.
    #[inline]
    pub(crate) const fn short(place: usize, need: usize) -> Self {
        Refusal {
            number: SHORT,
            place,
            need,
        }
    }
}

pub(crate) const SHORT: u8 = 1;
pub(crate) const BEYOND: u8 = 2;
pub(crate) const NO_ITEM: u8 = 3;
pub(crate) const BAD_COUNT: u8 = 4;
pub(crate) const NO_TRAILER: u8 = 5;
pub(crate) const NO_TOKEN: u8 = 6;
pub(crate) const OVERRUN: u8 = 7;
pub(crate) const BAD_TEXT: u8 = 8;
pub(crate) const BAD_FRACTION: u8 = 9;
pub(crate) const NO_ROOM: u8 = 10;
pub(crate) const TOO_LARGE: u8 = 11;
pub(crate) const TOO_LONG: u8 = 12;
pub(crate) const BAD_TYPE: u8 = 13;
pub(crate) const SECOND_SUBJECT: u8 = 14;
