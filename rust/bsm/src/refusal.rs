//! Refusals and their numbers (paper 01, 'Refusal numbers').

use crate::sys;
use crate::unfit::unfit;
use core::error::Error;
use core::fmt;

/// Why something was refused. The numbers are those of paper 01; later
/// versions may have more.
#[derive(Clone, Copy, Debug, PartialEq, Eq, Hash)]
#[non_exhaustive]
#[repr(u8)]
pub enum Reason {
    /// 1: the item is not all there yet; [`Refusal::need`] bytes must stand
    /// from its start on.
    Short = 1,
    /// 2: the place lies behind the buffer's end, or the totals of a state
    /// exceed its place together.
    Place = 2,
    /// 3: no item begins with this byte.
    NotAnItem = 3,
    /// 4: a record's length is out of bounds.
    RecordLength = 4,
    /// 5: no trailer with the record's length stands at its end.
    Trailer = 5,
    /// 6: no body token begins with this byte.
    NotABodyToken = 6,
    /// 7: a token does not end within its body.
    PastEnd = 7,
    /// 8: a bad text, or a file name that is too long. A text ends with a
    /// zero byte, which its length counts, and has no other.
    ///
    /// Where something is read, and for the body of a record to be written,
    /// [`Refusal::place`] is the byte that spoils the text: the first zero
    /// byte that is not the last, or else the last byte, which is not zero.
    /// Where the length is 0, or a file name's over 1,024, it is the first
    /// byte of the length.
    ///
    /// Where a text or a name is to be written, it is the zero byte's place
    /// in what was given; it is 0 for a name too long, whatever is in it, and
    /// for bytes that are not as many strings as said.
    BadText = 8,
    /// 9: microseconds over 999,999 or nanoseconds over 999,999,999.
    TimeRange = 9,
    /// 10: too little room in the destination, or in the table of an index.
    NoRoom = 10,
    /// 11: a value that its field cannot hold: a text, an opaque or groups too
    /// long, a record's version over 255, or times over 32 bits for a
    /// header32 or a header32_ex.
    TooLarge = 11,
    /// 13: the type of an address is neither 4 nor 16. [`Refusal::place`] is
    /// the start of what has it: the item's for a header, the token's for a
    /// token. Since an address to be written has one of the two lengths, a
    /// writer gives it for the body of a record alone, and
    /// [`write_record`](crate::write_record) for an expanded header, to which
    /// no address is given.
    AddressType = 13,
    /// 14: a subject token in a record that has one already, of whatever kinds
    /// the two are; [`Refusal::place`] is the second one's start. Process
    /// tokens do not count. It comes where a record or a whole body is read or
    /// written, not where one token is.
    SecondSubject = 14,
}

impl Reason {
    /// The refusal's number, 1 to 11, 13 or 14.
    #[inline]
    pub const fn number(self) -> u8 {
        self as u8
    }

    /// The reason for a number that the library gave.
    #[inline]
    pub(crate) fn of(number: u64) -> Self {
        match number {
            1 => Reason::Short,
            2 => Reason::Place,
            3 => Reason::NotAnItem,
            4 => Reason::RecordLength,
            5 => Reason::Trailer,
            6 => Reason::NotABodyToken,
            7 => Reason::PastEnd,
            8 => Reason::BadText,
            9 => Reason::TimeRange,
            10 => Reason::NoRoom,
            11 => Reason::TooLarge,
            13 => Reason::AddressType,
            14 => Reason::SecondSubject,
            _ => unfit("refusal", number),
        }
    }
}

impl fmt::Display for Reason {
    fn fmt(&self, f: &mut fmt::Formatter<'_>) -> fmt::Result {
        f.write_str(match self {
            Reason::Short => "short",
            Reason::Place => "place or totals out of range",
            Reason::NotAnItem => "no item begins with this byte",
            Reason::RecordLength => "record length out of bounds",
            Reason::Trailer => "no trailer with the record's length",
            Reason::NotABodyToken => "no body token begins with this byte",
            Reason::PastEnd => "token runs past the end of its body",
            Reason::BadText => "bad text, or too long a file name",
            Reason::TimeRange => "microseconds or nanoseconds out of range",
            Reason::NoRoom => "destination too small",
            Reason::TooLarge => "value too large for its field",
            Reason::AddressType => "address type neither 4 nor 16",
            Reason::SecondSubject => "second subject token in one record",
        })
    }
}

/// An answer that is no result.
///
/// ```
/// let short = bsm::item_at(&[0x14], 0).unwrap_err();
/// assert_eq!(short.reason, bsm::Reason::Short);
/// assert_eq!(short.to_string(), "refusal 1 at 0: short, needs 5 bytes");
///
/// // A file token whose name has a zero byte, at 12, before its last one.
/// let file = b"\x11\0\0\0\x05\0\0\0\x07\0\x04a\0b\0";
/// let bad = bsm::item_at(file, 0).unwrap_err();
/// assert_eq!((bad.reason, bad.place), (bsm::Reason::BadText, 12));
///
/// // An in_addr_ex token behind an iport, with a type of 6.
/// let bad = bsm::walk_body(b"\x2c\0\x16\x7e\0\0\0\x06abcdef").unwrap_err();
/// assert_eq!(bad.to_string(), "refusal 13 at 3: address type neither 4 nor 16");
/// ```
#[derive(Clone, Copy, Debug, PartialEq, Eq, Hash)]
pub struct Refusal {
    /// Why.
    pub reason: Reason,
    /// The place it speaks of: the asked place, the item's or the token's
    /// start, or, for [`Reason::BadText`], the byte that spoils the text. It
    /// counts from the start of the trail or body that was lent. What a
    /// writer refuses by itself has 0 here, but for a zero byte in a text.
    pub place: usize,
    /// For [`Reason::Short`] how many bytes must stand from the item's start
    /// on before the answer changes; otherwise 0.
    pub need: usize,
}

impl Refusal {
    /// A refusal as the library told it.
    #[inline]
    pub(crate) fn of(number: u64, place: u64, need: u64) -> Self {
        Refusal {
            reason: Reason::of(number),
            place: place as usize,
            need: need as usize,
        }
    }
}

impl fmt::Display for Refusal {
    fn fmt(&self, f: &mut fmt::Formatter<'_>) -> fmt::Result {
        write!(
            f,
            "refusal {} at {}: {}",
            self.reason.number(),
            self.place,
            self.reason
        )?;
        if self.need > 0 {
            write!(f, ", needs {} bytes", self.need)?;
        }
        Ok(())
    }
}

impl Error for Refusal {}

/// The answer of a writer or of a walk.
#[inline]
pub(crate) fn written(answer: sys::bsm_written) -> Result<usize, Refusal> {
    if answer.number == 0 {
        Ok(answer.written as usize)
    } else {
        Err(Refusal::of(answer.number, answer.place, answer.need))
    }
}
