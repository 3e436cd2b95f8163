//! Reading one item.

use crate::address::address_of;
use crate::refusal::Refusal;
use crate::sys;
use crate::unfit::unfit;
use core::net::IpAddr;

/// Which of the four headers a record has. The expanded ones have the
/// machine's address, which [`address_at`] tells. Later versions may have
/// more.
#[derive(Clone, Copy, Debug, PartialEq, Eq, Hash)]
#[non_exhaustive]
pub enum HeaderKind {
    /// 14, times of 4 bytes.
    Header32,
    /// 74, times of 8 bytes.
    Header64,
    /// 15, times of 4 bytes and an address.
    Header32Ex,
    /// 79, times of 8 bytes and an address.
    Header64Ex,
}

impl HeaderKind {
    /// The header's token number.
    #[inline]
    pub const fn number(self) -> u8 {
        match self {
            HeaderKind::Header32 => 0x14,
            HeaderKind::Header64 => 0x74,
            HeaderKind::Header32Ex => 0x15,
            HeaderKind::Header64Ex => 0x79,
        }
    }

    /// The header with a number that the library gave.
    #[inline]
    pub(crate) fn of(number: u64) -> Self {
        match number {
            0x14 => HeaderKind::Header32,
            0x74 => HeaderKind::Header64,
            0x15 => HeaderKind::Header32Ex,
            0x79 => HeaderKind::Header64Ex,
            _ => unfit("header", number),
        }
    }
}

/// A record's header, as read and as given to
/// [`write_record`](crate::write_record) and
/// [`write_record_ex`](crate::write_record_ex). The address of an expanded
/// header is not among its fields: [`address_at`] tells it. Later versions may
/// have more fields, so that other crates start from [`Header::new`].
///
/// ```
/// use bsm::{Header, HeaderKind};
///
/// let mut header = Header::new(HeaderKind::Header32);
/// header.event = 6152;
/// assert_eq!((header.event, header.seconds), (6152, 0));
/// ```
#[derive(Clone, Copy, Debug, PartialEq, Eq, Hash)]
#[non_exhaustive]
pub struct Header {
    /// Which header.
    pub kind: HeaderKind,
    /// Version of the record layout. A record has one byte for it, so that one
    /// that was read is at most 255; [`write_record`](crate::write_record)
    /// refuses a larger one.
    pub version: u16,
    /// Event type.
    pub event: u16,
    /// Event modifier.
    pub modifier: u16,
    /// Seconds of the time stamp.
    pub seconds: u64,
    /// Nanoseconds of the time stamp.
    pub nanoseconds: u64,
}

impl Header {
    /// A header of this kind with zeros in all its fields.
    #[inline]
    pub const fn new(kind: HeaderKind) -> Self {
        Header {
            kind,
            version: 0,
            event: 0,
            modifier: 0,
            seconds: 0,
            nanoseconds: 0,
        }
    }
}

/// An accepted item, borrowed from its trail.
#[derive(Clone, Copy, Debug, PartialEq, Eq)]
pub enum Item<'a> {
    /// A file token.
    File {
        /// Bytes of the token.
        size: usize,
        /// Seconds of the time stamp.
        seconds: u32,
        /// Microseconds of the time stamp.
        microseconds: u32,
        /// The file name without its zero byte.
        name: &'a [u8],
    },
    /// A record.
    Record {
        /// Bytes of the record.
        size: usize,
        /// The header's fields. The address of an expanded header is told by
        /// [`address_at`].
        header: Header,
        /// What stands between header and trailer; see
        /// [`tokens`](crate::tokens). One of its tokens at most is a subject.
        body: &'a [u8],
        /// How many tokens the body has.
        tokens: usize,
    },
}

impl Item<'_> {
    /// Bytes of the item.
    #[inline]
    pub const fn size(&self) -> usize {
        match *self {
            Item::File { size, .. } | Item::Record { size, .. } => size,
        }
    }
}

/// The item at a place of a trail, or nothing where the trail ends there.
///
/// ```
/// use bsm::{item_at, Item, Reason};
///
/// let trail = b"\x11\0\0\0\x05\0\0\0\x07\0\x02a\0";
/// assert!(matches!(item_at(trail, 0), Ok(Some(Item::File { name: b"a", .. }))));
/// assert_eq!(item_at(trail, trail.len()), Ok(None));
/// assert_eq!(item_at(trail, 1).unwrap_err().reason, Reason::NotAnItem);
/// ```
#[inline]
pub fn item_at(trail: &[u8], place: usize) -> Result<Option<Item<'_>>, Refusal> {
    // SAFETY: the pointer and the length are those of a lent slice, which
    // stays as it is during the call.
    let answer = unsafe { sys::bsm_item_at(trail.as_ptr(), trail.len(), place) };
    found(trail, &answer)
}

/// The body of the record at a place, if a record stands there.
///
/// [`Item::Record`] holds the same body; this is for callers who want
/// nothing else.
#[inline]
pub fn body_at(trail: &[u8], place: usize) -> Option<&[u8]> {
    // SAFETY: as in `item_at`.
    let answer = unsafe { sys::bsm_body_at(trail.as_ptr(), trail.len(), place) };
    told_part(trail, answer)
}

/// The name of the file token at a place without its zero byte, if a file
/// token stands there.
#[inline]
pub fn name_at(trail: &[u8], place: usize) -> Option<&[u8]> {
    // SAFETY: as in `item_at`.
    let answer = unsafe { sys::bsm_name_at(trail.as_ptr(), trail.len(), place) };
    told_part(trail, answer)
}

/// The address in the header of the record at a place, if a record stands
/// there and its header has one.
///
/// [`Items`](crate::Items) and [`Newest`](crate::Newest) hand out the place
/// beside the record. Since the record is read once more, ask only where
/// [`Header::kind`] is an expanded one.
///
/// ```
/// use core::net::IpAddr;
///
/// let trail = b"\x15\0\0\0\x21\x0b\0\x48\0\0\0\0\0\x04\xc0\0\x02\x07\0\0\0\x01\0\0\0\x02\
///     \x13\xb1\x05\0\0\0\x21";
/// assert_eq!(bsm::address_at(trail, 0), Some(IpAddr::from([192, 0, 2, 7])));
/// assert_eq!(bsm::address_at(trail, 1), None);
/// ```
#[inline]
pub fn address_at(trail: &[u8], place: usize) -> Option<IpAddr> {
    // SAFETY: as in `item_at`.
    let answer = unsafe { sys::bsm_address_at(trail.as_ptr(), trail.len(), place) };
    told_address(trail, answer)
}

/// The answer with the part of the trail that it names.
#[inline]
pub(crate) fn found<'a>(
    trail: &'a [u8],
    answer: &sys::bsm_item,
) -> Result<Option<Item<'a>>, Refusal> {
    match answer.kind {
        sys::BSM_END => Ok(None),
        sys::BSM_FILE => Ok(Some(Item::File {
            size: answer.size as usize,
            seconds: answer.seconds as u32,
            microseconds: answer.fraction as u32,
            name: held(trail, answer),
        })),
        sys::BSM_RECORD => Ok(Some(record(trail, answer))),
        sys::BSM_REFUSED => Err(Refusal::of(answer.number, answer.place, answer.need)),
        _ => unfit("item kind", answer.kind),
    }
}

/// The record that an answer tells. As a call of its own it would be copied
/// once more, which costs a walk from the end a quarter of its speed.
#[inline(always)]
pub(crate) fn record<'a>(trail: &'a [u8], answer: &sys::bsm_item) -> Item<'a> {
    Item::Record {
        size: answer.size as usize,
        header: Header {
            kind: HeaderKind::of(answer.header),
            version: answer.version as u16,
            event: answer.event as u16,
            modifier: answer.modifier as u16,
            seconds: answer.seconds,
            nanoseconds: answer.fraction,
        },
        body: held(trail, answer),
        tokens: answer.tokens as usize,
    }
}

/// The part that an item names: its name or its body.
#[inline]
fn held<'a>(trail: &'a [u8], answer: &sys::bsm_item) -> &'a [u8] {
    part(trail, answer.start as usize, answer.length as usize)
}

/// The part of `length` bytes from `start` on, which the library names only
/// where it is there.
#[inline]
pub(crate) fn part(bytes: &[u8], start: usize, length: usize) -> &[u8] {
    let rest = bytes.get(start..);
    match rest.and_then(|rest| rest.get(..length)) {
        Some(part) => part,
        None => unfit("a part from", start as u64),
    }
}

/// A part that the library told; the one at 0 with length 0 is none.
#[inline]
pub(crate) fn told_part(bytes: &[u8], told: sys::bsm_part) -> Option<&[u8]> {
    (told != sys::bsm_part::default())
        .then(|| part(bytes, told.start as usize, told.length as usize))
}

/// An address that the library told, or none.
#[inline]
pub(crate) fn told_address(bytes: &[u8], told: sys::bsm_part) -> Option<IpAddr> {
    told_part(bytes, told).map(address_of)
}

#[cfg(test)]
mod tests {
    use super::*;

    /// An iterator copies its item at each step, so that a larger one makes
    /// every reading slower: with the address in it, that of usual records
    /// took 5 to 8 % longer.
    #[test]
    fn items_are_small() {
        assert_eq!(size_of::<Header>(), 24);
        assert_eq!(size_of::<Item<'_>>(), 56);
        assert_eq!(size_of::<Option<Item<'_>>>(), 56);
    }
}
