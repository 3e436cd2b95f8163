//! Reading a trail from its end.

use crate::item::{record, Item};
use crate::refusal::Refusal;
use crate::sys;
use crate::unfit::unfit;
use core::iter::FusedIterator;

/// What a step back finds.
#[derive(Clone, Copy, Debug, PartialEq, Eq)]
pub enum Before<'a> {
    /// A record that ends at the place.
    Record {
        /// Where it starts: the place of the next step back.
        place: usize,
        /// The record, as [`item_at`](crate::item_at) reads it there.
        item: Item<'a>,
    },
    /// No record ends at the place.
    Boundary {
        /// 0 where that is settled, whatever stood in front of the trail.
        /// Otherwise, should the trail be the end of a longer one, how many
        /// bytes must stand before the place for another answer: at most
        /// 65,535.
        need: usize,
    },
}

/// The record that ends at a place of a trail. A place beyond the trail is
/// refused ([`Reason::Place`](crate::Reason::Place)).
///
/// The bytes behind the place do not count: a trail that grows does not
/// change the answer.
///
/// ```
/// use bsm::{record_before, Before};
///
/// # let trail = b"\x11\0\0\0\x05\0\0\0\x07\0\x02a\0\
/// #     \x14\0\0\0\x19\x0b\0\x48\0\0\0\0\0\x01\0\0\0\x02\x13\xb1\x05\0\0\0\x19";
/// // `trail` is a file token of 13 bytes and a record of 25.
/// let last = record_before(trail, 38)?;
/// assert!(matches!(last, Before::Record { place: 13, .. }));
/// assert_eq!(record_before(trail, 13)?, Before::Boundary { need: 0 });
///
/// // Of the last 24 bytes alone, the record's first byte is missing.
/// assert_eq!(record_before(&trail[14..], 24)?, Before::Boundary { need: 25 });
/// # Ok::<(), bsm::Refusal>(())
/// ```
#[inline]
pub fn record_before(trail: &[u8], place: usize) -> Result<Before<'_>, Refusal> {
    // SAFETY: the pointer and the length are those of a lent slice.
    let told = unsafe { sys::bsm_record_before(trail.as_ptr(), trail.len(), place) };
    before(trail, &told)
}

/// The answer with the part of the trail that it names.
#[inline]
pub(crate) fn before<'a>(trail: &'a [u8], told: &sys::bsm_before) -> Result<Before<'a>, Refusal> {
    let sys::bsm_before { item, place } = told;
    match item.kind {
        sys::BSM_RECORD => Ok(Before::Record {
            place: *place as usize,
            item: record(trail, item),
        }),
        sys::BSM_BOUNDARY => Ok(Before::Boundary {
            need: item.need as usize,
        }),
        sys::BSM_REFUSED => Err(Refusal::of(item.number, item.place, item.need)),
        kind => unfit("item kind", kind),
    }
}

/// The records of a trail from its end on, newest first, each with its
/// place.
///
/// It stops at a boundary. In a trail that is accepted as a whole that is
/// the end of the last file token, or the trail's start. To start from an
/// earlier place, give the trail up to there.
///
/// ```
/// use bsm::Newest;
///
/// # let record = b"\x14\0\0\0\x19\x0b\0\x48\0\0\0\0\0\x01\0\0\0\x02\x13\xb1\x05\0\0\0\x19";
/// # let file = b"\x11\0\0\0\x05\0\0\0\x07\0\x02a\0";
/// # let trail = [&record[..], file, record, record].concat();
/// // `trail` is a record of 25 bytes, a file token of 13 and two such records.
/// let mut newest = Newest::new(&trail);
/// let places: Vec<usize> = newest.by_ref().map(|(place, _)| place).collect();
/// assert_eq!(places, [63, 38]);
/// assert_eq!((newest.place(), newest.boundary()), (38, Some(0)));
/// ```
#[derive(Clone, Debug)]
pub struct Newest<'a> {
    trail: &'a [u8],
    place: usize,
    boundary: Option<usize>,
}

impl<'a> Newest<'a> {
    /// The records of `trail` from its end on.
    #[inline]
    pub const fn new(trail: &'a [u8]) -> Self {
        Newest {
            trail,
            place: trail.len(),
            boundary: None,
        }
    }

    /// Where it stands: at the start of the last record handed out, or at the
    /// trail's end before the first.
    #[inline]
    pub const fn place(&self) -> usize {
        self.place
    }

    /// The need of the boundary at which it stopped, nothing before that; see
    /// [`Before::Boundary`].
    #[inline]
    pub const fn boundary(&self) -> Option<usize> {
        self.boundary
    }
}

impl<'a> Iterator for Newest<'a> {
    type Item = (usize, Item<'a>);

    #[inline]
    fn next(&mut self) -> Option<Self::Item> {
        if self.boundary.is_some() {
            return None;
        }
        match record_before(self.trail, self.place) {
            Ok(Before::Record { place, item }) => {
                self.place = place;
                Some((place, item))
            }
            Ok(Before::Boundary { need }) => {
                self.boundary = Some(need);
                None
            }
            // The place is one of the trail.
            Err(refusal) => unfit("refusal", refusal.reason.number().into()),
        }
    }
}

impl FusedIterator for Newest<'_> {}
