//! Reading the items of a trail one after the other, also while it grows.

use crate::item::Item;
use crate::refusal::{Reason, Refusal};
use crate::state::{next, State, Step};
use core::iter::FusedIterator;

/// Reads a trail that may grow, and may be moved, between two steps: it
/// holds the state only, and is lent the trail for each step.
///
/// Each trail must begin with the one before. A record that is half there is
/// [`Step::Short`]: ask again once the bytes it needs are there.
///
/// ```
/// use bsm::{Reader, Step};
///
/// # let whole = b"\x14\0\0\0\x19\x0b\0\x48\0\0\0\0\0\x01\0\0\0\x02\x13\xb1\x05\0\0\0\x19";
/// // `whole` is a record of 25 bytes, of which 20 have been written so far.
/// let mut trail = whole[..20].to_vec();
/// let mut reader = Reader::new();
/// assert_eq!(reader.next(&trail), Step::Short { place: 0, need: 25 });
///
/// // Nothing changes before the bytes it needs are there.
/// trail.push(whole[20]);
/// assert_eq!(reader.next(&trail), Step::Short { place: 0, need: 25 });
///
/// trail.extend(&whole[21..]);
/// assert!(matches!(reader.next(&trail), Step::Item { place: 0, .. }));
/// assert_eq!(reader.next(&trail), Step::End);
/// assert_eq!(reader.state().records, 1);
/// ```
#[derive(Clone, Copy, Debug, Default, PartialEq, Eq)]
pub struct Reader {
    state: State,
}

impl Reader {
    /// A reader at the start of a trail.
    #[inline]
    pub const fn new() -> Self {
        Reader::at(State::new(0, 0, 0))
    }

    /// A reader that goes on from a state.
    #[inline]
    pub const fn at(state: State) -> Self {
        Reader { state }
    }

    /// Where the reading stands: behind the last item.
    #[inline]
    pub const fn state(&self) -> State {
        self.state
    }

    /// What stands at the state. An item moves the state behind it.
    #[inline]
    pub fn next<'a>(&mut self, trail: &'a [u8]) -> Step<'a> {
        let (step, after) = next(trail, self.state);
        self.state = after;
        step
    }
}

/// The items of one buffer from a state on, each with its place.
///
/// The first refusal, a short one included, comes as an error and is the
/// last. [`state`](Items::state) then says where to go on with a longer
/// buffer.
///
/// ```
/// use bsm::{Items, Reason, State};
///
/// # let whole = b"\x11\0\0\0\x05\0\0\0\x07\0\x02a\0\
/// #     \x14\0\0\0\x19\x0b\0\x48\0\0\0\0\0\x01\0\0\0\x02\x13\xb1\x05\0\0\0\x19";
/// // `whole` is a file token of 13 bytes and a record of 25.
/// let mut early = Items::new(&whole[..30], State::default());
/// assert!(early.next().unwrap().is_ok());
/// let short = early.next().unwrap().unwrap_err();
/// assert_eq!((short.reason, short.place, short.need), (Reason::Short, 13, 25));
/// assert!(early.next().is_none());
///
/// let mut late = Items::new(whole, early.state());
/// let (place, record) = late.next().unwrap()?;
/// assert_eq!((place, record.size()), (13, 25));
/// assert!(late.next().is_none());
/// # Ok::<(), bsm::Refusal>(())
/// ```
#[derive(Clone, Debug)]
pub struct Items<'a> {
    trail: &'a [u8],
    state: State,
    refused: bool,
}

impl<'a> Items<'a> {
    /// The items of `trail` from `state` on.
    #[inline]
    pub const fn new(trail: &'a [u8], state: State) -> Self {
        Items {
            trail,
            state,
            refused: false,
        }
    }

    /// The state behind the last item handed out.
    #[inline]
    pub const fn state(&self) -> State {
        self.state
    }
}

impl<'a> Iterator for Items<'a> {
    type Item = Result<(usize, Item<'a>), Refusal>;

    #[inline]
    fn next(&mut self) -> Option<Self::Item> {
        if self.refused {
            return None;
        }
        let (step, after) = next(self.trail, self.state);
        self.state = after;
        let refusal = match step {
            Step::Item { place, item } => return Some(Ok((place, item))),
            Step::End => return None,
            Step::Short { place, need } => Refusal {
                reason: Reason::Short,
                place,
                need,
            },
            Step::Refused(refusal) => refusal,
        };
        self.refused = true;
        Some(Err(refusal))
    }
}

impl FusedIterator for Items<'_> {}
