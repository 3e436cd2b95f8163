//! The listing: single lines, and as many lines as a buffer holds.

use crate::refusal::{written, Refusal};
use crate::state::{state_of, State};
use crate::sys;
use crate::unfit::unfit;

/// Room that suffices for any line of a listing, its line feed included.
pub const LINE_MAX: usize = sys::BSM_LINE_MAX;

/// Writes a listing's first line and answers how many bytes it took.
#[inline]
pub fn first_line(dst: &mut [u8]) -> Result<usize, Refusal> {
    // SAFETY: the pointer and the length are those of a lent slice.
    written(unsafe { sys::bsm_first_line(dst.as_mut_ptr(), dst.len()) })
}

/// Writes the line of the item at a place of a trail and answers how many
/// bytes it took. Where no item stands nothing is written, whatever the room:
/// the answer is the refusal that [`item_at`](crate::item_at) gives there, or
/// 0 bytes at the trail's end.
#[inline]
pub fn item_line(dst: &mut [u8], trail: &[u8], place: usize) -> Result<usize, Refusal> {
    // SAFETY: the pointers and lengths are those of lent slices, and `dst`
    // is borrowed alone.
    written(unsafe {
        sys::bsm_item_line(
            dst.as_mut_ptr(),
            dst.len(),
            trail.as_ptr(),
            trail.len(),
            place,
        )
    })
}

/// Writes the last line of the run from a state, the totals or the refusal,
/// and answers how many bytes it took.
#[inline]
pub fn last_line(dst: &mut [u8], trail: &[u8], state: State) -> Result<usize, Refusal> {
    // SAFETY: as in `item_line`.
    written(unsafe {
        sys::bsm_last_line(
            dst.as_mut_ptr(),
            dst.len(),
            trail.as_ptr(),
            trail.len(),
            state.place,
            state.records,
            state.files,
        )
    })
}

/// Which line of a listing comes next.
#[derive(Clone, Copy, Debug, Default, PartialEq, Eq, Hash)]
pub enum Cursor {
    /// The first.
    #[default]
    First,
    /// The one for what stands at a state.
    At(State),
    /// None.
    Done,
}

/// What [`list`] wrote.
#[derive(Clone, Copy, Debug, PartialEq, Eq, Hash)]
pub struct Listed {
    /// Bytes of lines at the start of the buffer.
    pub written: usize,
    /// The line behind them.
    pub cursor: Cursor,
}

/// Writes as many whole lines of a trail's listing as fit, from a cursor on.
/// Joined, the parts up to [`Cursor::Done`] are the listing. Where not even
/// the next line fits, nothing is written and the same cursor is handed back;
/// that cannot happen with a buffer of [`LINE_MAX`] bytes or more.
///
/// ```
/// use bsm::{list, Cursor, LINE_MAX};
///
/// let trail = b"\x11\0\0\0\x05\0\0\0\x07\0\x02a\0";
/// let mut listing = Vec::new();
/// let mut cursor = Cursor::First;
/// while cursor != Cursor::Done {
///     let mut out = [0; LINE_MAX];
///     let part = list(&mut out, trail, cursor);
///     listing.extend_from_slice(&out[..part.written]);
///     cursor = part.cursor;
/// }
/// assert_eq!(listing, b"bsmlist\t1\nF\t0\t13\t5\t7\nE\t0\t1\n");
/// ```
#[inline]
pub fn list(out: &mut [u8], trail: &[u8], cursor: Cursor) -> Listed {
    let (stage, state) = match cursor {
        Cursor::First => (sys::BSM_LIST_FIRST, State::default()),
        Cursor::At(state) => (sys::BSM_LIST_AT, state),
        Cursor::Done => (sys::BSM_LIST_DONE, State::default()),
    };
    // SAFETY: as in `item_line`.
    let told = unsafe {
        sys::bsm_list(
            out.as_mut_ptr(),
            out.len(),
            trail.as_ptr(),
            trail.len(),
            stage,
            state.place,
            state.records,
            state.files,
        )
    };
    Listed {
        written: told.written as usize,
        cursor: cursor_of(&told),
    }
}

/// The cursor that the library told.
#[inline]
pub(crate) fn cursor_of(told: &sys::bsm_listing) -> Cursor {
    match told.stage {
        sys::BSM_LIST_FIRST => Cursor::First,
        sys::BSM_LIST_AT => Cursor::At(state_of(told.place, told.records, told.files)),
        sys::BSM_LIST_DONE => Cursor::Done,
        _ => unfit("stage", told.stage),
    }
}
