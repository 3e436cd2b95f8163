//! The reading state, one step, and the run.

use crate::item::{found, Item};
use crate::refusal::{Reason, Refusal};
use crate::sys;

/// Where a reading stands. The default is a fresh state. Later versions may
/// have more fields, so that other crates make one with [`State::new`].
#[derive(Clone, Copy, Debug, Default, PartialEq, Eq, Hash)]
#[non_exhaustive]
pub struct State {
    /// Where the next item starts.
    pub place: usize,
    /// Records read so far.
    pub records: usize,
    /// File tokens read so far.
    pub files: usize,
}

impl State {
    /// The state at `place` with these totals.
    #[inline]
    pub const fn new(place: usize, records: usize, files: usize) -> Self {
        State {
            place,
            records,
            files,
        }
    }
}

/// What a step from a state finds.
#[derive(Clone, Copy, Debug, PartialEq, Eq)]
pub enum Step<'a> {
    /// An item.
    Item {
        /// Where it starts.
        place: usize,
        /// The item.
        item: Item<'a>,
    },
    /// All of the trail is read. More may come.
    End,
    /// The item at the state is not all there: the answer stays the same
    /// until `need` bytes stand from `place` on.
    Short {
        /// Where the item starts.
        place: usize,
        /// How many bytes must stand there.
        need: usize,
    },
    /// A refusal other than short. Longer trails are refused in the same
    /// way, except where the reason is [`Reason::Place`].
    Refused(Refusal),
}

/// One step from a state: what stands there, and the state after it. Only an
/// item moves the state.
#[inline]
pub fn next(trail: &[u8], state: State) -> (Step<'_>, State) {
    let State {
        place,
        records,
        files,
    } = state;
    // SAFETY: the pointer and the length are those of a lent slice.
    let told = unsafe { sys::bsm_next(trail.as_ptr(), trail.len(), place, records, files) };
    let step = match found(trail, &told.item) {
        Ok(Some(item)) => Step::Item { place, item },
        Ok(None) => Step::End,
        Err(Refusal {
            reason: Reason::Short,
            place,
            need,
        }) => Step::Short { place, need },
        Err(refusal) => Step::Refused(refusal),
    };
    (step, state_of(told.place, told.records, told.files))
}

/// How a run ended.
#[derive(Clone, Copy, Debug, PartialEq, Eq, Hash)]
pub struct Run {
    /// The state at the first item not accepted.
    pub state: State,
    /// Why it was not, or nothing at the trail's end.
    pub refusal: Option<Refusal>,
}

/// Reads items from a state on until the trail's end or a refusal.
///
/// The state handed back is good for going on with a longer trail, whatever
/// ended the run.
///
/// ```
/// use bsm::{run, Reason, State};
///
/// let trail = b"\x11\0\0\0\x05\0\0\0\x07\0\x02a\0";
/// let early = run(&trail[..12], State::default());
/// let short = early.refusal.unwrap();
/// assert_eq!((short.reason, short.place, short.need), (Reason::Short, 0, 13));
///
/// let late = run(trail, early.state);
/// assert_eq!(late.refusal, None);
/// assert_eq!((late.state.place, late.state.records, late.state.files), (13, 0, 1));
/// ```
#[inline]
pub fn run(trail: &[u8], state: State) -> Run {
    // SAFETY: the pointer and the length are those of a lent slice.
    let told = unsafe {
        sys::bsm_run(
            trail.as_ptr(),
            trail.len(),
            state.place,
            state.records,
            state.files,
        )
    };
    run_of(&told)
}

/// The run that the library told.
#[inline]
pub(crate) fn run_of(told: &sys::bsm_outcome) -> Run {
    Run {
        state: state_of(told.place, told.records, told.files),
        refusal: (told.number != 0).then(|| Refusal::of(told.number, told.at, told.need)),
    }
}

#[inline]
pub(crate) fn state_of(place: u64, records: u64, files: u64) -> State {
    State::new(place as usize, records as usize, files as usize)
}
