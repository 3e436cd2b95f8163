//! A record by its number, with a table of places.

use crate::item::{record, Item};
use crate::refusal::Refusal;
use crate::state::{run_of, Run, State};
use crate::sys;
use crate::unfit::unfit;

/// Entry k of a table is the place of record k times this.
pub const RECORDS_PER_ENTRY: usize = 64;

/// What a fill came to.
#[derive(Clone, Copy, Debug, PartialEq, Eq, Hash)]
pub struct Filled {
    /// The run's own answer and state, or the refusal
    /// [`Reason::NoRoom`](crate::Reason::NoRoom) and the state handed in.
    pub run: Run,
    /// How many entries the records up to the run's end have: one for each
    /// [`RECORDS_PER_ENTRY`], and one for what is left over. Where the table
    /// was too short, this is how long it must be.
    pub count: usize,
}

/// Reads a trail from a state on, as [`run`](crate::run) does, and enters the
/// places of records 0, 64, 128 and so on into a table. The state's total of
/// records tells which record comes first; only the entries of records that
/// are read now are written.
///
/// Where the table is too short for all records ([`Reason::NoRoom`](crate::Reason::NoRoom)), and
/// where the run is refused with [`Reason::Place`](crate::Reason::Place), table and state stay as
/// they were. Otherwise go on with the state handed back once the trail has
/// grown: the entries are then those of one fill from the start.
///
/// ```
/// use bsm::{fill_index, Reason, State};
///
/// # let record = b"\x14\0\0\0\x19\x0b\0\x48\0\0\0\0\0\x01\0\0\0\x02\x13\xb1\x05\0\0\0\x19";
/// # let trail = record.repeat(100);
/// // `trail` has 100 records of 25 bytes.
/// let mut table = [0; 2];
/// let early = fill_index(&trail[..60 * 25], State::default(), &mut table);
/// assert_eq!((early.run.state.records, early.count), (60, 1));
/// let late = fill_index(&trail, early.run.state, &mut table);
/// assert_eq!((late.run.state.records, late.count), (100, 2));
/// assert_eq!(table, [0, 64 * 25]);
///
/// // One entry is too few.
/// let small = fill_index(&trail, State::default(), &mut table[..1]);
/// assert_eq!(small.run.refusal.unwrap().reason, Reason::NoRoom);
/// assert_eq!((small.run.state, small.count), (State::default(), 2));
/// ```
#[inline]
pub fn fill_index(trail: &[u8], state: State, table: &mut [u64]) -> Filled {
    // SAFETY: the pointers and lengths are those of lent slices, and `table`
    // is borrowed alone.
    let told = unsafe {
        sys::bsm_fill_index(
            trail.as_ptr(),
            trail.len(),
            state.place,
            state.records,
            state.files,
            table.as_mut_ptr(),
            table.len(),
        )
    };
    Filled {
        run: run_of(&told.run),
        count: told.count as usize,
    }
}

/// Record `n` of a trail, from 0, with its place, by a table whose first
/// `count` entries are filled; a count above the table's length means that
/// length.
///
/// Records are counted from the nearest filled entry at or before `n` on, or
/// from the trail's start where none is filled. Past the last accepted record
/// the answer is nothing at the trail's end, or the refusal of what stands
/// there. An entry beyond the trail is refused with
/// [`Reason::Place`](crate::Reason::Place).
///
/// With a table filled by [`fill_index`] from bytes that the trail begins
/// with, and the count told then, the answer is the one without a table. Any
/// other table is believed: the record is then the one that the entry leads
/// to.
///
/// ```
/// use bsm::{fill_index, find_record, Reason, State};
///
/// # let record = b"\x14\0\0\0\x19\x0b\0\x48\0\0\0\0\0\x01\0\0\0\x02\x13\xb1\x05\0\0\0\x19";
/// # let trail = record.repeat(100);
/// // `trail` has 100 records of 25 bytes.
/// let mut table = [0; 2];
/// let count = fill_index(&trail, State::default(), &mut table).count;
/// let found = find_record(&trail, &table, count, 70)?;
/// assert_eq!(found.unwrap().0, 70 * 25);
/// assert_eq!(found, find_record(&trail, &[], 0, 70)?);
///
/// assert_eq!(find_record(&trail, &table, count, 100)?, None);
/// let short = find_record(&trail[..2_499], &table, count, 99).unwrap_err();
/// assert_eq!((short.reason, short.place, short.need), (Reason::Short, 2_475, 25));
/// # Ok::<(), bsm::Refusal>(())
/// ```
#[inline]
pub fn find_record<'a>(
    trail: &'a [u8],
    table: &[u64],
    count: usize,
    n: usize,
) -> Result<Option<(usize, Item<'a>)>, Refusal> {
    // SAFETY: the pointers and lengths are those of lent slices.
    let told = unsafe {
        sys::bsm_find_record(
            trail.as_ptr(),
            trail.len(),
            table.as_ptr(),
            table.len(),
            count,
            n,
        )
    };
    found_record(trail, &told)
}

/// The answer with the part of the trail that it names.
#[inline]
pub(crate) fn found_record<'a>(
    trail: &'a [u8],
    told: &sys::bsm_found,
) -> Result<Option<(usize, Item<'a>)>, Refusal> {
    let sys::bsm_found { item, place } = told;
    match item.kind {
        sys::BSM_RECORD => Ok(Some((*place as usize, record(trail, item)))),
        sys::BSM_END => Ok(None),
        sys::BSM_REFUSED => Err(Refusal::of(item.number, item.place, item.need)),
        kind => unfit("item kind", kind),
    }
}

/// An index of a trail that may grow: a table, and the state up to which it
/// is filled. The table may be a slice lent for writing, an array or, where
/// there is an allocator, a vector. It has one entry for
/// [`RECORDS_PER_ENTRY`] records.
///
/// Each trail must begin with the one before.
///
/// ```
/// use bsm::{Index, Reason};
///
/// # let record = b"\x14\0\0\0\x19\x0b\0\x48\0\0\0\0\0\x01\0\0\0\x02\x13\xb1\x05\0\0\0\x19";
/// # let trail = record.repeat(100);
/// // `trail` has 100 records of 25 bytes, of which 40 have been written so far.
/// let mut index = Index::new([0; 1]);
/// assert_eq!(index.read(&trail[..40 * 25]).run.refusal, None);
/// assert_eq!(index.state().records, 40);
///
/// // For 100 the table is too short, and the index stays as it was.
/// let grown = index.read(&trail);
/// assert_eq!(grown.run.refusal.unwrap().reason, Reason::NoRoom);
/// assert_eq!(index.state().records, 40);
///
/// // With a longer table it goes on.
/// let mut index = index.moved(vec![0; grown.count]).expect("it is long enough");
/// assert_eq!(index.read(&trail).run.refusal, None);
/// assert_eq!(index.table(), [0, 1_600]);
/// assert_eq!(index.find(&trail, 99)?.unwrap().0, 99 * 25);
/// # Ok::<(), bsm::Refusal>(())
/// ```
#[derive(Clone, Debug)]
pub struct Index<T> {
    table: T,
    state: State,
}

impl<T: AsRef<[u64]> + AsMut<[u64]>> Index<T> {
    /// An index of which nothing is filled. What stands in the table does not
    /// count.
    #[inline]
    pub const fn new(table: T) -> Self {
        Index {
            table,
            state: State::new(0, 0, 0),
        }
    }

    /// Fills the table with what the trail has from the state on. Where that
    /// is refused with [`Reason::NoRoom`](crate::Reason::NoRoom), move the index to a table of
    /// [`Filled::count`] entries; where with
    /// [`Reason::Place`](crate::Reason::Place), the trail has become shorter.
    /// Both leave the index as it was.
    #[inline]
    pub fn read(&mut self, trail: &[u8]) -> Filled {
        let filled = fill_index(trail, self.state, self.table.as_mut());
        self.state = filled.run.state;
        filled
    }

    /// Record `n` of the trail, from 0, with its place; see [`find_record`].
    /// The trail may have grown since it was read.
    #[inline]
    pub fn find<'a>(
        &self,
        trail: &'a [u8],
        n: usize,
    ) -> Result<Option<(usize, Item<'a>)>, Refusal> {
        find_record(trail, self.table.as_ref(), self.filled(), n)
    }

    /// Up to where the trail was read.
    #[inline]
    pub const fn state(&self) -> State {
        self.state
    }

    /// How many entries are filled.
    #[inline]
    pub const fn filled(&self) -> usize {
        self.state.records.div_ceil(RECORDS_PER_ENTRY)
    }

    /// The filled entries.
    #[inline]
    pub fn table(&self) -> &[u64] {
        let table = self.table.as_ref();
        &table[..self.filled().min(table.len())]
    }

    /// The same index in another table, which is given back with the index
    /// where it is too short for the filled entries.
    pub fn moved<U: AsRef<[u64]> + AsMut<[u64]>>(
        self,
        mut table: U,
    ) -> Result<Index<U>, (Self, U)> {
        let filled = self.table();
        match table.as_mut().get_mut(..filled.len()) {
            Some(part) => part.copy_from_slice(filled),
            None => return Err((self, table)),
        }
        let state = self.state;
        Ok(Index { table, state })
    }
}

#[cfg(test)]
mod tests {
    extern crate std;

    use super::*;
    use crate::refusal::Reason;
    use std::vec;

    /// The smallest record.
    const RECORD: &[u8; 25] =
        b"\x14\0\0\0\x19\x0b\0\x48\0\0\0\0\0\x01\0\0\0\x02\x13\xb1\x05\0\0\0\x19";

    /// Reads 130 records with a table of three entries or more.
    fn reads<T: AsRef<[u64]> + AsMut<[u64]>>(table: T) -> Index<T> {
        let trail = RECORD.repeat(130);
        let mut index = Index::new(table);
        let filled = index.read(&trail);
        assert_eq!((filled.run.refusal, filled.count), (None, 3));
        assert_eq!(index.table(), [0, 1_600, 3_200]);
        assert_eq!(index.find(&trail, 129).unwrap().unwrap().0, 3_225);
        index
    }

    #[test]
    fn tables_of_all_kinds() {
        reads([7; 3]);
        reads(vec![7; 5]);
        reads(&mut [7; 4]);
        let mut lent = [7; 4];
        reads(&mut lent[..]);
        assert_eq!(lent, [0, 1_600, 3_200, 7]);
    }

    #[test]
    fn moved_where_there_is_room() {
        let (index, short) = reads([7; 3]).moved(vec![7; 2]).unwrap_err();
        assert_eq!(short, [7; 2]);
        let moved = index.moved([7; 4]).unwrap();
        assert_eq!((moved.filled(), moved.state().records), (3, 130));
        assert_eq!(moved.table, [0, 1_600, 3_200, 7]);
    }

    /// A trail that became shorter, and a table too short, leave the index.
    #[test]
    fn refused_and_as_it_was() {
        let mut index = reads([7; 3]);
        let state = index.state();
        let shorter = index.read(&RECORD.repeat(129));
        assert_eq!(shorter.run.refusal.unwrap().reason, Reason::Place);
        let longer = index.read(&RECORD.repeat(193));
        assert_eq!(longer.run.refusal.unwrap().reason, Reason::NoRoom);
        assert_eq!((shorter.count, longer.count), (3, 4));
        assert_eq!((index.state(), index.filled()), (state, 3));
        assert_eq!(index.table, [0, 1_600, 3_200]);
    }

    /// Nothing is read or written through the pointers of empty parts.
    #[test]
    fn nothing_lent() {
        let mut index = Index::new([]);
        let filled = index.read(&[]);
        assert_eq!((filled.run.refusal, filled.count), (None, 0));
        assert_eq!((index.find(&[], 0), index.table()), (Ok(None), &[][..]));
    }
}
