//! Indexes of trails that grow between two fills.

use crate::expect;
use crate::index::{same_fill, same_without, UNFILLED};
use crate::tally::Tally;
use bsm::{Index, RECORDS_PER_ENTRY};
use reference::{Filled, State};

/// Fills over a growing trail, each from the state handed back before, with
/// tables that are exchanged for others.
#[derive(Debug)]
pub struct GrowingIndex {
    state: State,
    table: Vec<u64>,
    index: Option<Index<Vec<u64>>>,
}

impl Default for GrowingIndex {
    fn default() -> Self {
        GrowingIndex {
            state: State::default(),
            table: Vec::new(),
            index: Some(Index::new(Vec::new())),
        }
    }
}

impl GrowingIndex {
    /// Nothing filled, and a table without entries.
    pub fn new() -> Self {
        GrowingIndex::default()
    }

    /// Compares fills of tables of every length, from none to one more than
    /// is needed: carried on, and afresh. The trail is copied, since a growing
    /// one may be moved.
    pub fn grown(&mut self, tally: &mut Tally, trail: &[u8]) {
        let trail = &trail.to_vec()[..];
        let run = reference::run(trail, State::default());
        let count = run.state.records.div_ceil(RECORDS_PER_ENTRY);
        for length in 0..=count + 1 {
            self.filled(tally, trail, length);
        }
        assert_eq!((self.state, self.table.len()), (run.state, count));
    }

    /// Compares fills of tables of one length.
    fn filled(&mut self, tally: &mut Tally, trail: &[u8], length: usize) {
        let mut table = vec![UNFILLED; length];
        let fresh = same_fill(tally, trail, State::default(), &table);
        let copied = self.table.len().min(length);
        table[..copied].copy_from_slice(&self.table[..copied]);
        let before = (self.state, table.clone());
        let (carried, table) = same_fill(tally, trail, self.state, &table);
        assert_eq!(carried.run.refusal, fresh.0.run.refusal);
        assert_eq!(carried.count, fresh.0.count);
        if fresh
            .0
            .run
            .refusal
            .is_some_and(|refusal| refusal.number == 10)
        {
            assert_eq!((carried.run.state, table), before);
        } else {
            assert_eq!((carried, &table), (fresh.0, &fresh.1));
            self.table = table[..carried.count].to_vec();
            self.state = carried.run.state;
        }
        self.read(trail, length, carried);
    }

    /// Compares what the wrapper's index answers that is moved to a table of
    /// this length, if it has room there.
    fn read(&mut self, trail: &[u8], length: usize, carried: Filled) {
        let index = self.index.take().expect("it is put back");
        let filled = index.filled();
        let mut index = match index.moved(vec![UNFILLED; length]) {
            Ok(index) => index,
            Err((index, table)) => {
                assert!(length < filled && table == vec![UNFILLED; length]);
                self.index = Some(index);
                return;
            }
        };
        assert!(length >= filled);
        let expected = bsm::Filled {
            run: expect::run(carried.run),
            count: carried.count,
        };
        assert_eq!(index.read(trail), expected);
        assert_eq!(index.state(), expect::state(self.state));
        assert_eq!((index.table(), index.filled()), self.table_and_count());
        self.index = Some(index);
    }

    fn table_and_count(&self) -> (&[u64], usize) {
        (&self.table, self.table.len())
    }

    /// Compares a record by its number with the entries filled so far, also by
    /// the wrapper's index.
    pub fn find(&self, tally: &mut Tally, trail: &[u8], n: usize) {
        same_without(tally, trail, &self.table, self.table.len(), n);
        let index = self.index.as_ref().expect("it is put back");
        assert_eq!(index.find(trail, n), bsm::find_record(trail, &[], 0, n));
    }
}
