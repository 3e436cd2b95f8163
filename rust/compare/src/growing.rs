//! Trails that grow between two reads (paper 01, 'Lists in demand 3').

use crate::expect;
use crate::reading::show;
use crate::tally::Tally;
use reference::{Item, State};

/// Reads growing trails with the run, the reader and the iterator, each from
/// the state it handed back before.
#[derive(Debug)]
pub struct Growing<'a> {
    first: State,
    whole: Vec<(usize, Item<'a>)>,
    run: bsm::State,
    reader: bsm::Reader,
    read: usize,
    items: bsm::State,
    iterated: usize,
}

impl<'a> Growing<'a> {
    /// For the list of trails whose last one is `trail`.
    pub fn new(trail: &'a [u8], first: State) -> Self {
        Growing {
            first,
            whole: reference::reading(trail, first).0,
            run: expect::state(first),
            reader: bsm::Reader::at(expect::state(first)),
            read: 0,
            items: expect::state(first),
            iterated: 0,
        }
    }

    /// Compares with the plain reading of `trail` from the first state. The
    /// trail is copied, since a growing one may be moved.
    pub fn grown(&mut self, tally: &mut Tally, trail: &[u8]) {
        tally.input();
        let trail = &trail.to_vec()[..];
        let plain = reference::run(trail, self.first);
        tally.item_answer(trail, plain.state.place, plain.refusal);
        let expected = expect::run(plain);

        let found = bsm::run(trail, self.run);
        assert_eq!(found, expected, "{:?} of {}", self.first, show(trail));
        self.run = found.state;

        let last = loop {
            match self.reader.next(trail) {
                bsm::Step::Item { place, item: found } => {
                    let (at, whole) = self.whole[self.read];
                    assert_eq!((place, found), (at, expect::item(whole)));
                    same_address(trail, place, &whole);
                    self.read += 1;
                }
                bsm::Step::End => break None,
                bsm::Step::Short { place, need } => {
                    let reason = bsm::Reason::Short;
                    break Some(bsm::Refusal {
                        reason,
                        place,
                        need,
                    });
                }
                bsm::Step::Refused(refusal) => break Some(refusal),
            }
        };
        assert_eq!(
            (self.reader.state(), last),
            (expected.state, expected.refusal)
        );

        let mut items = bsm::Items::new(trail, self.items);
        let mut last = None;
        for found in items.by_ref() {
            match found {
                Ok((place, found)) => {
                    let (at, whole) = self.whole[self.iterated];
                    assert_eq!((place, found), (at, expect::item(whole)));
                    same_address(trail, place, &whole);
                    self.iterated += 1;
                }
                Err(refusal) => {
                    last = Some(refusal);
                    break;
                }
            }
        }
        self.items = items.state();
        assert_eq!((self.items, last), (expected.state, expected.refusal));
    }

    /// Asserts that every item of the last trail was handed out once.
    pub fn finish(&self) {
        assert_eq!(
            (self.read, self.iterated),
            (self.whole.len(), self.whole.len())
        );
    }
}

/// Compares what is told of the address in a record's header. The item was
/// read in another copy of the trail.
fn same_address(trail: &[u8], place: usize, whole: &Item<'_>) {
    let address = expect::address_of_item(whole).map(expect::address);
    assert_eq!(bsm::address_at(trail, place), address);
}
