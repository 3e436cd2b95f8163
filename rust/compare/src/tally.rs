//! Counting what was compared.

use crate::index::Indexed;
use generator::{address_fault, body_address_fault, call_address_fault};
use generator::{body_subjects, call_subjects, item_subjects};
use generator::{large_version, spoilt_body, spoilt_call, spoilt_item, spoilt_token};
use generator::{AddressFault, Beside, Ending, Spoilt, WriteArgs};
use generator::{ENDINGS, LARGE_VERSIONS, SUBJECT_PAIRS, TOKEN_NUMBERS};
use reference::Refusal;
use std::collections::BTreeMap;
use std::fmt::Debug;

/// How often a refusal, a kind of it or a token kind must come at least.
const OFTEN: usize = 100;

/// What can be wrong with an address where something is read.
pub const READ_FAULTS: [AddressFault; 4] = [
    AddressFault::Type,
    AddressFault::Count,
    AddressFault::NoType,
    AddressFault::NoAddress,
];

/// The numbers of the headers with an address.
pub const EXPANDED_HEADERS: [u8; 2] = [0x15, 0x79];

/// Counters of one test.
#[derive(Clone, Debug)]
pub struct Tally {
    inputs: usize,
    ends: usize,
    refusals: [usize; 15],
    kinds: [usize; 256],
    texts: BTreeMap<(u8, Spoilt), usize>,
    versions: BTreeMap<(u8, Beside), usize>,
    endings: BTreeMap<Ending, usize>,
    addresses: BTreeMap<(u8, usize), usize>,
    faults: BTreeMap<(u8, AddressFault), usize>,
    subjects: BTreeMap<(u8, (u8, u8)), usize>,
    indexed: BTreeMap<Indexed, usize>,
}

impl Default for Tally {
    fn default() -> Self {
        Tally::new()
    }
}

impl Tally {
    /// All zero.
    pub fn new() -> Self {
        Tally {
            inputs: 0,
            ends: 0,
            refusals: [0; 15],
            kinds: [0; 256],
            texts: BTreeMap::new(),
            versions: BTreeMap::new(),
            endings: BTreeMap::new(),
            addresses: BTreeMap::new(),
            faults: BTreeMap::new(),
            subjects: BTreeMap::new(),
            indexed: BTreeMap::new(),
        }
    }

    /// One more input.
    pub fn input(&mut self) {
        self.inputs += 1;
    }

    /// The inputs so far.
    pub fn inputs(&self) -> usize {
        self.inputs
    }

    /// One answer: a refusal, or none.
    pub fn answer(&mut self, refusal: Option<Refusal>) {
        match refusal {
            None => self.ends += 1,
            Some(refusal) => self.refusals[usize::from(refusal.number)] += 1,
        }
    }

    /// The same of the item at `start`; for 8, and where an address or a second
    /// subject is why, also what offends.
    pub fn item_answer(&mut self, trail: &[u8], start: usize, refusal: Option<Refusal>) {
        self.answer(refusal);
        self.spoilt(refusal, |place| spoilt_item(trail, start, place));
        self.fault(refusal, |refusal| address_fault(trail, start, refusal));
        self.second(refusal, |refusal| item_subjects(trail, start, refusal));
    }

    /// The same of a whole body.
    pub fn body_answer(&mut self, body: &[u8], refusal: Option<Refusal>) {
        self.answer(refusal);
        self.spoilt(refusal, |place| spoilt_body(body, place));
        self.fault(refusal, |refusal| body_address_fault(body, refusal));
        self.second(refusal, |refusal| body_subjects(body, refusal));
    }

    /// The same of the token at `start`.
    pub fn token_answer(&mut self, body: &[u8], start: usize, refusal: Option<Refusal>) {
        self.answer(refusal);
        self.spoilt(refusal, |place| spoilt_token(body, start, place));
        self.fault(refusal, |refusal| body_address_fault(body, refusal));
    }

    /// The same of a writer and its room; for a version over 255 also what
    /// else is wrong.
    pub fn write_answer(&mut self, args: &WriteArgs, room: usize, refusal: Option<Refusal>) {
        self.answer(refusal);
        self.spoilt(refusal, |place| spoilt_call(args, place));
        self.fault(refusal, |refusal| call_address_fault(args, refusal));
        self.second(refusal, |refusal| call_subjects(args, refusal));
        if let Some(kind) = large_version(args, room) {
            *self.versions.entry(kind).or_insert(0) += 1;
        }
    }

    /// Counts what offends where a refusal is 8.
    fn spoilt(&mut self, refusal: Option<Refusal>, told: impl Fn(usize) -> (u8, Spoilt)) {
        if let Some(Refusal {
            number: 8, place, ..
        }) = refusal
        {
            *self.texts.entry(told(place)).or_insert(0) += 1;
        }
    }

    /// Counts what is wrong with an address where a refusal is for that.
    fn fault(
        &mut self,
        refusal: Option<Refusal>,
        told: impl Fn(&Refusal) -> Option<(u8, AddressFault)>,
    ) {
        if let Some(kind) = refusal.as_ref().and_then(told) {
            *self.faults.entry(kind).or_insert(0) += 1;
        }
    }

    /// Counts the kinds of two subjects where a refusal is for the second.
    fn second(&mut self, refusal: Option<Refusal>, told: impl Fn(&Refusal) -> Option<(u8, u8)>) {
        let Some(refusal) = refusal else {
            return;
        };
        if let Some(pair) = told(&refusal) {
            *self.subjects.entry((refusal.number, pair)).or_insert(0) += 1;
        }
    }

    /// One address of so many bytes that was read, or given to be written, in
    /// the header or token with this number.
    pub fn address(&mut self, number: u8, length: usize) {
        *self.addresses.entry((number, length)).or_insert(0) += 1;
    }

    /// One step back that met this.
    pub fn ending(&mut self, ending: Ending) {
        *self.endings.entry(ending).or_insert(0) += 1;
    }

    /// One fill, or one record asked for by its number, that came to this.
    pub fn indexed(&mut self, indexed: Indexed) {
        *self.indexed.entry(indexed).or_insert(0) += 1;
    }

    /// One token or item of this kind, read or written; a record counts for
    /// its header.
    pub fn kind(&mut self, number: u8) {
        self.kinds[usize::from(number)] += 1;
    }

    /// Adds the counters of another.
    pub fn add(&mut self, other: &Tally) {
        self.inputs += other.inputs;
        self.ends += other.ends;
        for (sum, more) in self.refusals.iter_mut().zip(other.refusals) {
            *sum += more;
        }
        for (sum, more) in self.kinds.iter_mut().zip(other.kinds) {
            *sum += more;
        }
        add_counts(&mut self.texts, &other.texts);
        add_counts(&mut self.versions, &other.versions);
        add_counts(&mut self.endings, &other.endings);
        add_counts(&mut self.addresses, &other.addresses);
        add_counts(&mut self.faults, &other.faults);
        add_counts(&mut self.subjects, &other.subjects);
        add_counts(&mut self.indexed, &other.indexed);
    }

    /// How often no refusal came, and each of the refusals from 1 on.
    pub fn answers(&self) -> (usize, &[usize]) {
        (self.ends, &self.refusals[1..])
    }

    /// How often this refusal came.
    pub fn refused_times(&self, number: u8) -> usize {
        self.refusals[usize::from(number)]
    }

    /// How often tokens or items of this kind came.
    pub fn times(&self, number: u8) -> usize {
        self.kinds[usize::from(number)]
    }

    /// How often the text of the token or file token with this number offended
    /// in this way.
    pub fn spoilt_times(&self, kind: (u8, Spoilt)) -> usize {
        self.texts.get(&kind).copied().unwrap_or(0)
    }

    /// How often a record with this header was to be written with a version
    /// over 255 and this beside it.
    pub fn version_times(&self, kind: (u8, Beside)) -> usize {
        self.versions.get(&kind).copied().unwrap_or(0)
    }

    /// How often a step back met this.
    pub fn ending_times(&self, ending: Ending) -> usize {
        self.endings.get(&ending).copied().unwrap_or(0)
    }

    /// How often a fill, or a record asked for by its number, came to this.
    pub fn indexed_times(&self, indexed: Indexed) -> usize {
        self.indexed.get(&indexed).copied().unwrap_or(0)
    }

    /// How often the header or token with this number had, or was to be given,
    /// an address of so many bytes.
    pub fn address_times(&self, number: u8, length: usize) -> usize {
        self.addresses.get(&(number, length)).copied().unwrap_or(0)
    }

    /// How often this was wrong with the address of the header or token with
    /// this number.
    pub fn fault_times(&self, kind: (u8, AddressFault)) -> usize {
        self.faults.get(&kind).copied().unwrap_or(0)
    }

    /// How often a second subject, of the kinds of this pair, was refused with
    /// 7, 13 or 14.
    pub fn pair_times(&self, number: u8, pair: (u8, u8)) -> usize {
        self.subjects.get(&(number, pair)).copied().unwrap_or(0)
    }

    /// The same, whatever the kinds.
    pub fn second_times(&self, number: u8) -> usize {
        let pairs = SUBJECT_PAIRS.into_iter();
        pairs.map(|pair| self.pair_times(number, pair)).sum()
    }

    /// Prints the counters and asserts the share of inputs, and that each of
    /// these refusals, and an answer without one, came often.
    pub fn finish(&self, test: &str, share: usize, refusals: impl IntoIterator<Item = u8>) {
        println!(
            "{test}: {} inputs, {} not refused, refusals 1 to 14: {:?}",
            self.inputs,
            self.ends,
            &self.refusals[1..]
        );
        assert!(self.inputs >= share, "{test}: {} inputs", self.inputs);
        assert!(self.ends >= OFTEN, "{test}: {} not refused", self.ends);
        for number in refusals {
            let times = self.refused_times(number);
            assert!(times >= OFTEN, "{test}: refusal {number} {times} times");
        }
    }

    /// Prints what offended in texts that are refused with 8, and asserts that
    /// each of these kinds came often.
    pub fn finish_texts(&self, test: &str, kinds: &[(u8, Spoilt)]) {
        println!("{test}: texts {}", shown(&self.texts));
        each_often(test, kinds, |kind| self.spoilt_times(kind));
    }

    /// The same of the ways to offend, whatever the token.
    pub fn finish_ways(&self, test: &str, ways: &[Spoilt]) {
        println!("{test}: texts {}", shown(&self.texts));
        each_often(test, ways, |way| of_way(&self.texts, way));
    }

    /// Prints what was wrong beside versions over 255, and asserts that each
    /// came often.
    pub fn finish_versions(&self, test: &str) {
        println!("{test}: versions over 255 {}", shown(&self.versions));
        each_often(test, &LARGE_VERSIONS, |kind| self.version_times(kind));
    }

    /// Prints what was wrong with addresses, and asserts that each of these
    /// came often.
    pub fn finish_faults(&self, test: &str, kinds: &[(u8, AddressFault)]) {
        println!("{test}: addresses refused {}", shown(&self.faults));
        each_often(test, kinds, |kind| self.fault_times(kind));
    }

    /// The same of what can be wrong with them, whatever the header or token.
    pub fn finish_fault_ways(&self, test: &str, ways: &[AddressFault]) {
        println!("{test}: addresses refused {}", shown(&self.faults));
        each_often(test, ways, |way| of_way(&self.faults, way));
    }

    /// Asserts that 14 came often for each pair of kinds of subjects.
    pub fn finish_subjects(&self, test: &str) {
        each_often(test, &SUBJECT_PAIRS, |pair| self.pair_times(14, pair));
    }

    /// Prints how often addresses of either length came in the headers or
    /// tokens with these numbers, and asserts that each came often.
    pub fn finish_addresses(&self, test: &str, numbers: &[u8]) {
        for length in [4, 16] {
            let times = |number| self.address_times(number, length);
            let all: Vec<usize> = numbers.iter().map(|number| times(*number)).collect();
            println!("{test}: addresses of {length} bytes in {numbers:02X?} {all:?}");
            each_often(test, numbers, times);
        }
    }

    /// Prints what steps back met, and asserts that each came often.
    pub fn finish_endings(&self, test: &str) {
        println!("{test}: before places {:?}", self.endings);
        each_often(test, &ENDINGS, |ending| self.ending_times(ending));
    }

    /// Prints what fills and records asked for by their numbers came to, and
    /// asserts that each of these came often.
    pub fn finish_indexed(&self, test: &str, kinds: &[Indexed]) {
        println!("{test}: {:?}", self.indexed);
        each_often(test, kinds, |kind| self.indexed_times(kind));
    }

    /// Asserts that each of the twenty-five token kinds came often.
    pub fn finish_kinds(&self, test: &str) {
        let times = TOKEN_NUMBERS.map(|number| self.times(number));
        println!("{test}: kinds {times:?}");
        each_often(test, &TOKEN_NUMBERS, |number| self.times(number));
    }
}

/// Counters by a number and a way, as they are printed.
fn shown<W: Debug>(counts: &BTreeMap<(u8, W), usize>) -> String {
    let shown: Vec<String> = counts
        .iter()
        .map(|((number, way), times)| format!("{number:02X} {way:?} {times}"))
        .collect();
    shown.join(", ")
}

/// The sum of those of one way.
fn of_way<W: PartialEq>(counts: &BTreeMap<(u8, W), usize>, way: W) -> usize {
    let of_it = counts.iter().filter(|((_, found), _)| *found == way);
    of_it.map(|(_, times)| times).sum()
}

/// Asserts that each of these came often.
fn each_often<K: Copy + Debug>(test: &str, kinds: &[K], times: impl Fn(K) -> usize) {
    for kind in kinds {
        let times = times(*kind);
        assert!(times >= OFTEN, "{test}: {kind:02X?} {times} times");
    }
}

/// Adds the counters of another map.
fn add_counts<K: Copy + Ord>(sums: &mut BTreeMap<K, usize>, more: &BTreeMap<K, usize>) {
    for (kind, times) in more {
        *sums.entry(*kind).or_insert(0) += times;
    }
}
