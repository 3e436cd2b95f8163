//! Comparing with ever new seeds.

use crate::back::{same_around, same_before, same_newest};
use crate::expect::{self, REASONS};
use crate::growing::Growing;
use crate::growing_index::GrowingIndex;
use crate::index::{same_fill, same_find, Indexed, INDEXED, UNFILLED};
use crate::lines::{same_lines, same_parts};
use crate::reading::{same_item, same_items, same_run, same_step};
use crate::tally::{Tally, EXPANDED_HEADERS};
use crate::tokens::{same_body, same_token};
use crate::writing::same_write;
use bsm::{Cursor, LINE_MAX};
use generator::*;
use reference::{Item, State};
use std::fmt::{self, Display, Formatter};
use std::panic::{catch_unwind, AssertUnwindSafe};
use std::sync::atomic::{AtomicBool, AtomicU64, Ordering};
use std::sync::Mutex;
use std::thread;

/// Compares library and reference on what one seed gives. Panics where they
/// differ.
pub fn compare_seed(tally: &mut Tally, seed: u64) {
    let mut rng = Rng::new(seed);
    for _ in 0..4 {
        let (trail, state) = any_input(&mut rng);
        same_trail(tally, &mut rng, &trail, state);
        same_listing(tally, &mut rng, &trail, state);
        same_back(tally, &mut rng, &trail);
        let body = any_body(&mut rng);
        same_tokens(tally, &mut rng, &body);
    }
    for aim in ENDINGS {
        let (trail, place) = with_ending(&mut rng, aim);
        same_before(tally, &trail, place);
        same_around(tally, &mut rng, &trail, place);
    }
    same_index(tally, &mut rng);
    for call in write_calls(&mut rng) {
        let need = call.args.size();
        for room in [call.room, need, need.saturating_sub(1)] {
            let _ = same_write(tally, &mut rng, &call.args, room);
        }
    }
}

/// Compares a trail's run, steps, items and bodies, also while it grows.
fn same_trail(tally: &mut Tally, rng: &mut Rng, trail: &[u8], state: State) {
    let run = same_run(tally, trail, state);
    same_step(trail, state);
    same_step(trail, run.state);
    same_items(trail, state);
    for (place, item) in reference::reading(trail, state).0 {
        same_item(tally, trail, place);
        match item {
            Item::File { .. } => tally.kind(0x11),
            Item::Record { header, body, .. } => {
                tally.kind(header.number);
                same_body(tally, body);
            }
        }
    }
    for place in [run.state.place, wild_place(rng, trail.len())] {
        same_item(tally, trail, place);
    }
    let mut growing = Growing::new(trail, state);
    for cut in growth(rng, trail.len()) {
        growing.grown(tally, &trail[..cut]);
    }
    growing.finish();
}

/// Compares the walk from a trail's end, and steps back from some places.
fn same_back(tally: &mut Tally, rng: &mut Rng, trail: &[u8]) {
    same_newest(trail);
    for place in [trail.len(), wild_place(rng, trail.len())] {
        same_before(tally, trail, place);
        same_around(tally, rng, trail, place);
    }
}

/// Compares fills of an index while a trail grows and from a wild state, and
/// records by their numbers with its table and with a wild one.
fn same_index(tally: &mut Tally, rng: &mut Rng) {
    let trail = indexed_trail(rng, 200);
    let mut growing = GrowingIndex::new();
    for cut in growth(rng, trail.len()) {
        growing.grown(tally, &trail[..cut]);
        let records = reference::run(&trail[..cut], State::default())
            .state
            .records;
        growing.find(tally, &trail, wild_number(rng, records));
    }
    for _ in 0..4 {
        let table = wild_table(rng, &trail);
        let count = wild_count(rng, table.len());
        let n = wild_number(rng, 200);
        same_find(tally, &trail, &table, count, n);
        let state = wild_state(rng, trail.len());
        let entries = rng.below(12);
        same_fill(tally, &trail, state, &vec![UNFILLED; entries]);
    }
}

/// Compares lines and parts of a listing.
fn same_listing(tally: &mut Tally, rng: &mut Rng, trail: &[u8], state: State) {
    same_lines(tally, rng, trail, state);
    let cursor = rng.pick(&[Cursor::First, Cursor::At(expect::state(state))]);
    let least = rng.pick(&[0, LINE_MAX]);
    let most = rng.pick(&[60, LINE_MAX, 600]);
    same_parts(tally, rng, trail, cursor, |rng| rng.between(least, most));
}

/// Compares a body's walk and its tokens, at all places where it is small.
fn same_tokens(tally: &mut Tally, rng: &mut Rng, body: &[u8]) {
    same_body(tally, body);
    if body.len() <= 200 {
        for place in 0..=body.len() + 1 {
            same_token(tally, body, place);
        }
    }
    for _ in 0..4 {
        let place = wild_place(rng, body.len());
        same_token(tally, body, place);
    }
}

/// What a soak has compared.
#[derive(Debug, Default)]
pub struct Soaked {
    /// How many seeds.
    pub seeds: u64,
    /// The counters of all of them.
    pub tally: Tally,
    /// The seed at which library and reference differ.
    pub differs: Option<u64>,
}

/// Runs `compare` with seeds from `first` on, on several threads, until
/// `enough` says so or a seed makes it panic.
pub fn soak(
    first: u64,
    threads: usize,
    enough: impl Fn() -> bool + Sync,
    compare: impl Fn(&mut Tally, u64) + Sync,
) -> Soaked {
    let next = AtomicU64::new(first);
    let stop = AtomicBool::new(false);
    let all = Mutex::new(Soaked::default());
    let work = || {
        let mut own = Soaked::default();
        while !stop.load(Ordering::Relaxed) && !enough() {
            let seed = next.fetch_add(1, Ordering::Relaxed);
            own.seeds += 1;
            let same = catch_unwind(AssertUnwindSafe(|| compare(&mut own.tally, seed)));
            if same.is_err() {
                own.differs = Some(seed);
                stop.store(true, Ordering::Relaxed);
            }
        }
        let mut all = all.lock().expect("nothing panics while it is held");
        all.seeds += own.seeds;
        all.tally.add(&own.tally);
        all.differs = all.differs.or(own.differs);
    };
    thread::scope(|scope| {
        for _ in 0..threads {
            scope.spawn(work);
        }
    });
    all.into_inner()
        .expect("nothing panicked while it was held")
}

/// Names of the items' first tokens.
const ITEMS: [(u8, &str); 5] = [
    (0x11, "file"),
    (0x14, "header32"),
    (0x15, "header32_ex"),
    (0x74, "header64"),
    (0x79, "header64_ex"),
];

/// Names of the body tokens, in the order of [`TOKEN_NUMBERS`].
const TOKENS: [&str; 25] = [
    "path",
    "subject32",
    "process32",
    "return32",
    "text",
    "opaque",
    "in_addr",
    "ip",
    "iport",
    "arg32",
    "seq",
    "ipc_perm",
    "newgroups",
    "exec_args",
    "exec_env",
    "exit",
    "arg64",
    "return64",
    "subject64",
    "process64",
    "subject32_ex",
    "process32_ex",
    "subject64_ex",
    "process64_ex",
    "in_addr_ex",
];

/// The name of an item's first token or of a body token.
fn name_of(number: u8) -> &'static str {
    let tokens = TOKEN_NUMBERS.into_iter().zip(TOKENS);
    let mut all = ITEMS.into_iter().chain(tokens);
    all.find(|(known, _)| *known == number)
        .map_or("?", |(_, name)| name)
}

/// What offends, in a few words.
fn words_for(spoilt: Spoilt) -> &'static str {
    match spoilt {
        Spoilt::Early => "a zero byte too early",
        Spoilt::Last => "no zero byte at the end",
        Spoilt::Empty => "length 0",
        Spoilt::LongName => "length over 1,024",
        Spoilt::ZeroGiven => "a zero byte, given to the writer",
        Spoilt::LongGiven => "too long, given to the writer",
        Spoilt::LongZeroGiven => "too long and a zero byte, given to the writer",
        Spoilt::NotStrings => "not the strings said, given to the writer",
    }
}

/// What is wrong with an address, in a few words.
fn words_for_address(fault: AddressFault) -> &'static str {
    match fault {
        AddressFault::Type => "a type that is neither 4 nor 16",
        AddressFault::Count => "a count too small for the larger address",
        AddressFault::NoType => "past the body's end before the type's",
        AddressFault::NoAddress => "past the body's end behind the type",
        AddressFault::Given => "another length, given to the writer",
    }
}

/// What stands before a place, in a few words.
fn words_before(ending: Ending) -> &'static str {
    match ending {
        Ending::Beyond => "nothing, it lies beyond the trail",
        Ending::Few => "fewer than seven bytes",
        Ending::NoTrailer => "no trailer",
        Ending::LargeCount => "a count over 65,535",
        Ending::FarCount => "a count beyond the place",
        Ending::NoItem => "a trailer, and no item where its count says",
        Ending::FileToken => "a trailer, and a file token where its count says",
        Ending::OtherSize => "a trailer, and a record of another size",
        Ending::Record => "a record",
    }
}

/// What a fill or a record's number came to, in a few words.
fn words_indexed(indexed: Indexed) -> &'static str {
    match indexed {
        Indexed::Filled => "a table filled",
        Indexed::NoRoom => "a table too short",
        Indexed::BadState => "a state refused with 2",
        Indexed::Record => "a record, found by its number",
        Indexed::End => "the trail's end before it",
        Indexed::Refused => "a refused item before it",
        Indexed::Beyond => "an entry beyond the trail",
    }
}

/// What is wrong beside a version, in a few words.
fn words_beside(beside: Beside) -> String {
    match beside {
        Beside::Nothing => "nothing else".into(),
        Beside::Address => "the address, told first".into(),
        Beside::Length => "the length, told first".into(),
        Beside::Seconds => "seconds too large".into(),
        Beside::Nanoseconds => "nanoseconds too large".into(),
        Beside::Range => "nanoseconds out of range".into(),
        Beside::Body(number) => format!("a body refused with {number}"),
        Beside::Room => "the room".into(),
        Beside::Several => "several".into(),
        Beside::LengthAndMore => "the length, told first, and more".into(),
        Beside::AddressAndMore => "the address, told first, and more".into(),
    }
}

impl Display for Soaked {
    fn fmt(&self, f: &mut Formatter<'_>) -> fmt::Result {
        let tally = &self.tally;
        writeln!(f, "{} seeds, {} inputs", self.seeds, tally.inputs())?;
        writeln!(f, "answers")?;
        writeln!(f, "{:>12}  not refused", tally.answers().0)?;
        for reason in REASONS {
            let number = reason.number();
            let times = tally.refused_times(number);
            writeln!(f, "{times:>12}  {number:>2} {reason}")?;
        }
        self.show_what_offends(f)?;
        writeln!(f, "steps back, by what stands before the place")?;
        for ending in ENDINGS {
            let times = tally.ending_times(ending);
            writeln!(f, "{times:>12}  {}", words_before(ending))?;
        }
        writeln!(f, "indexes, by what came of a fill or a number")?;
        for indexed in INDEXED {
            let times = tally.indexed_times(indexed);
            writeln!(f, "{times:>12}  {}", words_indexed(indexed))?;
        }
        self.show_kinds(f)
    }
}

impl Soaked {
    /// What offends, by the header or token.
    fn show_what_offends(&self, f: &mut Formatter<'_>) -> fmt::Result {
        let tally = &self.tally;
        writeln!(f, "refusal 8, by what offends")?;
        for kind in SPOILT_ITEMS.into_iter().chain(SPOILT_CALLS) {
            show_one(f, tally.spoilt_times(kind), kind.0, words_for(kind.1))?;
        }
        writeln!(f, "addresses refused, by what offends")?;
        for kind in ADDRESS_FAULTS.into_iter().chain(CALL_ADDRESS_FAULTS) {
            show_one(
                f,
                tally.fault_times(kind),
                kind.0,
                words_for_address(kind.1),
            )?;
        }
        writeln!(f, "second subjects, by the kinds of both")?;
        for (first, second) in SUBJECT_PAIRS {
            let times = tally.pair_times(14, (first, second));
            let behind = format_args!("behind {first:02X} {}", name_of(first));
            show_one(f, times, second, behind)?;
        }
        for (number, words) in [(7, "past the body's end"), (13, "with a wrong type")] {
            let times = tally.second_times(number);
            writeln!(f, "{times:>12}  any {words}, which is told first")?;
        }
        writeln!(f, "versions over 255 to be written, by what else is wrong")?;
        for kind in LARGE_VERSIONS {
            show_one(f, tally.version_times(kind), kind.0, words_beside(kind.1))?;
        }
        Ok(())
    }

    /// Each kind of item, token and address.
    fn show_kinds(&self, f: &mut Formatter<'_>) -> fmt::Result {
        let tally = &self.tally;
        writeln!(f, "items accepted")?;
        for (number, name) in ITEMS {
            writeln!(f, "{:>12}  {number:02X} {name}", tally.times(number))?;
        }
        writeln!(f, "body tokens read or written")?;
        for (number, name) in TOKEN_NUMBERS.iter().zip(TOKENS) {
            writeln!(f, "{:>12}  {number:02X} {name}", tally.times(*number))?;
        }
        writeln!(f, "addresses read or written")?;
        for number in EXPANDED_HEADERS.into_iter().chain(EXPANDED_NUMBERS) {
            for length in [4, 16] {
                let times = tally.address_times(number, length);
                show_one(f, times, number, format_args!("{length} bytes"))?;
            }
        }
        Ok(())
    }
}

/// A line on the header or token with this number.
fn show_one(f: &mut Formatter<'_>, times: usize, number: u8, words: impl Display) -> fmt::Result {
    writeln!(f, "{times:>12}  {number:02X} {}: {words}", name_of(number))
}

#[cfg(test)]
mod tests {
    use super::*;

    #[test]
    fn a_seed_that_differs_is_named() {
        let quiet = |tally: &mut Tally, seed| {
            tally.input();
            if seed == 107 {
                std::panic::resume_unwind(Box::new("they differ"));
            }
        };
        for threads in [1, 3] {
            let soaked = soak(100, threads, || false, quiet);
            assert_eq!(soaked.differs, Some(107));
            assert!(soaked.seeds >= 8);
            assert_eq!(soaked.tally.inputs() as u64, soaked.seeds);
        }
        let soaked = soak(107, 1, || false, quiet);
        assert_eq!((soaked.differs, soaked.seeds), (Some(107), 1));
        assert_eq!(soak(0, 2, || true, quiet).seeds, 0);
    }
}
