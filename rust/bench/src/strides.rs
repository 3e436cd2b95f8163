//! Long strings and texts: the library beside the searches it had before,
//! and beside memchr.

use crate::table::Table;
use crate::timing::{passes, time, times};
use crate::tokens::bodies;
use crate::{earlier, memchr};
use std::hint::black_box;

/// What the columns are.
pub const ABOUT: &str = "\
Long strings and texts: best nanoseconds for one token. The byte loop and the
base (until paper 02's P4) are written again in Rust and inlined; the library
is called across the C boundary and reads the whole token. memchr is the C
library's: called for each string, and once over all bytes for one that is
not there, which is the limit.";

const HEADS: [&str; 6] = [
    "token",
    "byte loop",
    "base",
    "library",
    "memchr each",
    "memchr once",
];

/// Trails with one token in each record.
fn trails(bytes: usize) -> Vec<(&'static str, Vec<u8>)> {
    let size = 60_000..=60_000;
    let exec = |env, lengths| generator::exec_records(bytes, env, size.clone(), lengths);
    let small = |lengths| generator::exec_records(bytes / 4, false, 20..=120, lengths);
    vec![
        ("exec_env, 10 strings of 6,000", exec(true, 5_999..=5_999)),
        ("exec_env, strings of 1 to 9", exec(true, 0..=8)),
        (
            "exec_env, one string of 60,000",
            exec(true, 59_999..=59_999),
        ),
        ("exec_args, 10 strings of 6,000", exec(false, 5_999..=5_999)),
        ("exec_args, strings of 1 to 9", exec(false, 0..=8)),
        (
            "exec_args, one string of 60,000",
            exec(false, 59_999..=59_999),
        ),
        (
            "text of 60,000",
            generator::text_records(bytes, 60_000..=60_000),
        ),
        ("exec_args of 20 to 120, strings of 1 to 13", small(0..=12)),
        (
            "text of 146 to 600",
            generator::text_records(bytes / 4, 146..=600),
        ),
    ]
}

/// A token's bytes, its count of strings, or none for a text, and where its
/// strings or its text start.
struct Tail<'a> {
    body: &'a [u8],
    count: Option<u32>,
    from: usize,
}

impl<'a> Tail<'a> {
    fn of(body: &'a [u8]) -> Self {
        let (count, from) = match reference::token_at(body, 0) {
            reference::TokenAnswer::Token { token, .. } => match token {
                reference::Token::ExecArgs { count, .. } => (Some(count), 5),
                reference::Token::ExecEnv { count, .. } => (Some(count), 5),
                reference::Token::Text { .. } => (None, 3),
                other => unreachable!("no workload has {other:?}"),
            },
            _ => unreachable!("a good token"),
        };
        Tail { body, count, from }
    }

    /// The size of the token, found by these searches.
    fn size(
        &self,
        strings_end: impl Fn(&[u8], u32) -> Option<usize>,
        good_text: impl Fn(&[u8]) -> bool,
    ) -> usize {
        let bytes = &self.body[self.from..];
        let size = match self.count {
            Some(count) => strings_end(bytes, count),
            None => good_text(bytes).then_some(bytes.len()),
        };
        self.from + size.expect("a good token")
    }
}

/// A pass over all tokens, which answers the sum of their sizes.
type Pass<'a> = Box<dyn FnMut() -> usize + 'a>;

/// A pass with the size of each token.
fn pass<'a>(tails: &'a [Tail<'a>], size: impl Fn(&Tail<'a>) -> usize + 'a) -> Pass<'a> {
    Box::new(move || black_box(tails).iter().map(&size).sum())
}

/// The passes that are timed, in the order of the columns.
fn contenders<'a>(tails: &'a [Tail<'a>]) -> [Pass<'a>; HEADS.len() - 1] {
    use earlier::{base, bytes};
    let each = |bytes: &[u8]| memchr::strings_end(bytes, 1) == Some(bytes.len());
    [
        pass(tails, |tail| {
            tail.size(bytes::strings_end, bytes::good_text)
        }),
        pass(tails, |tail| tail.size(base::strings_end, base::good_text)),
        pass(tails, |tail| {
            assert_eq!(bsm::walk_body(tail.body), Ok(1));
            tail.body.len()
        }),
        pass(tails, move |tail| tail.size(memchr::strings_end, each)),
        pass(tails, |tail| {
            memchr::look_at_all(&tail.body[tail.from..]);
            tail.body.len()
        }),
    ]
}

/// Best seconds of one pass of each, in turns, every other round in the
/// opposite order.
fn measure(contenders: &mut [Pass<'_>], rounds: usize) -> Vec<f64> {
    let sums: Vec<usize> = contenders.iter_mut().map(|pass| pass()).collect();
    assert!(
        sums.iter().all(|sum| sum == &sums[0]),
        "they differ: {sums:?}"
    );
    let turns: Vec<usize> = contenders.iter_mut().map(passes).collect();
    let mut lasted = vec![Vec::new(); contenders.len()];
    for round in 0..rounds {
        let mut order: Vec<usize> = (0..contenders.len()).collect();
        if round % 2 == 1 {
            order.reverse();
        }
        for which in order {
            lasted[which].push(time(&mut contenders[which], turns[which]));
        }
    }
    lasted
        .into_iter()
        .map(|rounds| times(rounds).best)
        .collect()
}

/// The table of all tokens, in trails of about so many bytes.
pub fn table(bytes: usize, rounds: usize) -> Table {
    let mut table = Table::new(&HEADS);
    for (name, trail) in trails(bytes) {
        let tails: Vec<Tail<'_>> = bodies(&trail).into_iter().map(Tail::of).collect();
        let best = measure(&mut contenders(&tails), rounds);
        let each = |seconds: f64| format!("{:.1}", seconds / tails.len() as f64 * 1e9);
        let cells = std::iter::once(name.to_string()).chain(best.into_iter().map(each));
        table.row(cells.collect());
    }
    table
}
