//! Rounds, best and median.

use crate::workload::Workload;
use std::hint::black_box;
use std::time::{Duration, Instant};

/// A timed part lasts at least this long, so that the clock is fine enough.
const LEAST: Duration = Duration::from_millis(4);

/// Seconds of one pass.
pub struct Times {
    /// The best round.
    pub best: f64,
    /// The median round.
    pub median: f64,
}

/// A workload and its times.
pub struct Measured {
    /// The workload's name.
    pub name: &'static str,
    /// Bytes that a pass reads or writes.
    pub bytes: usize,
    /// Bytes that the copy copies.
    pub copied: usize,
    /// Items, tokens or records of a pass.
    pub count: usize,
    /// The proved library.
    pub proved: Times,
    /// The reference.
    pub plain: Times,
    /// The copy.
    pub copy: Times,
}

/// Times a workload. Proved library, reference and copy take turns, and
/// every other round in the opposite order.
pub fn measure(load: Workload<'_>, rounds: usize) -> Measured {
    let Workload {
        name,
        bytes,
        count,
        source,
        mut proved,
        mut plain,
    } = load;
    let mut target = vec![1; source.len()];
    let mut copy = || {
        target.copy_from_slice(black_box(source));
        black_box(&target).len()
    };
    // Also warms both sides up.
    assert_eq!(proved(), plain(), "{name}: the two sides differ");
    let turns = passes(&mut proved).max(passes(&mut plain));
    let copies = passes(&mut copy);

    let (mut a, mut b, mut c) = (Vec::new(), Vec::new(), Vec::new());
    for round in 0..rounds {
        if round % 2 == 0 {
            a.push(time(&mut proved, turns));
            b.push(time(&mut plain, turns));
            c.push(time(&mut copy, copies));
        } else {
            c.push(time(&mut copy, copies));
            b.push(time(&mut plain, turns));
            a.push(time(&mut proved, turns));
        }
    }
    Measured {
        name,
        bytes,
        copied: source.len(),
        count,
        proved: times(a),
        plain: times(b),
        copy: times(c),
    }
}

/// How many passes last long enough.
pub fn passes(pass: &mut impl FnMut() -> usize) -> usize {
    let mut passes = 1;
    loop {
        let lasted = time(pass, passes) * passes as f64;
        if lasted >= LEAST.as_secs_f64() {
            return passes;
        }
        passes *= 2;
    }
}

/// Seconds of one of these passes.
pub fn time(pass: &mut impl FnMut() -> usize, passes: usize) -> f64 {
    let start = Instant::now();
    for _ in 0..passes {
        black_box(pass());
    }
    start.elapsed().as_secs_f64() / passes as f64
}

/// Best and median of some rounds.
pub fn times(mut rounds: Vec<f64>) -> Times {
    rounds.sort_by(f64::total_cmp);
    Times {
        best: rounds[0],
        median: rounds[rounds.len() / 2],
    }
}
