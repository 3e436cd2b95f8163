//! Compares library and reference with new seeds until the time is up, or
//! with one seed.   soak MINUTES | soak --seed N

use compare::soak::{compare_seed, soak};
use std::env;
use std::process::ExitCode;
use std::sync::atomic::{AtomicBool, Ordering};
use std::thread::available_parallelism;
use std::time::{Duration, Instant, SystemTime, UNIX_EPOCH};

const USAGE: &str = "usage: soak MINUTES   or   soak --seed N";

/// What is asked for.
enum Asked {
    Time(Duration),
    Seed(u64),
}

fn asked(words: &[String]) -> Option<Asked> {
    match words {
        [option, seed] if option == "--seed" => seed.parse().ok().map(Asked::Seed),
        [minutes] => {
            let minutes: f64 = minutes.parse().ok()?;
            let time = Duration::try_from_secs_f64(minutes * 60.0).ok()?;
            Some(Asked::Time(time))
        }
        _ => None,
    }
}

/// A first seed that no other soak has begun with.
fn new_seed() -> u64 {
    let now = SystemTime::now().duration_since(UNIX_EPOCH);
    now.map_or(0, |now| now.as_nanos() as u64)
}

fn main() -> ExitCode {
    let words: Vec<String> = env::args().skip(1).collect();
    let start = Instant::now();
    let soaked = match asked(&words) {
        None => {
            eprintln!("{USAGE}");
            return ExitCode::from(2);
        }
        Some(Asked::Seed(seed)) => {
            let begun = AtomicBool::new(false);
            soak(
                seed,
                1,
                || begun.swap(true, Ordering::Relaxed),
                compare_seed,
            )
        }
        Some(Asked::Time(time)) => {
            let first = new_seed();
            let threads = available_parallelism().map_or(1, |count| count.get());
            println!(
                "seeds from {first} on, {threads} threads, {} s",
                time.as_secs()
            );
            soak(first, threads, || start.elapsed() >= time, compare_seed)
        }
    };
    print!("{soaked}");
    match soaked.differs {
        None => {
            println!("no difference in {} s", start.elapsed().as_secs());
            ExitCode::SUCCESS
        }
        Some(seed) => {
            println!("library and reference differ at seed {seed}; again: ./soak --seed {seed}");
            ExitCode::FAILURE
        }
    }
}
