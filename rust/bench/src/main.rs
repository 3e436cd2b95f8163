//! Times the proved library, called through the crate `bsm`, beside the
//! crate `reference`: one process, the same bytes, rounds that take turns.
//!
//!     cargo run --release -p bench -- [--rounds N]

#![deny(unsafe_code)]

mod earlier;
mod index;
mod list;
mod memchr;
mod newest;
mod read;
mod strides;
mod table;
mod timing;
mod tokens;
mod workload;
mod write;

use std::env;
use std::process::ExitCode;
use table::Table;
use timing::measure;

/// Rounds where no option says otherwise.
const ROUNDS: usize = 25;

/// Bytes of each trail, about.
const BYTES: usize = 4 << 20;

/// Bytes of a trail of which only the end is read.
const MANY_BYTES: usize = 64 << 20;

/// Records of a trail of which one is looked up.
const MANY_RECORDS: usize = 60_000;

/// What the table shows.
const ABOUT: &str = "\
Proved library, reference and plain copy take turns in each round, in one
process and over the same bytes. Both sides gave the same results before
timing. Buffers were not cleared inside a timed part: every one was written
once before (pre-touched).

  us     best and median time of one pass, in microseconds
  ratio  time of the proved library / time of the reference
  GB/s   from the best time: bytes read, for 'write' bytes written;
         copy is copy_from_slice of the same trail, as the limit";

fn main() -> ExitCode {
    let rounds = match rounds(env::args().skip(1)) {
        Ok(rounds) => rounds,
        Err(message) => {
            eprintln!("{message}\nusage: bench [--rounds N]");
            return ExitCode::from(2);
        }
    };
    if cfg!(debug_assertions) {
        eprintln!("bench: build with --release, or the times mean nothing");
        return ExitCode::from(2);
    }

    let small = generator::small_records(BYTES);
    let usual = generator::usual_records(BYTES);
    let expanded = generator::expanded_records(BYTES);
    let exec = generator::large_exec(BYTES);
    let opaque = generator::large_opaque(BYTES);
    let long = generator::usual_records(MANY_BYTES);
    let many = index::first(&long, MANY_RECORDS);
    let loads = vec![
        read::run("run, small records", &small),
        read::run("run, usual records", &usual),
        read::run("run, expanded records", &expanded),
        read::run("run, large exec_env", &exec),
        read::run("run, large opaque", &opaque),
        read::items("items, small records", &small),
        read::items("items, usual records", &usual),
        read::items("items, expanded records", &expanded),
        newest::load("newest, small records", &small, usize::MAX),
        newest::load("newest, usual records", &usual, usize::MAX),
        newest::load("newest, expanded records", &expanded, usize::MAX),
        newest::load("newest 100 of 4 MB", &usual, 100),
        newest::load("newest 100 of 64 MB", &long, 100),
        newest::forward("100 of 64 MB, forward", &long, 100),
        tokens::load("tokens, usual records", &usual),
        tokens::load("tokens, expanded records", &expanded),
        tokens::load("tokens, large exec_env", &exec),
        write::load("write, usual records", &usual),
        write::load("write, expanded records", &expanded),
        write::load("write, large exec_env", &exec),
        list::load("list, small records", &small),
        list::load("list, usual records", &usual),
        list::load("list, expanded records", &expanded),
        index::fill("fill index, small records", &small),
        index::fill("fill index, usual records", &usual),
        index::find("record 40,000 of 60,000", many, 40_000),
        index::find("record 40,063 of 60,000", many, 40_063),
        index::from_start("40,000 without index", many, 40_000),
    ];

    println!("{ABOUT}\n\n{rounds} rounds\n");
    let mut table = Table::new(&table::MEASURED);
    for load in loads {
        table.row(table::measured(&measure(load, rounds)));
    }
    print!("{table}");

    println!("\n{}\n", strides::ABOUT);
    print!("{}", strides::table(BYTES, rounds));
    ExitCode::SUCCESS
}

/// The number of rounds that the arguments ask for.
fn rounds(mut args: impl Iterator<Item = String>) -> Result<usize, String> {
    let mut rounds = ROUNDS;
    while let Some(arg) = args.next() {
        if arg != "--rounds" {
            return Err(format!("bench: unknown option {arg}"));
        }
        let value = args.next().unwrap_or_default();
        rounds = match value.parse() {
            Ok(rounds) if rounds > 0 => rounds,
            _ => {
                return Err(format!(
                    "bench: --rounds takes a number above 0, not '{value}'"
                ))
            }
        };
    }
    Ok(rounds)
}
