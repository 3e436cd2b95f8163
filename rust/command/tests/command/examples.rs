//! The examples: in C with the line of the README, and in Rust.

use crate::run::*;
use crate::trails::*;
use bsm::{NewToken, Token};
use std::fs::{self, File};
use std::path::{Path, PathBuf};
use std::process::Command;

/// What stands behind these words in a line of the README.
fn readme_line(start: &str) -> String {
    let readme = fs::read_to_string(root().join("README.md")).expect("a README");
    let mut lines = readme
        .lines()
        .filter_map(|line| line.trim().strip_prefix(start));
    lines.next().expect("such a line").to_string()
}

/// The README's line that links the archive, with another place for the
/// program.
fn gcc_line(program: &Path) -> String {
    let line = readme_line("gcc ");
    let (rest, _) = line
        .split_once(" -o ")
        .expect("the program's name at its end");
    format!(
        "gcc -Wall -Wextra -Werror {rest} -o '{}'",
        program.display()
    )
}

fn example_in_c(scratch: &Scratch) -> PathBuf {
    let program = scratch.path().join("find_session");
    let mut shell = Command::new("/bin/sh");
    shell.args(["-c", &gcc_line(&program)]).current_dir(root());
    let built = ended(shell);
    assert_eq!((built.status, &built.stderr[..]), (0, ""));
    program
}

/// The example as a package of its own that has the README's dependency.
fn example_in_rust(scratch: &Scratch) -> PathBuf {
    let line = readme_line("bsm = { path = \"");
    let (_, end) = line.split_once("/rust/bsm\"").expect("a path to the crate");
    let path = root().join("rust/bsm");
    let manifest = format!(
        "[package]\nname = \"user\"\nversion = \"0.1.0\"\nedition = \"2021\"\n\
         [dependencies]\nbsm = {{ path = \"{}\"{end}\n",
        path.display()
    );
    scratch.file("Cargo.toml", manifest.as_bytes());
    fs::create_dir(scratch.path().join("src")).expect("a new folder");
    let source = fs::read(path.join("examples/find_session.rs")).expect("the example");
    scratch.file("src/main.rs", &source);
    let mut cargo = Command::new(env!("CARGO"));
    cargo.args(["build", "--quiet", "--offline", "--target-dir", "target"]);
    cargo.current_dir(scratch.path());
    let built = ended(cargo);
    assert_eq!((built.status, &built.stderr[..]), (0, ""));
    scratch.path().join("target/debug/user")
}

/// Each kind of subject and process token, of session 7.
fn parties() -> [NewToken<'static>; 8] {
    let [four, sixteen, ..] = ADDRESSES;
    [
        Token::Subject32(party(1, 1)),
        Token::Process32(party(1, 1)),
        Token::Subject64(party(1, 1)),
        Token::Process64(party(1, 1)),
        Token::Subject32Ex(party_at(1, 1, four)),
        Token::Process32Ex(party_at(1, 1, sixteen)),
        Token::Subject64Ex(party_at(1, 1, sixteen)),
        Token::Process64Ex(party_at(1, 1, four)),
    ]
}

#[test]
fn both_find_the_session() {
    let scratch = Scratch::new();
    let programs = [example_in_c(&scratch), example_in_rust(&scratch)];
    let text_of = |text| Token::Text { text };
    let records = [
        record(
            &header(1, 5),
            &[Token::Subject32(party(1, 1)), text_of(b"one")],
        ),
        record(
            &header(2, 6),
            &[Token::Seq { sequence: 7 }, text_of(b"two")],
        ),
        record(
            &header(3, 7),
            &[
                text_of(STEERING),
                Token::Process64(party(1, 1)),
                Token::Path { text: b"/a" },
            ],
        ),
    ];
    let third = records[0].len() + records[1].len();
    let trail = records.concat();
    for program in &programs {
        let run = |session: &str, trail: &[u8]| {
            let mut command = Command::new(program);
            command.arg(session);
            fed(command, trail)
        };
        let found = run("7", &trail);
        let first = "0\tevent 1\t5.000000000\tuser 1\n\tone\n";
        let last = text(&found.stdout)
            .strip_prefix(first)
            .expect("it is there");
        let lines: Vec<&str> = last.lines().collect();
        assert_eq!(lines[0], format!("{third}\tevent 3\t7.000000000\tuser 1"));
        assert!(lines[1].starts_with("\t\\x1b[2J\\x07\\x0d\\x0a\\x09\"\\x5c\\x7f"));
        assert_eq!(lines[2..], ["\t/a"]);
        assert_eq!((found.status, &found.stderr[..]), (0, ""));
        assert_eq!(run("8", &trail).stdout, b"");
        for token in parties() {
            let record = record(&header(1, 5), &[token]);
            let one = text(&run("7", &record).stdout).to_string();
            assert_eq!(one, "0\tevent 1\t5.000000000\tuser 1\n", "{token:?}");
            assert_eq!(run("6", &record).stdout, b"");
        }

        let short = run("7", &trail[..trail.len() - 1]);
        assert_eq!(text(&short.stdout), first);
        let end = ": still being written\n";
        assert!(short.stderr.ends_with(end), "{}", short.stderr);
        assert_eq!(short.status, 1);
        // A record with two subjects is no session's.
        let joined = joined_trail();
        let refusal = reference::run(&joined, Default::default()).refusal;
        let refusal = refusal.expect("two subjects");
        for session in ["77", "78"] {
            let refused = run(session, &joined);
            let said = format!(
                "find_session: refusal 14, place {}, need 0\n",
                refusal.place
            );
            assert_eq!((refused.status, refused.stderr), (1, said), "{session}");
            assert_eq!(refused.stdout, b"", "{session}");
        }
        for session in ["seven", "+7", "-7", "", "4294967296", "7 "] {
            let usage = run(session, &trail);
            let said = "usage: find_session SESSION < TRAIL\n";
            assert_eq!((usage.status, &usage.stderr[..]), (2, said), "{session}");
        }
        assert_eq!(run("4294967295", &trail).status, 0);

        let full = File::options().write(true).open("/dev/full");
        let mut command = Command::new(program);
        let input = File::open(scratch.file("trail", &trail)).expect("it was written");
        command.arg("7").stdin(input);
        command.stdout(full.expect("a device that is always full"));
        let unwritten = outcome(started(command));
        let said = "find_session: No space left on device";
        assert!(unwritten.stderr.starts_with(said), "{}", unwritten.stderr);
        assert_eq!(unwritten.status, 2);
    }
}
