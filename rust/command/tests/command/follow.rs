//! `bsm follow` on files that grow, shrink and go.

use crate::run::*;
use crate::trails::*;
use bsm::Token;
use generator::*;
use std::fs::{self, File};
use std::io::{Read, Write};
use std::os::unix::process::ExitStatusExt;
use std::path::{Path, PathBuf};
use std::process::{Child, ChildStdin, Command, Stdio};
use std::sync::{Arc, Mutex};
use std::thread::{self, sleep, JoinHandle};
use std::time::{Duration, Instant};

/// A command that follows, and what it has written so far.
struct Following {
    child: Child,
    seen: Arc<Mutex<Vec<u8>>>,
    reading: JoinHandle<()>,
}

impl Following {
    fn start(mut command: Command) -> Following {
        command.stdout(Stdio::piped());
        let mut child = started(command);
        let mut stdout = child.stdout.take().expect("a pipe");
        let seen = Arc::new(Mutex::new(Vec::new()));
        let shared = Arc::clone(&seen);
        let reading = thread::spawn(move || {
            let mut bytes = [0; 4_096];
            loop {
                match stdout.read(&mut bytes).expect("a pipe can be read") {
                    0 => return,
                    count => shared.lock().unwrap().extend(&bytes[..count]),
                }
            }
        });
        Following {
            child,
            seen,
            reading,
        }
    }

    /// On a file, looking for more at each millisecond.
    fn file(words: &[&str], path: &Path) -> Following {
        let mut command = bsm([&["follow", "--interval", "0.001"], words].concat());
        command.arg(path).stdin(Stdio::null());
        Following::start(command)
    }

    fn seen(&self) -> String {
        String::from_utf8(self.seen.lock().unwrap().clone()).expect("it is text")
    }

    /// Waits until this much was written, and nothing else.
    fn wait_for(&self, expected: &str) {
        let start = Instant::now();
        while self.seen() != expected {
            let seen = self.seen();
            assert!(
                expected.starts_with(&seen),
                "{seen:?} is no part of {expected:?}"
            );
            assert!(start.elapsed() < PATIENCE, "{seen:?} is not {expected:?}");
            sleep(Duration::from_micros(200));
        }
    }

    fn ended(self) -> Ended {
        let ended = outcome(self.child);
        self.reading.join().expect("it was read");
        let stdout = self.seen.lock().unwrap().clone();
        Ended { stdout, ..ended }
    }

    /// Interrupts it, and sees that it has written the listing of a trail.
    fn interrupted_after(self, trail: &[u8]) {
        signal(&self.child, "INT");
        let ended = self.ended();
        assert_eq!(text(&ended.stdout), text(&reference::listing(trail)));
        assert_eq!(ended.status, status_of(trail), "{}", ended.stderr);
    }
}

/// Sends a signal to a process that may have ended.
fn signal(child: &Child, name: &str) {
    let mut shell = Command::new("/bin/sh");
    shell.args(["-c", &format!("kill -s {name} {}", child.id())]);
    shell.stderr(Stdio::null()).status().expect("a shell");
}

/// A listing without its last line.
fn lines_so_far(trail: &[u8]) -> String {
    let listing = reference::listing(trail);
    let lines: Vec<&str> = text(&listing).split_inclusive('\n').collect();
    lines[..lines.len() - 1].concat()
}

fn append(path: &Path, bytes: &[u8]) {
    let file = File::options().append(true).open(path);
    file.expect("it is there")
        .write_all(bytes)
        .expect("it can be written");
}

/// What the command prints of a trail that is all there.
fn printed(words: &[&str], trail: &[u8], path: &Path) -> Vec<u8> {
    let _ = fs::write(path, trail);
    let mut command = bsm(words);
    command.arg(path);
    ended(command).stdout
}

/// Each line stands there as soon as its item is whole, and not earlier.
#[test]
fn byte_by_byte() {
    let scratch = Scratch::new();
    let path = scratch.file("trail", b"");
    let mut rng = Rng::new(851);
    let trail = loop {
        let trail = good_trail(&mut rng, 6);
        if trail.len() < 600 {
            break trail;
        }
    };
    let following = Following::file(&["--list"], &path);
    for end in 1..=trail.len() {
        append(&path, &trail[end - 1..end]);
        // So that most cuts are looked at.
        sleep(Duration::from_millis(4));
        following.wait_for(&lines_so_far(&trail[..end]));
    }
    following.interrupted_after(&trail);
}

#[test]
fn in_random_steps() {
    let scratch = Scratch::new();
    let mut rng = Rng::new(852);
    for round in 0..30 {
        let path = scratch.file(format!("trail{round}"), b"");
        let mut trail = good_trail(&mut rng, 20);
        if round % 3 == 0 {
            trail.truncate(trail.len() - 1);
        }
        let following = Following::file(&["--list"], &path);
        let mut from = 0;
        for end in growth(&mut rng, trail.len()) {
            append(&path, &trail[from..end]);
            sleep(Duration::from_millis(4));
            following.wait_for(&lines_so_far(&trail[..end]));
            from = end;
        }
        append(&path, &trail[from..]);
        following.wait_for(&lines_so_far(&trail));
        following.interrupted_after(&trail);
    }
}

/// What was damaged stays damaged: there is nothing to wait for.
#[test]
fn a_refusal_ends_it() {
    let scratch = Scratch::new();
    let mut rng = Rng::new(853);
    let mut refused = 0;
    for number in (3..=9).chain([13, 14]) {
        let mut trail = good_trail(&mut rng, 3);
        trail.extend(targeted(&mut rng, number).0);
        if status_of(&trail) != 1 {
            continue;
        }
        refused += 1;
        let path = scratch.file(format!("trail{number}"), &trail);
        let ended = Following::file(&["--list"], &path).ended();
        assert_eq!(text(&ended.stdout), text(&reference::listing(&trail)));
        assert_eq!(ended.status, 1);
        assert!(ended.stderr.contains(": refused: "), "{}", ended.stderr);
    }
    assert!(refused > 3);
}

/// A record with two subjects is waited for until it is whole, and ends it
/// then, also where more comes at once.
#[test]
fn a_second_subject_ends_it() {
    let scratch = Scratch::new();
    let before = tokens_trail();
    let subject = Token::Subject32(party(1, 1));
    let record = joined(&header(1, 5), &[subject, subject]);
    for more in [&b""[..], &before] {
        let path = scratch.file(format!("trail{}", more.len()), &before);
        let following = Following::file(&["--list"], &path);
        let last = record.len() - 1;
        for byte in record[..last].chunks(1) {
            append(&path, byte);
            sleep(Duration::from_millis(4));
            following.wait_for(&lines_so_far(&before));
        }
        append(&path, &[&record[last..], more].concat());
        let ended = following.ended();
        let trail = [&before[..], &record, more].concat();
        assert_eq!(text(&ended.stdout), text(&reference::listing(&trail)));
        let said = ended
            .stderr
            .contains(": refused: two subjects in the record");
        assert!(said && ended.status == 1, "{}", ended.stderr);
    }
}

/// The forms of print, and a choice.
#[test]
fn other_forms() {
    let scratch = Scratch::new();
    let path = scratch.file("trail", b"");
    let trail = [tokens_trail(), record(&header(7, 1), &[])].concat();
    for words in [
        &[][..],
        &["--json"],
        &["--event", "7"],
        &["--json", "--session=16"],
    ] {
        let whole = printed(&[&["print"], words].concat(), &trail, &path);
        fs::write(&path, b"").expect("it can be written");
        let following = Following::file(words, &path);
        append(&path, &trail[..100]);
        append(&path, &trail[100..]);
        following.wait_for(text(&whole));
        signal(&following.child, "TERM");
        let ended = following.ended();
        assert_eq!((ended.status, &ended.stderr[..]), (0, ""));
        assert_eq!(ended.stdout, whole);
    }
}

/// Starts it on a trail of two items, all of which it has listed.
fn followed(scratch: &Scratch) -> (Following, PathBuf, Vec<u8>) {
    let trail = tokens_trail();
    let path = scratch.file("trail", &trail);
    let following = Following::file(&["--list"], &path);
    following.wait_for(&lines_so_far(&trail));
    (following, path, trail)
}

/// Sees that it ended since the file has changed, with this line.
fn changed(following: Following, path: &Path, what: &str, listed: &str) {
    let ended = following.ended();
    assert_eq!(ended.stderr, format!("bsm: {}: {what}\n", path.display()));
    assert_eq!(ended.status, 4);
    assert_eq!(text(&ended.stdout), listed);
}

/// What was listed is no longer there, so that no last line says that the
/// listing is whole.
#[test]
fn a_file_that_shrinks() {
    let scratch = Scratch::new();
    let (following, path, trail) = followed(&scratch);
    let file = File::options()
        .write(true)
        .open(&path)
        .expect("it is there");
    file.set_len(10).expect("it can be cut");
    changed(
        following,
        &path,
        "has become shorter",
        &lines_so_far(&trail),
    );
}

#[test]
fn a_file_that_is_written_over() {
    let scratch = Scratch::new();
    // As long as it was, and longer.
    for more in [0, 50] {
        let (following, path, trail) = followed(&scratch);
        sleep(Duration::from_millis(20));
        let other = vec![0x11; trail.len() + more];
        let file = File::options().write(true).open(&path);
        file.expect("it is there")
            .write_all(&other)
            .expect("it can be written");
        changed(
            following,
            &path,
            "has been written over",
            &lines_so_far(&trail),
        );
    }
}

/// All of the old file is listed, also what was written to it just before.
#[test]
fn a_file_that_is_replaced_or_removed() {
    let scratch = Scratch::new();
    for replaced in [true, false] {
        let (following, path, mut trail) = followed(&scratch);
        let last = record(&header(1, 1), &[]);
        append(&path, &last);
        trail.extend(last);
        let what = if replaced {
            let other = scratch.file("other", b"\x11");
            fs::rename(other, &path).expect("it can be renamed");
            "has been replaced by another file"
        } else {
            fs::remove_file(&path).expect("it can be removed");
            "has been removed"
        };
        let listing = reference::listing(&trail);
        changed(following, &path, what, text(&listing));
    }
}

/// A pipe is read as it comes, until its end or an interrupt.
#[test]
fn standard_input() {
    for interrupt in [false, true] {
        let mut command = bsm(["follow", "--list"]);
        command.stdin(Stdio::piped());
        let mut following = Following::start(command);
        let mut stdin: ChildStdin = following.child.stdin.take().expect("a pipe");
        let trail = tokens_trail();
        for (from, end) in [(0, 30), (30, trail.len())] {
            stdin.write_all(&trail[from..end]).expect("it reads");
            following.wait_for(&lines_so_far(&trail[..end]));
        }
        stdin.write_all(&trail[..7]).expect("it reads");
        let trail = [&trail[..], &trail[..7]].concat();
        if interrupt {
            signal(&following.child, "INT");
        } else {
            drop(stdin);
        }
        let ended = following.ended();
        let listing = lines_so_far(&trail);
        assert!(text(&ended.stdout).starts_with(&listing));
        // The last seven bytes may or may not have been read before it.
        let whole = text(&ended.stdout) == text(&reference::listing(&trail));
        assert!(whole || interrupt);
        assert!(ended.status == 3 || (interrupt && ended.status == 0));
    }
}

/// A trail that lists to more than a pipe holds, and a command that follows
/// it, of which nobody reads more than the first byte.
fn stalled(scratch: &Scratch) -> (Child, Vec<u8>) {
    let trail = tokens_trail().repeat(20_000);
    let path = scratch.file("trail", &trail);
    let mut command = bsm(["follow", "--list"]);
    command.arg(&path).stdin(Stdio::null());
    command.stdout(Stdio::piped());
    let mut child = started(command);
    let mut first = [0];
    let stdout = child.stdout.as_mut().expect("a pipe");
    stdout.read_exact(&mut first).expect("it writes");
    (child, reference::listing(&trail))
}

/// It does not go on to the end of what is there, and then has no last
/// line.
#[test]
fn an_interrupt_while_it_catches_up() {
    let scratch = Scratch::new();
    let (child, listing) = stalled(&scratch);
    signal(&child, "INT");
    let ended = outcome(child);
    assert_eq!((ended.status, &ended.stderr[..]), (130, ""));
    assert!(listing[1..].starts_with(&ended.stdout));
    assert!(ended.stdout.len() < 300_000 && listing.len() > 1_000_000);
    assert!(ended.stdout.ends_with(b"\n"));
}

/// An interrupt is not lost, however long the interval is.
#[test]
fn an_interrupt_while_it_waits() {
    let scratch = Scratch::new();
    let trail = tokens_trail();
    let path = scratch.file("trail", &trail);
    for _ in 0..20 {
        let mut command = bsm(["follow", "--list", "--interval", "86400"]);
        command.arg(&path).stdin(Stdio::null());
        let following = Following::start(command);
        following.wait_for(&lines_so_far(&trail));
        following.interrupted_after(&trail);
    }
}

/// It looks no earlier than it was told to.
#[test]
fn a_long_interval() {
    let scratch = Scratch::new();
    let trail = tokens_trail();
    let path = scratch.file("trail", &trail);
    let mut command = bsm(["follow", "--list", "--interval=86400"]);
    command.arg(&path).stdin(Stdio::null());
    let following = Following::start(command);
    following.wait_for(&lines_so_far(&trail));
    append(&path, &trail);
    sleep(Duration::from_millis(400));
    following.interrupted_after(&trail);
}

/// Also while nobody reads what it writes.
#[test]
fn a_second_interrupt_ends_it_at_once() {
    let scratch = Scratch::new();
    let (mut child, _) = stalled(&scratch);
    let start = Instant::now();
    while child.try_wait().expect("a child").is_none() && start.elapsed() < PATIENCE {
        signal(&child, "INT");
        sleep(Duration::from_millis(5));
    }
    let status = status_of_child(&mut child);
    assert_eq!(status.signal(), Some(2), "{status}");
}

/// Standard input that is a file, read on from where it stands.
#[test]
fn standard_input_from_a_file() {
    let scratch = Scratch::new();
    let trail = tokens_trail();
    let path = scratch.file("trail", &[b"before", &trail[..]].concat());
    let mut file = File::open(&path).expect("it is there");
    file.read_exact(&mut [0; 6]).expect("six bytes");
    let mut command = bsm(["follow", "--list", "--interval=0.001"]);
    command.stdin(file);
    let following = Following::start(command);
    following.wait_for(&lines_so_far(&trail));
    append(&path, &trail);
    let twice = [&trail[..], &trail[..]].concat();
    following.wait_for(&lines_so_far(&twice));
    following.interrupted_after(&twice);
}

#[test]
fn what_cannot_be_followed() {
    let scratch = Scratch::new();
    scratch.file("trail", b"");
    for (words, said) in [
        (&["missing"][..], "missing: No such file or directory"),
        (&["."], ".: Is a directory"),
        (
            &["--list", "--json", "trail"],
            "either --list or --json; see 'bsm help follow'",
        ),
        (
            &["trail", "trail"],
            "one FILE can be followed at a time; see 'bsm help follow'",
        ),
        (
            &["--interval", "0", "trail"],
            "--interval 0: not a time of 0.001 to 86400 seconds; see 'bsm help follow'",
        ),
        (
            &["--interval", "nan"],
            "--interval nan: not a time of 0.001 to 86400 seconds; see 'bsm help follow'",
        ),
    ] {
        let ended = ended(scratch.bsm([&["follow"], words].concat()));
        assert_eq!(ended.stderr, format!("bsm: {said}\n"));
        assert_eq!((ended.status, &ended.stdout[..]), (2, &b""[..]));
    }
}
