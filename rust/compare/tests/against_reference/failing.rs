//! The program, and the script that runs it, where a read or a write fails.
//! A failure is reported, and what was written is no whole listing: it has
//! no last line, which alone tells that nothing is missing.

use crate::program::program;
use std::ffi::{c_int, c_ulong};
use std::fs::File;
use std::io::{Read, Write};
use std::net::{Ipv4Addr, TcpListener, TcpStream};
use std::os::fd::{AsRawFd, OwnedFd};
use std::path::Path;
use std::process::{Child, Command, ExitStatus, Stdio};
use std::thread::{sleep, spawn, JoinHandle};
use std::time::{Duration, Instant};

/// How long anything may take here.
const PATIENCE: Duration = Duration::from_secs(30);

/// A file token and a record, whose listing is whole.
const TRAIL: &[u8] = b"\x11\0\0\0\x05\0\0\0\x07\0\x02a\0\
    \x14\0\0\0\x19\x0b\0\x48\0\0\0\0\0\x01\0\0\0\x02\x13\xb1\x05\0\0\0\x19";

/// Which of the two runs.
#[derive(Clone, Copy, Debug, PartialEq)]
enum Way {
    /// The program itself, with closed pipes as failed writes.
    Program,
    /// The script at the repository's root.
    Script,
}

const WAYS: [Way; 2] = [Way::Program, Way::Script];

impl Way {
    fn command(self) -> Command {
        let program = program();
        match self {
            Way::Program => {
                // The signal of a closed pipe is ignored, as the script has it.
                let mut shell = Command::new("/bin/sh");
                shell.args(["-c", "trap '' PIPE; exec \"$0\" \"$@\""]);
                shell.arg(program);
                shell
            }
            Way::Script => {
                let root = Path::new(env!("CARGO_MANIFEST_DIR")).join("../..");
                // It proves and builds a program that is missing.
                let built = root.join("target/bin/bsmlist.seal");
                assert!(built.is_file(), "run `scripts/ready test program` first");
                Command::new(root.join("bsmlist"))
            }
        }
    }
}

/// How a process ended, and what it wrote.
struct Ended {
    status: ExitStatus,
    stdout: Vec<u8>,
    stderr: String,
}

/// Reads a pipe to its end on a thread of its own.
fn read_all(pipe: Option<impl Read + Send + 'static>) -> JoinHandle<Vec<u8>> {
    spawn(move || {
        let mut bytes = Vec::new();
        if let Some(mut pipe) = pipe {
            pipe.read_to_end(&mut bytes).expect("a pipe can be read");
        }
        bytes
    })
}

/// Waits until something holds.
fn until(what: &str, mut holds: impl FnMut() -> bool) {
    let start = Instant::now();
    while !holds() {
        assert!(start.elapsed() < PATIENCE, "waited too long: {what}");
        sleep(Duration::from_millis(1));
    }
}

/// Starts it with this standard input and output.
fn started(mut command: Command, stdin: Stdio, stdout: Stdio) -> Child {
    command.stdin(stdin).stdout(stdout).stderr(Stdio::piped());
    command.spawn().expect("it starts")
}

/// Starts it on a trail, with this standard output.
fn into(command: Command, trail: &[u8], stdout: Stdio) -> Child {
    let mut child = started(command, Stdio::piped(), stdout);
    let mut stdin = child.stdin.take().expect("a pipe");
    stdin.write_all(trail).expect("it is read");
    child
}

/// Waits for the end of a process, whose piped output is read.
fn ended(mut child: Child) -> Ended {
    let stdout = read_all(child.stdout.take());
    let stderr = read_all(child.stderr.take());
    let start = Instant::now();
    let status = loop {
        if let Some(status) = child.try_wait().expect("a child can be waited for") {
            break status;
        }
        if start.elapsed() > PATIENCE {
            child.kill().expect("a child can be ended");
            panic!("it does not end");
        }
        sleep(Duration::from_millis(1));
    };
    let stderr = stderr.join().expect("it was read");
    Ended {
        status,
        stdout: stdout.join().expect("it was read"),
        stderr: String::from_utf8(stderr).expect("reports are text"),
    }
}

/// Asserts that a failure was reported and that no listing looks whole.
fn failed(way: Way, ended: &Ended, report: &str) {
    let Ended {
        status,
        stdout,
        stderr,
    } = ended;
    assert!(stderr.starts_with(report), "{way:?}: {stderr}");
    let code = match way {
        Way::Program => 0,
        Way::Script => 2,
    };
    assert_eq!(status.code(), Some(code), "{way:?}: {status}: {stderr}");
    let lines = stdout.split(|&byte| byte == b'\n');
    let last = |line: &&[u8]| line.starts_with(b"E") || line.starts_with(b"X");
    assert_eq!(lines.filter(last).count(), 0, "{way:?}: {stdout:?}");
}

/// A read that works, so that what follows is due to the failure.
#[test]
fn nothing_fails() {
    for way in WAYS {
        let ended = ended(into(way.command(), TRAIL, Stdio::piped()));
        assert_eq!((ended.status.code(), &ended.stderr[..]), (Some(0), ""));
        assert_eq!(ended.stdout, reference::program_output(TRAIL));
        assert!(ended.stdout.ends_with(b"\nE\t1\t1\n"));
    }
}

#[test]
fn first_read_fails() {
    for way in WAYS {
        // A directory can be opened, but not read.
        let directory = File::open("/").expect("the root can be opened");
        let ended = ended(started(way.command(), directory.into(), Stdio::piped()));
        failed(way, &ended, "bsmlist: cannot read");
        assert_eq!(ended.stdout, b"");
    }
}

#[test]
fn named_inputs_that_cannot_be_read() {
    let directory = env!("CARGO_MANIFEST_DIR");
    let missing = concat!(env!("CARGO_MANIFEST_DIR"), "/no such trail");
    for way in WAYS {
        for name in [directory, missing] {
            let mut command = way.command();
            command.arg(name);
            let ended = ended(started(command, Stdio::null(), Stdio::piped()));
            let report = match way {
                Way::Program if name == missing => missing,
                _ => "bsmlist: ",
            };
            failed(way, &ended, report);
            assert_eq!(ended.stdout, b"");
        }
    }
}

extern "C" {
    fn ioctl(fd: c_int, request: c_ulong, ...) -> c_int;
}

/// How many bytes have come to a socket and were not read.
fn unread(socket: &TcpStream) -> usize {
    const FIONREAD: c_ulong = 0x541B;
    let mut count: c_int = 0;
    // SAFETY: the request stores one number at the pointer behind it.
    let done = unsafe { ioctl(socket.as_raw_fd(), FIONREAD, &mut count as *mut c_int) };
    assert_eq!(done, 0);
    usize::try_from(count).expect("a count")
}

/// Both ends of a connection within this machine.
fn connection() -> (TcpStream, TcpStream) {
    let listener = TcpListener::bind((Ipv4Addr::LOCALHOST, 0)).expect("a free port");
    let address = listener.local_addr().expect("an address");
    let sender = TcpStream::connect_timeout(&address, PATIENCE).expect("it listens");
    let (reader, from) = listener.accept().expect("it is connected");
    assert_eq!(from, sender.local_addr().expect("an address"));
    (sender, reader)
}

/// Runs it on a connection that gives these bytes, all of which it has read
/// before the connection is reset.
fn on_reset_connection(way: Way, bytes: &[u8]) -> Ended {
    let (mut sender, mut reader) = connection();
    sender.write_all(bytes).expect("it is connected");
    until("bytes come", || unread(&reader) == bytes.len());
    let stdin = OwnedFd::from(reader.try_clone().expect("a second descriptor"));
    let child = started(way.command(), stdin.into(), Stdio::piped());
    until("the program reads", || unread(&reader) == 0);
    // An end that is closed with something unread resets its connection.
    reader.write_all(b"unread").expect("it is connected");
    until("an answer comes", || unread(&sender) == 6);
    drop(sender);
    ended(child)
}

#[test]
fn later_read_fails() {
    let long = TRAIL.repeat(1_000);
    for way in WAYS {
        // Half an item, and bytes whose listing would be whole if this were
        // their end.
        for bytes in [&TRAIL[..1], &TRAIL[..20], TRAIL, &long] {
            let ended = on_reset_connection(way, bytes);
            failed(way, &ended, "bsmlist: cannot read");
        }
    }
}

/// A trail whose listing is longer than a pipe holds.
fn long_trail() -> Vec<u8> {
    let trail = b"\x11\xff\xff\xff\xff\0\x0f\x42\x3f\0\x01\0".repeat(5_400);
    assert!(trail.len() <= 65_536);
    assert!(reference::program_output(&trail).len() > 140_000);
    trail
}

#[test]
fn writes_fail() {
    for way in WAYS {
        for trail in [TRAIL, &long_trail()] {
            let full = File::options().write(true).open("/dev/full");
            let full = full.expect("a device that is always full");
            let ended = ended(into(way.command(), trail, full.into()));
            failed(way, &ended, "bsmlist: cannot write");
        }
    }
}

#[test]
fn pipe_is_closed() {
    let trail = long_trail();
    let listing = reference::program_output(&trail);
    for way in WAYS {
        let mut child = into(way.command(), &trail, Stdio::piped());
        let mut pipe = child.stdout.take().expect("a pipe");
        let mut seen = [0; 1_000];
        pipe.read_exact(&mut seen).expect("it writes");
        drop(pipe);
        let ended = ended(child);
        failed(way, &ended, "bsmlist: cannot write");
        assert!(listing.starts_with(&seen));
    }
}

/// As above, where the signal for a closed pipe is left as it is by default:
/// the program's runtime ignores it, so that the write fails and is said.
#[test]
fn pipe_is_closed_with_its_signal() {
    let mut child = into(Command::new(program()), &long_trail(), Stdio::piped());
    let mut pipe = child.stdout.take().expect("a pipe");
    pipe.read_exact(&mut [0; 1_000]).expect("it writes");
    drop(pipe);
    let ended = ended(child);
    failed(Way::Program, &ended, "bsmlist: cannot write");
}
