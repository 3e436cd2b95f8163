//! Starting the command and seeing how it ends.

use std::env;
use std::ffi::OsStr;
use std::fs;
use std::io::{ErrorKind, Read, Write};
use std::path::{Path, PathBuf};
use std::process::{self, Child, Command, ExitStatus, Stdio};
use std::sync::atomic::{AtomicUsize, Ordering};
use std::thread::{self, sleep, JoinHandle};
use std::time::{Duration, Instant};

/// The root of the repository.
pub fn root() -> PathBuf {
    let root = Path::new(env!("CARGO_MANIFEST_DIR")).join("../..");
    root.canonicalize().expect("the repository is there")
}

/// The built command.
pub fn built() -> &'static Path {
    Path::new(env!("CARGO_BIN_EXE_bsm"))
}

/// A folder of a test's own, removed at its end.
pub struct Scratch(PathBuf);

impl Scratch {
    pub fn new() -> Scratch {
        static COUNT: AtomicUsize = AtomicUsize::new(0);
        loop {
            let count = COUNT.fetch_add(1, Ordering::Relaxed);
            let name = format!("bsm-{}-{count}", process::id());
            let folder = env::temp_dir().join(name);
            match fs::create_dir(&folder) {
                Ok(()) => return Scratch(folder),
                // Left by a process that had this number before.
                Err(error) if error.kind() == ErrorKind::AlreadyExists => {}
                Err(error) => panic!("{}: {error}", folder.display()),
            }
        }
    }

    pub fn path(&self) -> &Path {
        &self.0
    }

    /// Writes a file and answers its path.
    pub fn file(&self, name: impl AsRef<Path>, bytes: &[u8]) -> PathBuf {
        let path = self.0.join(name);
        fs::write(&path, bytes).expect("a file can be written");
        path
    }

    /// The command, to be run in this folder.
    pub fn bsm<S: AsRef<OsStr>>(&self, words: impl IntoIterator<Item = S>) -> Command {
        let mut command = bsm(words);
        command.current_dir(&self.0);
        command
    }
}

impl Drop for Scratch {
    fn drop(&mut self) {
        // Whatever is left there harms nobody.
        drop(fs::remove_dir_all(&self.0));
    }
}

/// The command with these words behind its name.
pub fn bsm<S: AsRef<OsStr>>(words: impl IntoIterator<Item = S>) -> Command {
    let mut command = Command::new(built());
    command.args(words);
    command
}

/// How long anything may take.
pub const PATIENCE: Duration = Duration::from_secs(60);

/// How a command ended.
#[derive(Debug, PartialEq, Eq)]
pub struct Ended {
    pub status: i32,
    pub stdout: Vec<u8>,
    pub stderr: String,
}

/// Runs a command on an empty standard input.
pub fn ended(command: Command) -> Ended {
    fed(command, b"")
}

/// Runs a command on these bytes.
pub fn fed(mut command: Command, input: &[u8]) -> Ended {
    command.stdin(Stdio::piped()).stdout(Stdio::piped());
    let mut child = started(command);
    let mut stdin = child.stdin.take().expect("a pipe");
    thread::scope(|scope| {
        // What does not want its input may end before it is written.
        scope.spawn(move || drop(stdin.write_all(input)));
        outcome(child)
    })
}

/// Starts a command, whose standard error is read at its end.
pub fn started(mut command: Command) -> Child {
    command.stderr(Stdio::piped()).spawn().expect("it starts")
}

/// Waits until a command ends by itself. What it wrote to pipes is read.
pub fn outcome(mut child: Child) -> Ended {
    let stdout = read_all(child.stdout.take());
    let stderr = read_all(child.stderr.take());
    let status = status_of_child(&mut child).code();
    let stderr = stderr.join().expect("it was read");
    Ended {
        status: status.expect("no signal ended it"),
        stdout: stdout.join().expect("it was read"),
        stderr: String::from_utf8(stderr).expect("what is said is text"),
    }
}

/// Reads a pipe to its end on a thread of its own.
fn read_all(pipe: Option<impl Read + Send + 'static>) -> JoinHandle<Vec<u8>> {
    thread::spawn(move || {
        let mut bytes = Vec::new();
        if let Some(mut pipe) = pipe {
            pipe.read_to_end(&mut bytes).expect("a pipe can be read");
        }
        bytes
    })
}

/// Waits for the end of a process, but not for ever.
pub fn status_of_child(child: &mut Child) -> ExitStatus {
    let start = Instant::now();
    loop {
        if let Some(status) = child.try_wait().expect("a child") {
            return status;
        }
        if start.elapsed() > PATIENCE {
            child.kill().expect("a child can be ended");
            panic!("it does not end");
        }
        sleep(Duration::from_millis(1));
    }
}

/// What was written, as text.
pub fn text(bytes: &[u8]) -> &str {
    std::str::from_utf8(bytes).expect("it is text")
}

/// The status for how a trail ends.
pub fn status_of(trail: &[u8]) -> i32 {
    match reference::run(trail, Default::default()).refusal {
        None => 0,
        Some(refusal) if refusal.number == 1 => 3,
        Some(_) => 1,
    }
}
