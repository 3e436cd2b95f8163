//! What the documents show, and the stored outputs in `golden`: a line that
//! begins with `$ ` is run, and what stands below it must be what it writes
//! to a terminal, and its status where that is not 0.
//!
//! With BSM_WRITE=1 in the environment the files are written anew; look at
//! what changed before you keep it.

use crate::run::*;
use crate::trails::{joined_trail, tokens_trail};
use generator::stored_files;
use std::env;
use std::fs;
use std::io::{pipe, Read};
use std::os::unix::fs::symlink;
use std::path::Path;
use std::process::{Command, Stdio};

/// A folder with the two programs and the stored trails.
fn place() -> Scratch {
    let scratch = Scratch::new();
    symlink(built(), scratch.path().join("bsm")).expect("a link");
    let program = root().join("target/bin/bsmlist");
    symlink(program, scratch.path().join("bsmlist")).expect("a link");
    for file in stored_files() {
        if let Some(name) = file.path.strip_prefix("data/") {
            scratch.file(name, &file.bytes);
        }
    }
    scratch.file("tokens", &tokens_trail());
    scratch.file("joined", &joined_trail());
    scratch
}

/// What a line of a shell writes, standard error included, and its status.
fn replayed(scratch: &Scratch, line: &str) -> String {
    let (mut reader, writer) = pipe().expect("a pipe");
    let mut shell = Command::new("timeout");
    let path = env::var("PATH").expect("a path");
    shell
        .args(["60", "/bin/bash", "-c", line])
        .current_dir(scratch.path())
        .env("PATH", format!("{}:{path}", scratch.path().display()))
        .stdin(Stdio::null())
        .stdout(writer.try_clone().expect("a second descriptor"))
        .stderr(writer);
    let mut child = shell.spawn().expect("a shell");
    drop(shell);
    let mut output = String::new();
    reader.read_to_string(&mut output).expect("it is text");
    let status = child.wait().expect("it ends").code().expect("no signal");
    if status != 0 {
        output.push_str(&format!("(status {status})\n"));
    }
    output
}

/// The lines of a document, with those below each command as they are now.
/// Lines are indented alike; an empty line belongs to an output only where
/// more of it follows.
fn renewed(document: &str, indent: &str) -> (String, usize) {
    let scratch = place();
    let start = format!("{indent}$ ");
    let mut new = String::new();
    let mut commands = 0;
    let mut lines = document.lines().peekable();
    while let Some(line) = lines.next() {
        new.push_str(line);
        new.push('\n');
        let Some(command) = line.strip_prefix(&start) else {
            continue;
        };
        commands += 1;
        let output = replayed(&scratch, command);
        for line in output.lines() {
            let shown = if line.is_empty() { "" } else { indent };
            new.push_str(&format!("{shown}{line}\n"));
        }
        let mut gap = 0;
        while let Some(line) = lines.peek() {
            let output = line.starts_with(indent) && !line.starts_with(&start);
            match (line.is_empty(), output) {
                (true, _) => gap += 1,
                (false, true) => gap = 0,
                (false, false) => break,
            }
            lines.next();
        }
        new.push_str(&"\n".repeat(gap));
    }
    (new, commands)
}

/// Replays a document, and answers how many commands it has.
fn replay(path: &Path, indent: &str) -> usize {
    let document = fs::read_to_string(path).expect("it is there");
    let (new, commands) = renewed(&document, indent);
    if env::var_os("BSM_WRITE").is_some() {
        fs::write(path, new).expect("it can be written");
    } else {
        for (i, (old, new)) in document.lines().zip(new.lines()).enumerate() {
            assert_eq!(old, new, "{}:{}", path.display(), i + 1);
        }
        assert_eq!(document, new, "{}", path.display());
    }
    commands
}

#[test]
fn stored_outputs() {
    let folder = Path::new(env!("CARGO_MANIFEST_DIR")).join("tests/golden");
    for name in ["choosing", "damaged", "good", "record", "short"] {
        let commands = replay(&folder.join(name), "");
        assert!(commands > 2, "{name}");
    }
}

#[test]
fn documents() {
    for name in ["README.md", "docs/COMMAND.md"] {
        let commands = replay(&root().join(name), "    ");
        assert!(commands > 2, "{name}");
    }
}
