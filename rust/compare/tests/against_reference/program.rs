//! The program, fed on standard input.

use compare::PROGRAM;
use generator::*;
use std::env;
use std::io::Write;
use std::path::{Path, PathBuf};
use std::process::{Command, Stdio};
use std::thread;

/// The program that BSM_PROGRAM names, or the one built in the repository.
pub fn program() -> PathBuf {
    let path = match env::var_os("BSM_PROGRAM") {
        Some(path) => PathBuf::from(path),
        None => Path::new(env!("CARGO_MANIFEST_DIR")).join("../../target/bin/bsmlist"),
    };
    assert!(
        path.is_file(),
        "{} is missing: run `scripts/ready test program` in the repository's root to make \
         it, or set BSM_PROGRAM",
        path.display()
    );
    path
}

/// What the program writes for this input.
fn output(program: &Path, input: &[u8]) -> Vec<u8> {
    let mut child = Command::new(program)
        .stdin(Stdio::piped())
        .stdout(Stdio::piped())
        .stderr(Stdio::piped())
        .spawn()
        .expect("the program starts");
    let mut stdin = child.stdin.take().expect("standard input is a pipe");
    let done = thread::scope(|scope| {
        // Too long an input is not read to its end, so a write may fail.
        scope.spawn(move || drop(stdin.write_all(input)));
        child.wait_with_output().expect("the program ends")
    });
    assert!(done.status.success(), "{}", done.status);
    assert_eq!(done.stderr, b"");
    done.stdout
}

fn same_output(program: &Path, input: &[u8]) -> Vec<u8> {
    let found = output(program, input);
    let expected = reference::program_output(input);
    assert!(
        found == expected,
        "for {} bytes: {}\nnot {}",
        input.len(),
        String::from_utf8_lossy(&found),
        String::from_utf8_lossy(&expected)
    );
    found
}

/// A good trail of exactly this length.
fn trail_of(rng: &mut Rng, length: usize) -> Vec<u8> {
    let around = header_size(0x14) + 3 + 7;
    let mut trail = Vec::new();
    loop {
        let item = good_trail(rng, 1);
        let left = length - trail.len();
        // The last record is the smallest one around an opaque.
        if item.len() + around > left {
            let size = left - around;
            let mut body = vec![0x29];
            body.extend((size as u16).to_be_bytes());
            body.extend(rng.bytes(size));
            let header = reference::Header {
                number: 0x14,
                address: &[],
                ..good_header(rng).fields
            };
            trail.extend(raw_record(&header, &body));
            return trail;
        }
        trail.extend(item);
    }
}

#[test]
fn program_lists_as_the_reference() {
    let program = program();
    let mut rng = Rng::new(701);
    let mut inputs = 0;
    for _ in 0..PROGRAM {
        same_output(&program, &program_input(&mut rng));
        inputs += 1;
    }
    assert!(inputs >= PROGRAM);
}

#[test]
fn inputs_at_the_programs_bound() {
    let program = program();
    let mut rng = Rng::new(702);
    for length in [65_535, 65_536] {
        let trail = trail_of(&mut rng, length);
        assert_eq!(trail.len(), length);
        let list = same_output(&program, &trail);
        assert!(
            list.rsplit(|&byte| byte == b'\n')
                .nth(1)
                .unwrap_or_default()[0]
                == b'E'
        );
        same_output(&program, &rng.bytes(length));
    }
    for length in [65_537, 65_600, 131_072, 200_000] {
        let trail = trail_of(&mut rng, 40_000).repeat(5);
        let list = same_output(&program, &trail[..length]);
        assert_eq!(list, b"bsmlist\t1\nX\t12\t65536\t0\n");
    }
    assert_eq!(same_output(&program, b""), b"bsmlist\t1\nE\t0\t0\n");
}
