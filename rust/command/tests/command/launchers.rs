//! The launchers `bsm` and `bsmlist`: in the repository, and in a copy whose
//! `rt` and `cargo` only say what they were built from.

use crate::run::*;
use crate::trails::tokens_trail;
use std::ffi::OsStr;
use std::fs::{self, File};
use std::os::unix::ffi::OsStrExt;
use std::os::unix::fs::symlink;
use std::path::{Path, PathBuf};
use std::process::Command;
use std::thread;
use std::time::SystemTime;

/// Stands in for `rt`: the program and the archive are the code. Someone may
/// change the code meanwhile.
const RT: &str = r#"#!/bin/sh
echo "rt $* in $(basename "$PWD")" >>../../calls
cat >/dev/null
if grep -q fails ../code.rt; then
    echo "rt: the code fails" >&2
    exit 1
fi
echo "checked crate::function, 1 of 1"
echo "crate crate: modules loaded=0 checked=7"
mkdir -p out
case $1 in
    run) product=out/bsmlist ;;
    lib) product=out/libbsm_export.a ;;
esac
cp ../code.rt new
chmod +x new
mv new $product
if [ -e ../../meanwhile ]; then mv ../../meanwhile ../code.rt; fi
"#;

/// Stands in for `cargo`, and goes by times as it does: the command is the
/// archive and a source behind it.
const CARGO: &str = r#"#!/bin/sh
echo cargo >>../calls
mkdir -p target/release/.fingerprint/command-0
if [ ! -e target/release/.fingerprint/command-0/made ] || [ command/src/main.rs -nt target/release/bsm ]; then
    cat ../target/staticlib/libbsm_export.a command/src/main.rs >new
    chmod +x new
    mv new target/release/bsm
    echo "   Compiling command v0.1.0 (/somewhere)" >&2
fi
touch target/release/.fingerprint/command-0/made
echo "    Finished" >&2
"#;

/// Code that says its version, its words and its input.
fn code(version: &str) -> String {
    format!("#!/bin/sh\necho {version} \"$@\"\ncat\n")
}

/// A copy of the launchers with code of its own.
struct Copy(Scratch);

impl Copy {
    fn new() -> Copy {
        let copy = Copy(Scratch::new());
        for folder in [
            "crates/bsm_export",
            "crates/bsmlist",
            "scripts",
            "rust/bsm",
            "rust/command/src",
            "tools",
            "elsewhere",
        ] {
            fs::create_dir_all(copy.path(folder)).expect("a new folder");
        }
        // Another process writes what is to be run: one that is started
        // while this one writes would hold it open.
        for name in ["bsm", "bsmlist", "scripts/ready"] {
            let mut cp = Command::new("cp");
            cp.args([root().join(name), copy.path(name)]);
            assert_eq!(ended(cp).status, 0);
        }
        for (name, text) in [("tools/rt", RT), ("tools/cargo", CARGO)] {
            let mut shell = Command::new("/bin/sh");
            shell.args(["-c", "cat >\"$0\" && chmod +x \"$0\""]);
            shell.arg(copy.path(name));
            assert_eq!(fed(shell, text.as_bytes()).status, 0);
        }
        for name in ["crates.txt", "rust/Cargo.toml", "rust/command/Cargo.toml"] {
            copy.write(name, "");
        }
        copy.write("rust/command/src/main.rs", "");
        copy.write("crates/code.rt", &code("first"));
        copy
    }

    fn path(&self, name: &str) -> PathBuf {
        self.0.path().join(name)
    }

    fn write(&self, name: &str, text: &str) {
        self.0.file(name, text.as_bytes());
    }

    /// Writes a file that seems to be as old as can be.
    fn write_old(&self, name: &str, text: &str) {
        self.write(name, text);
        let file = File::options().write(true).open(self.path(name));
        let file = file.expect("it is there");
        file.set_modified(SystemTime::UNIX_EPOCH)
            .expect("times can be set");
    }

    /// A launcher, run in another folder.
    fn command(&self, launcher: &Path, words: &[&str]) -> Command {
        let path = std::env::var("PATH").expect("a path");
        let mut command = Command::new(launcher);
        command.args(words).current_dir(self.path("elsewhere"));
        command.env("PATH", format!("{}:{path}", self.path("tools").display()));
        command
    }

    fn run(&self, name: &str, words: &[&str], input: &str) -> Ended {
        fed(self.command(&self.path(name), words), input.as_bytes())
    }

    /// Runs a launcher and sees what it writes, and whether it built for it.
    fn writes(&self, name: &str, output: &str, built: bool) {
        self.calls();
        let ended = self.run(name, &[], "");
        assert_eq!(text(&ended.stdout), output, "{}", ended.stderr);
        assert_eq!(ended.status, 0);
        assert_eq!(!self.calls().is_empty(), built);
        assert_eq!(!ended.stderr.is_empty(), built, "{}", ended.stderr);
    }

    /// What was called since the last time.
    fn calls(&self) -> String {
        let calls = fs::read_to_string(self.path("calls")).unwrap_or_default();
        drop(fs::remove_file(self.path("calls")));
        calls
    }
}

/// The launchers, and what each has proved.
const LAUNCHERS: [(&str, &str, &str); 2] = [
    ("bsmlist", "rt run in bsmlist\n", "target/bin/bsmlist"),
    (
        "bsm",
        "rt lib in bsm_export\n",
        "target/staticlib/libbsm_export.a",
    ),
];

#[test]
fn builds_once_and_says_so() {
    for (name, proving, product) in LAUNCHERS {
        let copy = Copy::new();
        let first = copy.run(name, &["a", "b c"], "input\n");
        assert_eq!(text(&first.stdout), "first a b c\ninput\n");
        let mut said = vec![
            format!("{name}: {product} is missing or not from this code; proving and building it: some minutes"),
            format!("{name}: crate checked"),
        ];
        let mut calls = proving.to_string();
        if name == "bsm" {
            let product = "rust/target/release/bsm";
            said.push(format!(
                "bsm: {product} is missing or not from this code; compiling it"
            ));
            said.push("bsm: compiling command".to_string());
            calls.push_str("cargo\n");
        }
        assert!(first.stderr.lines().eq(&said), "{}", first.stderr);
        assert_eq!(copy.calls(), calls);

        let second = copy.run(name, &[], "more");
        assert_eq!(text(&second.stdout), "first\nmore");
        assert_eq!((&second.stderr[..], &copy.calls()[..]), ("", ""));
    }
}

/// Whatever the times of the files say, and whoever made the product.
#[test]
fn never_runs_a_stale_build() {
    for (name, _, product) in LAUNCHERS {
        let copy = Copy::new();
        copy.writes(name, "first\n", true);
        copy.write_old("crates/code.rt", &code("second"));
        copy.writes(name, "second\n", true);
        copy.write(product, &code("other"));
        copy.writes(name, "second\n", true);
        fs::remove_file(copy.path(product)).expect("it is there");
        copy.writes(name, "second\n", true);
        copy.write("crates.txt", "another\n");
        copy.writes(name, "second\n", true);
        copy.writes(name, "second\n", false);
    }
}

#[test]
fn never_runs_a_stale_command() {
    let copy = Copy::new();
    copy.writes("bsm", "first\n", true);
    copy.write_old("rust/command/src/main.rs", "echo and more\n");
    copy.writes("bsm", "first\nand more\n", true);
    copy.write("rust/target/release/bsm", "#!/bin/sh\necho another\n");
    copy.writes("bsm", "first\nand more\n", true);
    copy.write_old("rust/bsm/lib.rs", "");
    copy.writes("bsm", "first\nand more\n", true);
    copy.writes("bsm", "first\nand more\n", false);
}

/// What was proved is not the code any more: it is proved again.
#[test]
fn code_that_changes_meanwhile() {
    for (name, proving, _) in LAUNCHERS {
        let copy = Copy::new();
        copy.write("meanwhile", &code("later"));
        let ended = copy.run(name, &[], "");
        assert_eq!(text(&ended.stdout), "later\n");
        assert_eq!(copy.calls().matches(proving).count(), 2);
        copy.writes(name, "later\n", false);
    }
}

/// What cannot be built is not run, not even as it was before.
#[test]
fn a_failed_build_is_shown() {
    for (name, _, product) in LAUNCHERS {
        let copy = Copy::new();
        copy.writes(name, "first\n", true);
        copy.write("crates/code.rt", "fails");
        for _ in 0..2 {
            let failed = copy.run(name, &[], "");
            assert_eq!((failed.status, text(&failed.stdout)), (2, ""));
            let end = format!("rt: the code fails\n{name}: {product} could not be built\n");
            assert!(failed.stderr.ends_with(&end), "{}", failed.stderr);
        }
        copy.write("crates/code.rt", &code("third"));
        copy.writes(name, "third\n", true);
    }
}

/// Through links, absolute and relative; two at a time build once.
#[test]
fn links_and_two_at_a_time() {
    for (name, proving, _) in LAUNCHERS {
        let copy = Copy::new();
        symlink(copy.path(name), copy.path("elsewhere/direct")).expect("a link");
        symlink("direct", copy.path("elsewhere/link")).expect("a link");
        let (one, two) = thread::scope(|scope| {
            let run = |link: &'static str| {
                let copy = &copy;
                move || ended(copy.command(Path::new(link), &["x"]))
            };
            let one = scope.spawn(run("./link"));
            let two = scope.spawn(run("./direct"));
            (one.join().expect("it ends"), two.join().expect("it ends"))
        });
        for ended in [one, two] {
            assert_eq!(text(&ended.stdout), "first x\n", "{}", ended.stderr);
        }
        assert_eq!(copy.calls().matches(proving).count(), 1);
    }
}

#[test]
fn the_lister_of_the_repository() {
    let scratch = Scratch::new();
    let trail = tokens_trail();
    scratch.file("good", &trail);
    scratch.file("-dash", b"");
    fs::create_dir(scratch.path().join("folder")).expect("a new folder");
    symlink(root().join("bsmlist"), scratch.path().join("link")).expect("a link");
    let run = |words: &[&str]| {
        let mut command = Command::new("./link");
        command.args(words).current_dir(scratch.path());
        fed(command, &trail[..1])
    };
    let listing = reference::listing(&trail);
    let listing = text(&listing);

    let all = run(&["good", "missing", "--all", "folder", "good"]);
    assert_eq!(text(&all.stdout), listing.repeat(2));
    let mut said: Vec<&str> = all.stderr.lines().collect();
    said.sort();
    assert_eq!(
        said,
        [
            "bsmlist: --all: unknown option",
            "bsmlist: folder: Is a directory",
            "bsmlist: missing: No such file or directory",
        ]
    );
    assert_eq!(all.status, 2);

    for (words, output) in [
        (&[][..], reference::listing(&trail[..1])),
        (&["-"], reference::listing(&trail[..1])),
        (&["--", "-dash"], reference::listing(b"")),
    ] {
        let ended = run(words);
        assert_eq!((text(&ended.stdout), ended.status), (text(&output), 0));
    }
    for words in [&["folder"][..], &["-x"]] {
        let ended = run(words);
        assert_eq!((ended.status, text(&ended.stdout)), (2, ""));
        assert_eq!(ended.stderr.lines().count(), 1, "{}", ended.stderr);
    }
    let steering = run(&["--\x1b[1m", "no\x07file"]);
    assert_eq!(steering.stderr.lines().count(), 2);
    let raw = |byte: u8| byte.is_ascii_control() && byte != b'\n';
    assert!(!steering.stderr.bytes().any(raw), "{}", steering.stderr);
    for words in [&["-h"][..], &["--help"], &["good", "--help"]] {
        let help = run(words);
        assert!(text(&help.stdout).starts_with("usage: bsmlist "));
        assert_eq!((help.status, &help.stderr[..]), (0, ""));
    }
}

/// The program opens files by names that are text; the script the others.
#[test]
fn names_that_are_no_text() {
    let scratch = Scratch::new();
    let trail = tokens_trail();
    let name = OsStr::from_bytes(b"a\xff");
    scratch.file(name, &trail);
    let mut command = Command::new(root().join("bsmlist"));
    command.args([name, name]).current_dir(scratch.path());
    let both = fed(command, b"");
    let listing = reference::listing(&trail);
    assert_eq!(text(&both.stdout), text(&listing).repeat(2));
    assert_eq!((both.status, &both.stderr[..]), (0, ""));
}

#[test]
fn the_command_of_the_repository() {
    let scratch = Scratch::new();
    scratch.file("trail", &tokens_trail());
    symlink(root().join("bsm"), scratch.path().join("link")).expect("a link");
    let mut command = Command::new("./link");
    command.args(["list", "trail"]).current_dir(scratch.path());
    let ended = ended(command);
    assert_eq!(
        text(&ended.stdout),
        text(&reference::listing(&tokens_trail()))
    );
    assert_eq!(ended.status, 0);
}
