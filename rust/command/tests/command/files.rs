//! Names of files, standard input, headings and statuses.

use crate::run::*;
use crate::trails::*;
use generator::{targeted, Rng};
use std::ffi::OsStr;
use std::fs;
use std::os::unix::fs::PermissionsExt;

/// A good trail, a short one and a refused one, and the status of each.
fn three() -> [(&'static str, Vec<u8>, i32); 3] {
    let good = tokens_trail();
    let short = good[..good.len() - 1].to_vec();
    let refused = [&good[..], b"\x13"].concat();
    [
        ("good", good, 0),
        ("short", short, 3),
        ("refused", refused, 1),
    ]
}

fn three_files(scratch: &Scratch) {
    for (name, bytes, _) in three() {
        scratch.file(name, &bytes);
    }
}

#[test]
fn one_trail() {
    let scratch = Scratch::new();
    three_files(&scratch);
    for (name, bytes, status) in three() {
        let listed = reference::listing(&bytes);
        let file = ended(scratch.bsm(["list", name]));
        assert_eq!((file.status, text(&file.stdout)), (status, text(&listed)));
        for words in [&["list"][..], &["list", "-"]] {
            let input = fed(bsm(words), &bytes);
            assert_eq!((input.status, text(&input.stdout)), (status, text(&listed)));
            assert_eq!(
                input.stderr,
                file.stderr
                    .replace(&format!("bsm: {name}:"), "bsm: standard input:")
            );
        }
    }
}

/// What is said has the number, the place and the need.
#[test]
fn refusals_are_said() {
    let mut rng = Rng::new(841);
    let mut said = [0; 15];
    for number in [1, 3, 4, 5, 6, 7, 8, 9, 13, 14] {
        for _ in 0..20 {
            let trail = targeted(&mut rng, number).0;
            let Some(refusal) = reference::run(&trail, Default::default()).refusal else {
                continue;
            };
            said[usize::from(refusal.number)] += 1;
            let ended = fed(bsm(["print"]), &trail);
            let numbers = format!(
                "(refusal {}, place {}, need {})\n",
                refusal.number, refusal.place, refusal.need
            );
            assert!(
                ended.stderr.ends_with(&numbers),
                "{} {numbers}",
                ended.stderr
            );
            let start = match refusal.number {
                1 => "bsm: standard input: short: ",
                _ => "bsm: standard input: refused: ",
            };
            assert!(ended.stderr.starts_with(start), "{}", ended.stderr);
            assert_eq!(ended.status, status_of(&trail));
        }
    }
    let least = [1, 3, 4, 5, 6, 7, 8, 9, 13, 14].map(|number| said[number]);
    assert!(least.iter().all(|&count| count > 0), "{said:?}");
}

/// The worst counts: 2 before 1, 1 before 3, 3 before 0.
#[test]
fn statuses_of_several() {
    let scratch = Scratch::new();
    three_files(&scratch);
    for (names, status) in [
        (&["good", "good"][..], 0),
        (&["good", "short"], 3),
        (&["short", "refused", "good"], 1),
        (&["refused", "short"], 1),
        (&["refused", "missing", "short"], 2),
        (&["missing", "good"], 2),
    ] {
        for subcommand in ["list", "print"] {
            let words = [&[subcommand], names].concat();
            assert_eq!(ended(scratch.bsm(&words)).status, status, "{words:?}");
        }
    }
}

/// Files that cannot be read are said, with the system's own words, and do
/// not stop the others.
#[test]
fn unreadable_between_others() {
    let scratch = Scratch::new();
    three_files(&scratch);
    let listing = reference::listing(&tokens_trail());
    let listing = text(&listing);
    fs::create_dir(scratch.path().join("folder")).expect("a new folder");
    let expected = format!("==> good <==\n{listing}\n==> good <==\n{listing}");
    for (name, reason) in [
        ("missing", "No such file or directory"),
        ("folder", "Is a directory"),
        ("good/inside", "Not a directory"),
        ("", "No such file or directory"),
    ] {
        let ended = ended(scratch.bsm(["list", "good", name, "good"]));
        assert_eq!(text(&ended.stdout), expected, "{name}");
        assert_eq!(ended.stderr, format!("bsm: {name}: {reason}\n"));
        assert_eq!(ended.status, 2);
    }
}

/// As far as this user may not read everything.
#[test]
fn unreadable_by_its_rights() {
    let scratch = Scratch::new();
    let path = scratch.file("locked", &tokens_trail());
    fs::set_permissions(&path, fs::Permissions::from_mode(0o0)).expect("rights can be set");
    let ended = ended(scratch.bsm(["print", "locked"]));
    match fs::read(&path) {
        Ok(_) => assert_eq!(ended.status, 0),
        Err(_) => {
            assert_eq!(ended.stderr, "bsm: locked: Permission denied\n");
            assert_eq!((ended.status, &ended.stdout[..]), (2, &b""[..]));
        }
    }
}

/// JSON has no headings: each object names its trail.
#[test]
fn headings() {
    let scratch = Scratch::new();
    three_files(&scratch);
    let plain = |name: &str| ended(scratch.bsm(["print", name])).stdout;
    let both = ended(scratch.bsm(["print", "good", "refused"]));
    let expected = format!(
        "==> good <==\n{}\n==> refused <==\n{}",
        text(&plain("good")),
        text(&plain("refused"))
    );
    assert_eq!(text(&both.stdout), expected);
    let json = ended(scratch.bsm(["print", "--json", "good", "refused"]));
    let names = text(&json.stdout).lines().map(|line| {
        let (_, rest) = line.split_once("\"trail\":\"").expect("its trail");
        rest.split_once('"').expect("its end").0
    });
    assert!(names.eq([["good"; 4], ["refused"; 4]].concat()));
    let standard = fed(scratch.bsm(["list", "good", "-"]), b"");
    let end = "\n==> standard input <==\nbsmlist\t1\nE\t0\t0\n";
    assert!(text(&standard.stdout).ends_with(end));
}

/// Unknown options are said and passed over, as missing files are; without
/// a file, standard input is not waited for then.
#[test]
fn unknown_options() {
    let scratch = Scratch::new();
    three_files(&scratch);
    let listing = reference::listing(&tokens_trail());
    for option in ["--all", "-x", "--Event", "--list", "--json=1x", "-1"] {
        let with = ended(scratch.bsm(["list", option, "good"]));
        assert_eq!(text(&with.stdout), text(&listing), "{option}");
        assert_eq!(with.stderr, format!("bsm: {option}: unknown option\n"));
        assert_eq!(with.status, 2);
        let alone = fed(scratch.bsm(["list", option]), &tokens_trail());
        assert_eq!((alone.status, &alone.stdout[..]), (2, &b""[..]));
    }
    let valued = fed(bsm(["print", "--json=yes"]), b"");
    assert_eq!(
        valued.stderr,
        "bsm: --json takes no value; see 'bsm help print'\n"
    );
    assert_eq!(valued.status, 2);
}

/// Behind `--` every word is a file's name.
#[test]
fn names_that_look_like_options() {
    let scratch = Scratch::new();
    scratch.file("--event", &tokens_trail());
    let ended = ended(scratch.bsm(["list", "--", "--event"]));
    assert_eq!(
        text(&ended.stdout),
        text(&reference::listing(&tokens_trail()))
    );
    assert_eq!(ended.status, 0);
}

#[test]
fn no_such_subcommand() {
    for words in [&["lists"][..], &["--json"], &["help", "lists"], &[""], &[]] {
        let ended = ended(bsm(words.iter().map(OsStr::new)));
        assert_eq!((ended.status, &ended.stdout[..]), (2, &b""[..]));
        assert_eq!(ended.stderr.lines().count(), 1, "{}", ended.stderr);
        assert!(
            ended.stderr.ends_with("see 'bsm help'\n"),
            "{}",
            ended.stderr
        );
    }
}
