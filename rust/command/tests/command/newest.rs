//! `bsm newest` against walks of the reference.

use crate::run::*;
use crate::trails::*;
use bsm::NewToken;
use generator::*;
use reference::{item_at, reading, Answer, Item};
use std::fs::File;
use std::os::unix::fs::FileExt;
use std::process::Command;

/// Whether a file token ends at a place of a trail.
fn file_ends(trail: &[u8], place: usize) -> bool {
    (0..place).any(|at| match item_at(&trail[..place], at) {
        Answer::Item(Item::File { size, .. }) => at + size == place,
        _ => false,
    })
}

/// The places of the records to be shown, and the status.
fn expected(trail: &[u8]) -> (Vec<usize>, i32) {
    let places = |trail| {
        let (records, stop, _) = reference::newest(trail);
        let places: Vec<usize> = records.iter().map(|record| record.0).collect();
        (places, stop)
    };
    let (walked, stop) = places(trail);
    if stop == 0 || file_ends(trail, stop) {
        return (walked, 0);
    }
    if !walked.is_empty() {
        return (walked, 1);
    }
    let read = reference::run(trail, Default::default()).state.place;
    (places(&trail[..read]).0, status_of(trail))
}

/// The trail and the place of each line of JSON.
fn shown(stdout: &[u8]) -> Vec<(&str, usize, &str)> {
    text(stdout)
        .lines()
        .map(|line| {
            let (_, rest) = line.split_once(r#""trail":""#).expect("its trail");
            let (trail, rest) = rest.split_once(r#"","place":"#).expect("its place");
            let (place, _) = rest.split_once(',').expect("more");
            (trail, place.parse().expect("a number"), line)
        })
        .collect()
}

/// Good, damaged, cut and aimed trails.
fn inputs(rng: &mut Rng) -> Vec<Vec<u8>> {
    let mut inputs: Vec<Vec<u8>> = (0..600).map(|_| any_input(rng).0).collect();
    inputs.extend((0..600).map(|_| good_trail(rng, 6)));
    for aim in ENDINGS {
        inputs.extend((0..40).map(|_| ended_trail(rng, aim)));
    }
    for _ in 0..3 {
        let trail = good_trail(rng, 4);
        let cuts = (0..trail.len().min(400)).map(|end| trail[..end].to_vec());
        inputs.extend(cuts);
    }
    inputs
}

/// A trail that ends with this.
fn ended_trail(rng: &mut Rng, aim: Ending) -> Vec<u8> {
    let (mut trail, place) = with_ending(rng, aim);
    trail.truncate(place);
    trail
}

/// Many files in one call. What is shown of a record is what print shows of
/// it, wherever print comes so far.
#[test]
fn shows_what_the_reference_walks() {
    let scratch = Scratch::new();
    let mut rng = Rng::new(871);
    let inputs = inputs(&mut rng);
    let (mut statuses, mut records) = ([0; 4], 0);
    for (call, inputs) in inputs.chunks(50).enumerate() {
        let mut names = Vec::new();
        let (mut places, mut worst) = (Vec::new(), 0);
        for (i, input) in inputs.iter().enumerate() {
            let name = format!("{call}.{i}");
            scratch.file(&name, input);
            let (walked, status) = expected(input);
            places.extend(walked.into_iter().map(|place| (name.clone(), place)));
            names.push(name);
            statuses[status as usize] += 1;
            worst = if status == 1 || worst == 1 {
                1
            } else {
                worst.max(status)
            };
        }
        let with = |words: &[&str]| {
            let words = words.iter().map(|word| word.to_string());
            ended(scratch.bsm(words.chain(names.clone()).collect::<Vec<_>>()))
        };
        let newest = with(&["newest", "--json"]);
        let found = shown(&newest.stdout);
        let at: Vec<(String, usize)> = found.iter().map(|at| (at.0.to_string(), at.1)).collect();
        assert_eq!(at, places);
        assert_eq!(newest.status, worst, "{}", newest.stderr);
        let said = inputs.iter().filter(|input| expected(input).1 > 0).count();
        assert_eq!(newest.stderr.lines().count(), said, "{}", newest.stderr);

        let print = with(&["print", "--json"]);
        let printed = shown(&print.stdout);
        for (trail, place, line) in &found {
            let there = printed.iter().find(|at| (at.0, at.1) == (*trail, *place));
            records += usize::from(there.is_some_and(|at| at.2 == *line));
            assert!(there.is_none_or(|at| at.2 == *line), "{line}");
        }
    }
    let [good, refused, _, short] = statuses;
    assert!(good > 100 && refused > 100 && short > 100, "{statuses:?}");
    assert!(records > 1_000, "{records}");
}

/// A trail of many blocks, with the largest records among others.
fn long_trail(rng: &mut Rng) -> Vec<u8> {
    let mut trail = good_file(rng);
    while trail.len() < 1_500_000 {
        if rng.chance(30) {
            let bytes = vec![rng.u8(); 65_500 - rng.below(70)];
            let opaque = NewToken::Opaque { bytes: &bytes };
            trail.extend(record(&header(1, 2), &[opaque]));
        }
        trail.extend(good_record(rng));
    }
    trail
}

/// From a file, from a file as standard input, from a pipe, and from a file
/// that was read in part: the same records.
#[test]
fn files_and_pipes_of_many_blocks() {
    let scratch = Scratch::new();
    let mut rng = Rng::new(872);
    for _ in 0..4 {
        let trail = long_trail(&mut rng);
        let path = scratch.file("long", &trail);
        let (places, status) = expected(&trail);
        assert!(status == 0 && places.len() > 100, "{}", places.len());
        let file = ended(scratch.bsm(["newest", "--json", "long"]));
        let found = shown(&file.stdout);
        assert!(found.iter().map(|at| at.1).eq(places));
        assert_eq!((file.status, &file.stderr[..]), (0, ""));

        let piped = fed(bsm(["newest", "--json"]), &trail);
        let renamed = text(&file.stdout).replace(r#""trail":"long""#, r#""trail":"-""#);
        assert!(text(&piped.stdout) == renamed);
        let mut redirected = bsm(["newest", "--json", "-"]);
        redirected.stdin(File::open(&path).expect("it was written"));
        redirected.stdout(std::process::Stdio::piped());
        assert!(text(&outcome(started(redirected)).stdout) == renamed);
    }
}

#[test]
fn at_most_so_many() {
    let scratch = Scratch::new();
    let mut rng = Rng::new(873);
    let trail = long_trail(&mut rng);
    scratch.file("long", &trail);
    let all = ended(scratch.bsm(["newest", "long"])).stdout;
    let starts: Vec<usize> = text(&all).match_indices("record ").map(|at| at.0).collect();
    for most in [0, 1, 2, 10, 99, usize::MAX] {
        let some = ended(scratch.bsm(["newest", "-n", &most.to_string(), "long"]));
        let end = starts.get(most).copied().unwrap_or(all.len());
        assert!(some.stdout == all[..end], "{most}");
        assert_eq!((some.status, &some.stderr[..]), (0, ""));
        for word in [format!("-n{most}"), format!("-n={most}")] {
            assert_eq!(ended(scratch.bsm(["newest", &word, "long"])), some);
        }
    }
    for word in ["x", "-1", "", "1.5", "18446744073709551616"] {
        let wrong = ended(scratch.bsm(["newest", "-n", word, "long"]));
        assert_eq!((wrong.status, &wrong.stdout[..]), (2, &b""[..]), "{word}");
        assert!(wrong.stderr.ends_with("see 'bsm help newest'\n"));
        let joined = ended(scratch.bsm(["newest", &format!("-n{word}x"), "long"]));
        assert_eq!((joined.status, &joined.stdout[..]), (2, &b""[..]), "{word}");
    }
}

/// A file that is too long to be read from its start: only its end counts.
#[test]
fn only_the_end_is_read() {
    let scratch = Scratch::new();
    let mut rng = Rng::new(874);
    let end = [good_file(&mut rng), good_record(&mut rng).repeat(3)].concat();
    let far = 1 << 36;
    for (name, end, status) in [("file", &end[..], 0), ("none", &end[end.len() / 2..], 1)] {
        let file = File::create(scratch.path().join(name)).expect("a file");
        file.write_all_at(end, far).expect("it is mostly a hole");
        let base = far as usize;
        let (places, _, _) = reference::newest(end);
        let newest = ended(scratch.bsm(["newest", "--json", name]));
        let found = shown(&newest.stdout);
        assert!(found
            .iter()
            .map(|at| at.1)
            .eq(places.iter().map(|at| base + at.0)));
        assert_eq!(newest.status, status, "{}", newest.stderr);
        let one = ended(scratch.bsm(["newest", "-n", "1", name]));
        assert_eq!((one.status, &one.stderr[..]), (0, ""));
        assert_eq!(text(&one.stdout).matches("record ").count(), 1);
    }
}

/// The last record is cut at each byte, or something else stands behind it.
#[test]
fn trails_that_do_not_end_with_an_item() {
    let mut rng = Rng::new(875);
    let front = [
        good_file(&mut rng),
        good_record(&mut rng),
        good_record(&mut rng),
    ]
    .concat();
    let last = record(&header(7, 8), &[NewToken::Text { text: b"charter" }]);
    let before = fed(bsm(["newest"]), &front);
    for cut in 1..last.len() {
        let trail = [&front[..], &last[..cut]].concat();
        let newest = fed(bsm(["newest"]), &trail);
        assert_eq!(
            (newest.status, text(&newest.stdout)),
            (3, text(&before.stdout))
        );
        let listed = fed(bsm(["list"]), &trail);
        assert_eq!(newest.stderr, listed.stderr);
    }
    let refused = [&front[..], b"\x13"].concat();
    let newest = fed(bsm(["newest"]), &refused);
    assert_eq!(
        (newest.status, text(&newest.stdout)),
        (1, text(&before.stdout))
    );
    assert_eq!(newest.stderr, fed(bsm(["list"]), &refused).stderr);
}

/// Damage further ahead is met on the way.
#[test]
fn damage_before_the_newest() {
    let one = record(&header(7, 8), &[]);
    let trail = [&one[..], b"damage", &one, &one].concat();
    let newest = fed(bsm(["newest", "--json"]), &trail);
    let places: Vec<usize> = shown(&newest.stdout).iter().map(|at| at.1).collect();
    assert_eq!(places, [56, 31]);
    let said = "bsm: standard input: neither a record nor a file token ends at place 31; \
                'bsm list' reads what stands before\n";
    assert_eq!((newest.status, &newest.stderr[..]), (1, said));
    let one = fed(bsm(["newest", "-n", "2"]), &trail);
    assert_eq!((one.status, &one.stderr[..]), (0, ""));
}

/// Options that choose leave records out; N counts those that are shown.
#[test]
fn chosen_records() {
    let mut trail = Vec::new();
    for i in 0..30_u32 {
        let subject = NewToken::Subject32(party(i % 5, 1));
        trail.extend(record(&header((i % 3) as u16, u64::from(i)), &[subject]));
    }
    let (items, _) = reading(&trail, Default::default());
    let at = |i: usize| items[i].0;
    let places = |words: &[&str]| {
        let newest = fed(bsm([&["newest", "--json"], words].concat()), &trail);
        assert_eq!((newest.status, &newest.stderr[..]), (0, ""));
        let found = shown(&newest.stdout);
        found.iter().map(|at| at.1).collect::<Vec<usize>>()
    };
    assert_eq!(places(&["--event", "1", "-n", "2"]), [at(28), at(25)]);
    let session = places(&["--session", "6", "-n=3"]);
    assert_eq!(session, [at(25), at(20), at(15)]);
    let between = places(&["--since", "@10", "--until", "@12"]);
    assert_eq!(between, [at(11), at(10)]);
    assert_eq!(places(&["--event", "9"]), []);
}

#[test]
fn several_files() {
    let scratch = Scratch::new();
    let trail = tokens_trail();
    scratch.file("good", &trail);
    scratch.file("empty", b"");
    scratch.file("short", &trail[..trail.len() - 1]);
    std::fs::create_dir(scratch.path().join("folder")).expect("a new folder");
    let one = |name: &str| ended(scratch.bsm(["newest", name])).stdout;
    let words = ["newest", "good", "missing", "folder", "empty", "short"];
    let all = ended(scratch.bsm(words));
    let expected = format!(
        "==> good <==\n{}\n==> empty <==\n\n==> short <==\n{}",
        text(&one("good")),
        text(&one("short"))
    );
    assert_eq!(text(&all.stdout), expected);
    let said = "bsm: missing: No such file or directory\nbsm: folder: Is a directory\n";
    assert!(all.stderr.starts_with(said), "{}", all.stderr);
    assert_eq!(all.stderr.lines().count(), 3);
    assert_eq!(all.status, 2);
    assert_eq!(ended(scratch.bsm(["newest", "good", "short"])).status, 3);
    let unknown: Command = scratch.bsm(["newest", "--list", "good"]);
    let unknown = ended(unknown);
    assert_eq!(unknown.stderr, "bsm: --list: unknown option\n");
    assert_eq!((unknown.status, unknown.stdout), (2, one("good")));
}
