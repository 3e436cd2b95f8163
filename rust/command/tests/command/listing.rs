//! `bsm list` writes the reference's listing, and what the program bsmlist
//! writes.

use crate::run::*;
use generator::*;
use std::path::PathBuf;
use std::process::Command;

/// Good and damaged trails, and all cuts of some.
fn inputs(rng: &mut Rng) -> Vec<Vec<u8>> {
    let mut inputs: Vec<_> = (0..1_000).map(|_| any_input(rng).0).collect();
    inputs.extend((0..1_000).map(|_| random_trail(rng)));
    inputs.extend(
        (1..=9)
            .flat_map(|number| [0; 10].map(|_| number))
            .map(|n| targeted(rng, n).0),
    );
    for _ in 0..3 {
        let trail = good_trail(rng, 4);
        let cuts = (0..trail.len().min(500)).map(|end| trail[..end].to_vec());
        inputs.extend(cuts);
    }
    inputs
}

/// Many files in one call, each below its heading.
#[test]
fn lists_as_the_reference() {
    let scratch = Scratch::new();
    let mut rng = Rng::new(801);
    let inputs = inputs(&mut rng);
    let mut statuses = [0; 4];
    for (call, inputs) in inputs.chunks(50).enumerate() {
        let mut expected = Vec::new();
        let mut names = Vec::new();
        let mut worst = 0;
        for (i, input) in inputs.iter().enumerate() {
            let name = format!("{call}.{i}");
            scratch.file(&name, input);
            let gap = if i > 0 { "\n" } else { "" };
            expected.extend(format!("{gap}==> {name} <==\n").bytes());
            expected.extend(reference::listing(input));
            names.push(name);
            let status = status_of(input);
            statuses[status as usize] += 1;
            worst = if status == 1 || worst == 1 {
                1
            } else {
                worst.max(status)
            };
        }
        let ended = ended(scratch.bsm([&["list".to_string()], &names[..]].concat()));
        assert_eq!(text(&ended.stdout), text(&expected));
        assert_eq!(ended.status, worst);
        let said = inputs.iter().filter(|input| status_of(input) > 0).count();
        assert_eq!(ended.stderr.lines().count(), said, "{}", ended.stderr);
    }
    let [good, refused, _, short] = statuses;
    assert!(good > 100 && refused > 100 && short > 100, "{statuses:?}");
}

/// The program that BSM_PROGRAM names, or the one built in the repository.
fn program() -> PathBuf {
    let named = std::env::var_os("BSM_PROGRAM").map(PathBuf::from);
    let path = named.unwrap_or_else(|| root().join("target/bin/bsmlist"));
    assert!(path.is_file(), "run `scripts/ready test program` first");
    path
}

#[test]
fn one_file_is_listed_as_the_program_does() {
    let program = program();
    let mut rng = Rng::new(802);
    for _ in 0..200 {
        let input = program_input(&mut rng);
        if input.len() <= 65_536 {
            let ours = fed(bsm(["list"]), &input);
            let theirs = fed(Command::new(&program), &input);
            assert_eq!(text(&ours.stdout), text(&theirs.stdout));
            assert_eq!(ours.status, status_of(&input));
        }
    }
}

/// Refusal 12 is the program's; the command takes trails of any length.
#[test]
fn long_trails_are_listed() {
    for bytes in [65_537, 3_000_000] {
        let trail = usual_records(bytes);
        assert!(trail.len() >= bytes);
        let ended = fed(bsm(["list"]), &trail);
        assert!(ended.stdout == reference::listing(&trail));
        assert_eq!((ended.status, &ended.stderr[..]), (0, ""));
    }
}
