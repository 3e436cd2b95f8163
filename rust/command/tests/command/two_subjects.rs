//! Which two subjects a record has, as it is said of a trail that is refused
//! with 14.

use crate::run::*;
use crate::trails::*;
use bsm::{HeaderKind, NewToken, Token};

/// A subject of each kind, one of them with either address, and the name and
/// the audit user of each.
fn subjects(first: u32) -> [(NewToken<'static>, &'static str, u32); 5] {
    let [four, sixteen, ..] = ADDRESSES;
    [
        (Token::Subject32(party(first, 1)), "subject32", first),
        (
            Token::Subject64(party(first + 10, 1)),
            "subject64",
            first + 10,
        ),
        (
            Token::Subject32Ex(party_at(first + 20, 1, four)),
            "subject32_ex",
            first + 20,
        ),
        (
            Token::Subject64Ex(party_at(first + 30, 1, four)),
            "subject64_ex",
            first + 30,
        ),
        (
            Token::Subject64Ex(party_at(first + 40, 1, sixteen)),
            "subject64_ex",
            first + 40,
        ),
    ]
}

/// What is said of the party with this first user.
fn who(first: u32) -> String {
    let [effective, real, session] = [first + 1, first + 3, first + 6];
    format!("audit={first} effective_user={effective} real_user={real} session={session}")
}

/// The size of a token.
fn size(token: &NewToken<'_>) -> usize {
    let mut bytes = [0; 100];
    bsm::write_token(&mut bytes, token).expect("a good token")
}

/// Trails whose last record has each pair of subjects, and what is said of
/// them.
fn trails() -> Vec<(Vec<u8>, String)> {
    let before = tokens_trail();
    let item = before.len();
    let seq = Token::Seq { sequence: 9 };
    let process = Token::Process32(party(900, 1));
    let mut trails = Vec::new();
    for (kind, head) in [(HeaderKind::Header32, 18), (HeaderKind::Header64, 26)] {
        for (first, first_name, first_user) in subjects(100) {
            for (second, second_name, second_user) in subjects(200) {
                let mut header = header(1, 5);
                header.kind = kind;
                let tokens = [seq, first, process, second, first];
                let record = joined(&header, &tokens);
                let one = item + head + size(&seq);
                let two = one + size(&first) + size(&process);
                let said = format!(
                    "refused: two subjects in the record at place {item}: \
                     {first_name} at place {one} ({}) and {second_name} at place {two} ({}) \
                     (refusal 14, place {two}, need 0)\n",
                    who(first_user),
                    who(second_user)
                );
                trails.push(([&before[..], &record].concat(), said));
            }
        }
    }
    trails
}

#[test]
fn every_pair_of_kinds() {
    let scratch = Scratch::new();
    let mut words = vec!["print".to_string()];
    let mut expected = String::new();
    for (i, (trail, said)) in trails().iter().enumerate() {
        let file = i.to_string();
        scratch.file(&file, trail);
        expected += &format!("bsm: {file}: {said}");
        words.push(file);
    }
    assert_eq!(words.len(), 1 + 2 * 5 * 5);
    let ended = ended(scratch.bsm(&words));
    assert_eq!(ended.stderr, expected);
    assert_eq!(ended.status, 1);
}

/// The other subcommands say the same, and show what stands before.
#[test]
fn listed_followed_and_from_the_end() {
    for (trail, said) in trails() {
        let said = format!("bsm: standard input: {said}");
        for (words, items) in [
            (&["list"][..], 4 + 2),
            (&["follow"], 4),
            (&["newest"], 4),
            (&["print", "--json"], 4),
            (&["newest", "--json"], 4),
            (&["record", "0-3,4"], 4),
        ] {
            let ended = fed(bsm(words), &trail);
            let missing = "bsm: standard input: no record 4: the trail has 4 records up to place ";
            let mut lines: Vec<&str> = ended.stderr.split_inclusive('\n').collect();
            if words[0] == "record" {
                assert!(lines.remove(0).starts_with(missing), "{}", ended.stderr);
            }
            assert_eq!((ended.status, lines), (1, vec![&said[..]]), "{words:?}");
            let lines = text(&ended.stdout).lines();
            let shown = lines.filter(|line| !line.starts_with(' ')).count();
            assert_eq!(shown, items, "{words:?}");
        }
        let listed = fed(bsm(["list"]), &trail).stdout;
        assert_eq!(text(&listed), text(&reference::listing(&trail)));
    }
}

/// Where records follow it, the walk from the end shows these and stops.
#[test]
fn before_the_newest() {
    let (front, said) = trails().swap_remove(0);
    let place = front.len();
    let last = record(&header(7, 8), &[]);
    let trail = [&front[..], &last, &last].concat();
    for (words, status, expected) in [
        (
            &["newest"][..],
            1,
            format!(
                "neither a record nor a file token ends at place {place}; \
                 'bsm list' reads what stands before\n"
            ),
        ),
        (&["print", "--event", "7"], 1, said.clone()),
        (&["list"], 1, said),
    ] {
        let ended = fed(bsm(words), &trail);
        let line = format!("bsm: standard input: {expected}");
        assert_eq!((ended.status, ended.stderr), (status, line), "{words:?}");
        let shown = text(&ended.stdout).matches(" event=7 ").count();
        assert_eq!(shown, if words[0] == "newest" { 2 } else { 0 }, "{words:?}");
    }
    let two = fed(bsm(["newest", "-n", "2"]), &trail);
    assert_eq!((two.status, &two.stderr[..]), (0, ""));
}

/// Neither of the two is chosen by.
#[test]
fn chosen_by_neither() {
    let (trail, said) = trails().swap_remove(0);
    for option in ["--user=100", "--session=106", "--user=200", "--session=206"] {
        for subcommand in ["print", "newest", "follow"] {
            let ended = fed(bsm([subcommand, option]), &trail);
            let line = format!("bsm: standard input: {said}");
            assert_eq!((ended.status, &ended.stderr), (1, &line), "{option}");
            assert_eq!(text(&ended.stdout), "", "{option}");
        }
    }
}

/// Processes do not count, wherever they stand.
#[test]
fn one_subject_among_processes() {
    let [four, sixteen, ..] = ADDRESSES;
    let processes = [
        Token::Process32(party(1, 1)),
        Token::Process64(party(1, 1)),
        Token::Process32Ex(party_at(1, 1, four)),
        Token::Process64Ex(party_at(1, 1, sixteen)),
    ];
    for (subject, name, first) in subjects(100) {
        let tokens = [&processes[..], &[subject], &processes].concat();
        let trail = record(&header(1, 5), &tokens);
        assert_eq!(joined(&header(1, 5), &tokens), trail);
        let printed = fed(bsm(["print", &format!("--user={first}")]), &trail);
        assert_eq!((printed.status, &printed.stderr[..]), (0, ""));
        let shown = format!("\n    {name} audit={first} ");
        assert_eq!(text(&printed.stdout).matches(&shown).count(), 1, "{name}");
    }
}
