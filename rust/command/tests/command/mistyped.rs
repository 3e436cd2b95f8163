//! Which type an address has, as it is said of a trail that is refused
//! with 13.

use crate::run::*;
use crate::trails::*;
use bsm::{HeaderKind, Token};

/// A record of each header and of each token with an address, and the name of
/// the one and where its type stands.
fn records() -> Vec<(Vec<u8>, &'static str, usize)> {
    let [four, sixteen, ..] = ADDRESSES;
    let seq = Token::Seq { sequence: 9 };
    let mut small = header(1, 5);
    small.kind = HeaderKind::Header32Ex;
    let mut wide = header(1, 5);
    wide.kind = HeaderKind::Header64Ex;
    let (plain, behind) = (header(1, 5), 18 + 5);
    let with = |token| record(&plain, &[seq, token, seq]);
    vec![
        (record_ex(&small, four, &[seq]), "header32_ex", 10),
        (record_ex(&wide, sixteen, &[seq]), "header64_ex", 10),
        (
            with(Token::Subject32Ex(party_at(1, 2, four))),
            "subject32_ex",
            behind + 33,
        ),
        (
            with(Token::Process32Ex(party_at(1, 2, sixteen))),
            "process32_ex",
            behind + 33,
        ),
        (
            with(Token::Subject64Ex(party_at(1, 2, four))),
            "subject64_ex",
            behind + 37,
        ),
        (
            with(Token::Process64Ex(party_at(1, 2, sixteen))),
            "process64_ex",
            behind + 37,
        ),
        (
            with(Token::InAddrEx { address: four }),
            "in_addr_ex",
            behind + 1,
        ),
    ]
}

/// A trail whose last record has this type, and what is said of it.
fn mistyped(record: &[u8], name: &str, at: usize, kind: u32) -> (Vec<u8>, String) {
    let before = tokens_trail();
    let item = before.len();
    let place = item + at;
    let mut trail = [&before[..], record].concat();
    trail[place..place + 4].copy_from_slice(&kind.to_be_bytes());
    let start = if name.starts_with("header") {
        item
    } else {
        item + 18 + 5
    };
    let said = format!(
        "refused: bad address type in the {name} at place {start}: \
         the type, at place {place}, is {kind} (0x{kind:08x}), neither 4 nor 16 \
         (refusal 13, place {start}, need 0)\n"
    );
    (trail, said)
}

#[test]
fn types_of_every_header_and_token() {
    let scratch = Scratch::new();
    let mut words = vec!["print".to_string()];
    let mut expected = String::new();
    for (record, name, at) in records() {
        for kind in [0, 1, 6, 15, 17, 32, 0x0400_0000, 0x10C0_0002, u32::MAX] {
            let (trail, said) = mistyped(&record, name, at, kind);
            let file = format!("{name}-{kind}");
            scratch.file(&file, &trail);
            expected += &format!("bsm: {file}: {said}");
            words.push(file);
        }
    }
    assert_eq!(words.len(), 1 + 7 * 9);
    let ended = ended(scratch.bsm(&words));
    assert_eq!(ended.stderr, expected);
    assert_eq!(ended.status, 1);
}

/// The other subcommands say the same, and show what stands before.
#[test]
fn listed_followed_and_from_the_end() {
    for (record, name, at) in records() {
        let (trail, said) = mistyped(&record, name, at, 6);
        let said = format!("bsm: standard input: {said}");
        for (subcommand, items) in [("list", 4 + 2), ("follow", 4), ("newest", 4)] {
            let ended = fed(bsm([subcommand]), &trail);
            assert_eq!((ended.status, &ended.stderr), (1, &said), "{subcommand}");
            let lines = text(&ended.stdout).lines();
            let shown = lines.filter(|line| !line.starts_with(' ')).count();
            assert_eq!(shown, items, "{subcommand}");
        }
    }
}
