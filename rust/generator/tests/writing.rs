//! The calls of the writers, as the crate `reference` answers them.

use generator::*;
use reference::*;
use std::collections::BTreeMap;

/// Which writers answer with which refusals; 0 is none.
const ANSWERS: [(&str, u8); 19] = [
    ("token", 0),
    ("token", 8),
    ("token", 10),
    ("token", 11),
    ("token", 13),
    ("file", 0),
    ("file", 8),
    ("file", 9),
    ("file", 10),
    ("record", 0),
    ("record", 4),
    ("record", 6),
    ("record", 7),
    ("record", 8),
    ("record", 9),
    ("record", 10),
    ("record", 11),
    ("record", 13),
    ("record", 14),
];

#[test]
fn calls_are_good_or_refused_in_every_way() {
    let mut rng = Rng::new(1);
    let mut numbers = BTreeMap::new();
    for _ in 0..1_000 {
        for call in write_calls(&mut rng) {
            let fill = rng.byte();
            let mut dst = vec![fill; call.room];
            let answer = call.args.write(&mut dst);
            let kind = match &call.args {
                WriteArgs::Token(_) => "token",
                WriteArgs::File { .. } => "file",
                WriteArgs::Record { .. } => "record",
            };
            let number = answer.as_ref().err().map_or(0, |refusal| refusal.number);
            *numbers.entry((kind, number)).or_insert(0) += 1;
            let size = match answer {
                Ok(size) => {
                    assert_eq!(size, call.args.size());
                    read_back(&call.args, &dst[..size]);
                    size
                }
                Err(refusal) => {
                    assert_eq!(refusal.need, 0);
                    assert!(refusal.place == 0 || refusal.number == 8 || kind == "record");
                    0
                }
            };
            assert!(dst[size..].iter().all(|&byte| byte == fill));
        }
    }
    println!("{numbers:?}");
    for expected in ANSWERS {
        assert!(numbers[&expected] >= 20, "{expected:?}");
    }
    assert_eq!(numbers.len(), ANSWERS.len());
}

/// Where the zero byte stands that a text to be written is refused for.
fn zero_in(given: &[u8], place: usize) -> &'static str {
    let zeros: Vec<usize> = (0..given.len()).filter(|&at| given[at] == 0).collect();
    assert_eq!(zeros.first(), Some(&place));
    match place {
        0 => "first",
        _ if place + 1 == given.len() => "last",
        _ if zeros.len() > 1 => "first of two",
        _ => "between",
    }
}

/// 8 reports the place of a zero byte, which may be anywhere, and 0 for a
/// name too long and for bytes that are not strings.
#[test]
fn spoilt_arguments_of_every_kind() {
    let mut rng = Rng::new(2);
    let mut kinds = BTreeMap::new();
    let calls = (0..3_000).flat_map(|_| write_calls(&mut rng));
    for WriteCall { args, .. } in calls {
        let refused = args.write(&mut vec![0; args.size()]).err();
        let (given, refusal) = match (&args, refused) {
            (WriteArgs::Token(args), Some(refusal)) => (&args.bytes, refusal),
            (WriteArgs::File { name, .. }, Some(refusal)) => (name, refusal),
            _ => continue,
        };
        if refusal.number != 8 {
            continue;
        }
        let kind = spoilt_call(&args, refusal.place);
        let which = match (kind.1, refusal.place) {
            (Spoilt::ZeroGiven, place) => zero_in(given, place),
            (_, 0) => "0",
            other => panic!("{other:?}"),
        };
        *kinds.entry((kind, which)).or_insert(0) += 1;
    }
    println!("{kinds:02X?}");
    assert_eq!(kinds.len(), 5 * 4 + 4);
    assert!(kinds.values().all(|&times: &usize| times >= 20));
    for kind in SPOILT_CALLS {
        assert!(kinds.keys().any(|&(found, _)| found == kind), "{kind:02X?}");
    }
}

/// What was written reads back as what was given.
fn read_back(args: &WriteArgs, bytes: &[u8]) {
    match args {
        WriteArgs::Token(args) => token_back(args, bytes),
        WriteArgs::File {
            seconds,
            microseconds,
            name,
        } => {
            let item = Item::File {
                size: bytes.len(),
                seconds: *seconds,
                microseconds: *microseconds,
                name,
            };
            assert_eq!(item_at(bytes, 0), Answer::Item(item));
        }
        WriteArgs::Record { header, body } => {
            let item = Item::Record {
                size: bytes.len(),
                header: header.header(),
                body,
                tokens: walk_body(body).unwrap(),
            };
            assert_eq!(item_at(bytes, 0), Answer::Item(item));
        }
    }
}

/// The same of a token.
fn token_back(args: &TokenArgs, bytes: &[u8]) {
    assert_eq!(walk_body(bytes), Ok(1));
    let TokenAnswer::Token { token, .. } = token_at(bytes, 0) else {
        panic!("no token");
    };
    assert_eq!(token.number(), args.fields.number());
    match token {
        Token::Path { text }
        | Token::Text { text }
        | Token::Arg32 { text, .. }
        | Token::Arg64 { text, .. } => assert_eq!(text, args.bytes),
        Token::Opaque { bytes: part }
        | Token::ExecArgs { strings: part, .. }
        | Token::ExecEnv { strings: part, .. }
        | Token::InAddrEx { address: part } => assert_eq!(part, args.bytes),
        Token::Subject32Ex(party) | Token::Process32Ex(party) => {
            assert_eq!(party.address, args.bytes);
        }
        Token::Subject64Ex(party) | Token::Process64Ex(party) => {
            assert_eq!(party.address, args.bytes);
        }
        Token::NewGroups { groups } => {
            let raw: Vec<u8> = args.groups.iter().flat_map(|g| g.to_be_bytes()).collect();
            assert_eq!(groups, raw);
        }
        _ => {}
    }
}
