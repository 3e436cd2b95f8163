//! Choosing items: the lines that `bsm list` leaves are those that a filter
//! over the reference's reading leaves, and `bsm print` shows the same items.

use crate::run::*;
use crate::trails::*;
use bsm::Token as NewToken;
use generator::Rng;
use reference::{reading, token_at, Item, Token, TokenAnswer};

/// What is asked for.
#[derive(Clone, Debug, Default)]
struct Asked {
    event: Option<u16>,
    sessions: Vec<u32>,
    users: Vec<u32>,
    since: Option<(u64, u64)>,
    until: Option<(u64, u64)>,
}

impl Asked {
    /// The options that ask for it.
    fn words(&self) -> Vec<String> {
        let mut words = Vec::new();
        let mut add = |option: &str, value: String| words.extend([option.to_string(), value]);
        let seconds = |(seconds, nanoseconds)| format!("@{seconds}.{nanoseconds:09}");
        if let Some(event) = self.event {
            add("--event", event.to_string());
        }
        for session in &self.sessions {
            add("--session", format!("0x{session:x}"));
        }
        for user in &self.users {
            add("--user", user.to_string());
        }
        if let Some(since) = self.since {
            add("--since", seconds(since));
        }
        if let Some(until) = self.until {
            add("--until", seconds(until));
        }
        words
    }

    /// Whether it holds of an item.
    fn holds(&self, item: &Item<'_>) -> bool {
        let (time, event, parties) = match *item {
            Item::File {
                seconds,
                microseconds,
                ..
            } => {
                let nanoseconds = u64::from(microseconds) * 1_000;
                ((u64::from(seconds), nanoseconds), None, Vec::new())
            }
            Item::Record { header, body, .. } => (
                (header.seconds, header.nanoseconds),
                Some(header.event),
                parties(body),
            ),
        };
        let session = |session: &u32| parties.iter().any(|(_, named)| named == session);
        let user = |user: &u32| parties.iter().any(|(users, _)| users.contains(user));
        self.since.is_none_or(|since| time >= since)
            && self.until.is_none_or(|until| time < until)
            && (self.event.is_none() || self.event == event)
            && self.sessions.iter().all(session)
            && self.users.iter().all(user)
    }
}

/// The users and the session of each subject and process token.
fn parties(body: &[u8]) -> Vec<(Vec<u32>, u32)> {
    let mut found = Vec::new();
    let mut place = 0;
    while let TokenAnswer::Token { token, size, .. } = token_at(body, place) {
        place += size;
        match token {
            Token::Subject32(p) | Token::Process32(p) => {
                found.push((vec![p.audit, p.effective_user, p.real_user], p.session));
            }
            Token::Subject64(p) | Token::Process64(p) => {
                found.push((vec![p.audit, p.effective_user, p.real_user], p.session));
            }
            Token::Subject32Ex(p) | Token::Process32Ex(p) => {
                found.push((vec![p.audit, p.effective_user, p.real_user], p.session));
            }
            Token::Subject64Ex(p) | Token::Process64Ex(p) => {
                found.push((vec![p.audit, p.effective_user, p.real_user], p.session));
            }
            _ => {}
        }
    }
    found
}

/// Items whose events, times, users and sessions meet often.
fn trail(rng: &mut Rng) -> Vec<u8> {
    let mut trail = Vec::new();
    for _ in 0..40 {
        if rng.chance(5) {
            let mut file = [0; 100];
            let micro = rng.below(3) as u32;
            let size = bsm::write_file(&mut file, rng.below(4) as u32, micro, b"f");
            trail.extend(&file[..size.expect("a good file token")]);
            continue;
        }
        let mut tokens = Vec::new();
        // No record has two subjects.
        for i in 0..rng.below(3) {
            let first = rng.below(6) as u32;
            let address = rng.pick(&ADDRESSES);
            let kinds = if i == 0 { 8 } else { 4 };
            tokens.push(match rng.below(kinds) {
                0 => NewToken::Process32(party(first, 1)),
                1 => NewToken::Process64(party(first, 1)),
                2 => NewToken::Process32Ex(party_at(first, 1, address)),
                3 => NewToken::Process64Ex(party_at(first, 1, address)),
                4 => NewToken::Subject32(party(first, 1)),
                5 => NewToken::Subject64(party(first, 1)),
                6 => NewToken::Subject32Ex(party_at(first, 1, address)),
                _ => NewToken::Subject64Ex(party_at(first, 1, address)),
            });
            tokens.push(NewToken::Seq { sequence: 3 });
        }
        let mut header = header(rng.below(3) as u16, rng.below(4) as u64);
        header.nanoseconds = rng.below(3) as u64;
        trail.extend(if rng.chance(3) {
            header.kind = bsm::HeaderKind::Header32Ex;
            record_ex(&header, rng.pick(&ADDRESSES), &tokens)
        } else {
            record(&header, &tokens)
        });
    }
    trail
}

fn asked(rng: &mut Rng) -> Asked {
    let mut asked = Asked::default();
    let time = |rng: &mut Rng| Some((rng.below(5) as u64, rng.below(3) as u64));
    if rng.chance(2) {
        asked.event = Some(rng.below(3) as u16);
    }
    for _ in 0..rng.below(3) {
        asked.sessions.push(rng.between(5, 12) as u32);
    }
    for _ in 0..rng.below(3) {
        asked.users.push(rng.below(10) as u32);
    }
    if rng.chance(2) {
        asked.since = time(rng);
    }
    if rng.chance(2) {
        asked.until = time(rng);
    }
    asked
}

/// The listing of a trail, and which of its items are asked for.
fn expected(trail: &[u8], asked: &Asked) -> (String, Vec<usize>) {
    let (items, _) = reading(trail, Default::default());
    let listing = reference::listing(trail);
    let mut lines: Vec<&str> = text(&listing).split_inclusive('\n').collect();
    assert_eq!(lines.len(), items.len() + 2);
    let mut places = Vec::new();
    for (i, (place, item)) in items.iter().enumerate() {
        if asked.holds(item) {
            places.push(*place);
        } else {
            lines[i + 1] = "";
        }
    }
    (lines.concat(), places)
}

/// The places of the items that were printed.
fn places(printed: &str) -> Vec<usize> {
    let items = printed.lines().filter(|line| !line.starts_with(' '));
    items
        .map(|line| {
            let (_, rest) = line.split_once(" place=").expect("a place");
            let (place, _) = rest.split_once(' ').expect("a size behind it");
            place.parse().expect("a number")
        })
        .collect()
}

#[test]
fn chosen_items_are_those_asked_for() {
    let mut rng = Rng::new(831);
    let (mut some, mut all, mut none) = (0, 0, 0);
    for _ in 0..300 {
        let trail = trail(&mut rng);
        let asked = asked(&mut rng);
        let (listing, chosen) = expected(&trail, &asked);
        let with = |subcommand: &str| [&[subcommand.to_string()], &asked.words()[..]].concat();
        let listed = fed(bsm(with("list")), &trail);
        assert_eq!(text(&listed.stdout), listing, "{asked:?}");
        let printed = fed(bsm(with("print")), &trail);
        assert_eq!(places(text(&printed.stdout)), chosen, "{asked:?}");
        assert_eq!((listed.status, printed.status), (0, 0));
        let items = reading(&trail, Default::default()).0.len();
        match chosen.len() {
            0 => none += 1,
            count if count == items => all += 1,
            _ => some += 1,
        }
    }
    assert!(some > 50 && none > 20 && all > 2, "{some} {all} {none}");
}

/// Each user of a party counts, its groups and its process do not.
#[test]
fn users_are_audit_effective_and_real() {
    for token in [
        NewToken::Process64(party(100, 1)),
        NewToken::Subject32Ex(party_at(100, 1, ADDRESSES[0])),
        NewToken::Process32Ex(party_at(100, 1, ADDRESSES[1])),
        NewToken::Subject64Ex(party_at(100, 1, ADDRESSES[2])),
        NewToken::Process64Ex(party_at(100, 1, ADDRESSES[3])),
    ] {
        let trail = record(&header(1, 2), &[token]);
        for number in 99..110 {
            let shown = |option: &str| {
                let words = ["print".into(), format!("{option}={number}")];
                !fed(bsm(words), &trail).stdout.is_empty()
            };
            let is_user = [100, 101, 103].contains(&number);
            assert_eq!(shown("--user"), is_user, "{token:?}, {number}");
            assert_eq!(shown("--session"), number == 106, "{token:?}, {number}");
        }
    }
}

/// Times in the forms that people write.
#[test]
fn since_is_at_or_after_and_until_before() {
    let noon = 1_763_208_000;
    let trail = record(&header(1, noon), &[]);
    for (option, time, shown) in [
        ("--since", "2025-11-15T12:00:00Z", true),
        ("--since", "2025-11-15T12:00:00.000000001", false),
        ("--since", "2025-11-15", true),
        ("--since", "20251115120001", false),
        ("--until", "2025-11-15 12:00", false),
        ("--until", "2025-11-15T12:00:00.000000001", true),
        ("--until", "2025-11-16", true),
        ("--until", "@1763208000", false),
    ] {
        let ended = fed(bsm(["print", option, time]), &trail);
        assert_eq!(!ended.stdout.is_empty(), shown, "{option} {time}");
        assert_eq!(ended.status, 0);
    }
}

/// What cannot be understood is said in a line, and nothing is shown.
#[test]
fn values_that_make_no_sense() {
    for words in [
        &["--event", "65536"][..],
        &["--event", "-1"],
        &["--event", ""],
        &["--event=0x"],
        &["--event", "login"],
        &["--event", "1", "--event", "1"],
        &["--session", "4294967296"],
        &["--session", "+5"],
        &["--user"],
        &["--user", "root"],
        &["--since", "yesterday"],
        &["--since", "@1", "--since=@1"],
        &["--until", "2025-02-29"],
    ] {
        for subcommand in ["list", "print", "follow"] {
            let all = [&[subcommand], words].concat();
            let ended = fed(bsm(&all), &tokens_trail());
            assert_eq!((ended.status, &ended.stdout[..]), (2, &b""[..]), "{all:?}");
            assert_eq!(ended.stderr.lines().count(), 1, "{}", ended.stderr);
            assert!(ended
                .stderr
                .starts_with(&format!("bsm: {}", &words[0][..6])));
        }
    }
}
