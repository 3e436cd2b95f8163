//! `bsm record` against what print shows of the same records.

use crate::run::*;
use crate::trails::*;
use bsm::{HeaderKind, NewToken};
use generator::*;
use std::fmt::Write;

/// Records of all headers and several sizes, with file tokens before, between
/// and behind them.
fn long_trail(rng: &mut Rng, records: usize) -> Vec<u8> {
    let mut trail = good_file(rng);
    for i in 0..records {
        let mut header = header(i as u16, i as u64);
        let text = vec![b'n'; i % 23];
        let text = [NewToken::Text { text: &text }];
        trail.extend(match i % 3 {
            0 => record(&header, &text),
            1 => record(&header, &[]),
            _ => {
                header.kind = HeaderKind::Header64Ex;
                record_ex(&header, ADDRESSES[i % 4], &text)
            }
        });
        if i % 32 == 31 || rng.chance(5) {
            trail.extend(good_file(rng));
        }
    }
    trail.extend(good_file(rng));
    trail
}

/// What print shows of each record, in one form or the other.
fn printed(trail: &[u8], form: &[&str]) -> Vec<String> {
    let print = fed(bsm([&["print"], form].concat()), trail);
    let mut records: Vec<String> = Vec::new();
    let mut in_record = false;
    for line in text(&print.stdout).lines() {
        let token = line.starts_with("    ");
        if !token {
            in_record = line.starts_with("record ") || line.starts_with(r#"{"item":"record""#);
        }
        match records.last_mut() {
            Some(last) if in_record && token => writeln!(last, "{line}").expect("a text"),
            _ if in_record => records.push(format!("{line}\n")),
            _ => {}
        }
    }
    records
}

const FORMS: [&[&str]; 2] = [&[], &["--json"]];

/// Numbers and ranges, their order and repetition, decimal and hexadecimal.
#[test]
fn shows_what_print_shows() {
    let mut rng = Rng::new(881);
    let trail = long_trail(&mut rng, 300);
    for form in FORMS {
        let records = printed(&trail, form);
        assert_eq!(records.len(), 300);
        let shows = |numbers: &str, ranges: &[(usize, usize)]| {
            let shown = fed(bsm([&["record", numbers], form].concat()), &trail);
            let ranges = ranges
                .iter()
                .map(|&(first, last)| records[first..=last].concat());
            let expected: String = ranges.collect();
            assert_eq!(text(&shown.stdout), expected, "{numbers}");
            assert_eq!((shown.status, &shown.stderr[..]), (0, ""), "{numbers}");
        };
        for n in [0, 1, 63, 64, 65, 127, 128, 191, 192, 255, 256, 298, 299] {
            shows(&n.to_string(), &[(n, n)]);
            shows(&format!("{n:#x}"), &[(n, n)]);
            shows(&format!("{n}-{n}"), &[(n, n)]);
            shows(&format!("{n}-{:#x}", 299), &[(n, 299)]);
            shows(
                &format!("0-{n},{n},{n},0"),
                &[(0, n), (n, n), (n, n), (0, 0)],
            );
        }
        shows("3,64-70", &[(3, 3), (64, 70)]);
        shows("64-70,3", &[(64, 70), (3, 3)]);
        shows("200-250,60-70,66-220", &[(200, 250), (60, 70), (66, 220)]);
        shows("007,0x0Af,0xaF", &[(7, 7), (175, 175), (175, 175)]);
    }
}

/// Good, damaged and cut trails: the records that print shows are there, and
/// no other.
#[test]
fn every_record_of_any_trail() {
    let scratch = Scratch::new();
    let mut rng = Rng::new(882);
    let mut statuses = [0; 4];
    let mut inputs: Vec<Vec<u8>> = (0..150).map(|_| any_input(&mut rng).0).collect();
    let long = long_trail(&mut rng, 140);
    inputs.extend((0..40).map(|_| long[..rng.below(long.len())].to_vec()));
    for trail in inputs {
        scratch.file("trail", &trail);
        let records = printed(&trail, &[]);
        let status = status_of(&trail);
        statuses[status as usize] += 1;
        let all = ended(scratch.bsm(["record", "0-18446744073709551615", "trail"]));
        assert_eq!(text(&all.stdout), records.concat());
        assert_eq!(all.status, if status == 0 { 1 } else { status });
        let (first, rest) = all.stderr.split_once('\n').expect("a line");
        let missing = format!("bsm: trail: no records {} to 18446744", records.len());
        assert!(first.starts_with(&missing), "{first}");
        assert_eq!(rest, ended(scratch.bsm(["print", "trail"])).stderr);
        if let Some(last) = records.last() {
            // What stands behind a record that is there does not count.
            let number = (records.len() - 1).to_string();
            let one = ended(scratch.bsm(["record", &number, "trail"]));
            assert_eq!((text(&one.stdout), &one.stderr[..]), (&last[..], ""));
            assert_eq!(one.status, 0);
        }
    }
    let [good, refused, _, short] = statuses;
    assert!(good > 10 && refused > 10 && short > 10, "{statuses:?}");
}

/// Each number or range that is not all there is said once, where its turn
/// comes; then why the trail has no more, once.
#[test]
fn past_the_last() {
    let mut rng = Rng::new(883);
    let trail = long_trail(&mut rng, 70);
    let records = printed(&trail, &[]);
    let input = "bsm: standard input:";
    let has = ": the trail has 70 records\n";
    for (numbers, shown, said) in [
        ("70", 0..0, format!("{input} no record 70{has}")),
        ("70-70", 0..0, format!("{input} no record 70{has}")),
        ("69-70", 69..70, format!("{input} no record 70{has}")),
        ("60-71", 60..70, format!("{input} no records 70 to 71{has}")),
        ("80-99", 0..0, format!("{input} no records 80 to 99{has}")),
        (
            "80,5,0xffffffffffffffff",
            5..6,
            format!("{input} no record 80{has}{input} no record 18446744073709551615{has}"),
        ),
    ] {
        let ended = fed(bsm(["record", numbers]), &trail);
        assert_eq!(text(&ended.stdout), records[shown].concat(), "{numbers}");
        assert_eq!((ended.status, ended.stderr), (1, said), "{numbers}");
    }

    let place = reference::run(&trail[..trail.len() - 1], Default::default())
        .state
        .place;
    for (end, status) in [(&trail[place..place + 1], 3), (b"\x13", 1)] {
        let trail = [&trail[..place], end].concat();
        let listed = fed(bsm(["list"]), &trail).stderr;
        let up_to = format!("{} up to place {place}\n", has.trim_end());
        let said = format!("{input} no records 70 to 71{up_to}{input} no record 99{up_to}{listed}");
        let ended = fed(bsm(["record", "69-71,99,3"]), &trail);
        assert_eq!((ended.status, &ended.stderr), (status, &said));
        let shown = [&records[69][..], &records[3]].concat();
        assert_eq!(text(&ended.stdout), shown);
    }
}

#[test]
fn few_records() {
    for (trail, has) in [
        (vec![], "0 records"),
        (record(&header(1, 2), &[]), "1 record"),
        (record(&header(1, 2), &[]).repeat(2), "2 records"),
    ] {
        let ended = fed(bsm(["record", "2"]), &trail);
        let said = format!("bsm: standard input: no record 2: the trail has {has}\n");
        assert_eq!((ended.status, ended.stderr), (1, said));
        assert_eq!(ended.stdout, b"");
    }
}

/// Each file is counted from 0.
#[test]
fn several_files() {
    let scratch = Scratch::new();
    let mut rng = Rng::new(884);
    let (first, second) = (long_trail(&mut rng, 90), long_trail(&mut rng, 66));
    scratch.file("first", &first);
    scratch.file("second", &second);
    scratch.file("short", &second[..second.len() - 1]);
    let (one, two) = (printed(&first, &[]), printed(&second, &[]));
    let both = ended(scratch.bsm(["record", "65,0", "first", "missing", "second"]));
    let expected = format!(
        "==> first <==\n{}{}\n==> second <==\n{}{}",
        one[65], one[0], two[65], two[0]
    );
    assert_eq!(text(&both.stdout), expected);
    let said = "bsm: missing: No such file or directory\n";
    assert_eq!((both.status, &both.stderr[..]), (2, said));

    let json = ended(scratch.bsm(["record", "--json", "65", "first", "second"]));
    let expected = [("first", &first), ("second", &second)].map(|(name, trail)| {
        let renamed = format!(r#""trail":"{name}""#);
        printed(trail, &["--json"])[65].replace(r#""trail":"-""#, &renamed)
    });
    assert_eq!(text(&json.stdout), expected.concat());
    assert_eq!((json.status, &json.stderr[..]), (0, ""));

    for (names, numbers, status) in [
        (&["first", "second", "short"][..], "65", 0),
        (&["first", "short"], "70", 3),
        (&["second", "short"], "70", 1),
        (&["missing", "second"], "70", 2),
    ] {
        let words = [&["record", numbers], names].concat();
        assert_eq!(ended(scratch.bsm(&words)).status, status, "{words:?}");
    }
}

/// Standard input is read for `-` and without a file, and the words come in
/// any order.
#[test]
fn words_in_any_order() {
    let scratch = Scratch::new();
    let trail = tokens_trail();
    scratch.file("trail", &trail);
    scratch.file("2", &trail);
    let expected = printed(&trail, &["--json"])[2].clone();
    for words in [
        &["record", "2", "--json"][..],
        &["record", "--json", "2", "-"],
        &["record", "2", "-", "--json"],
        &["record", "--json", "--", "2", "-"],
    ] {
        let input = fed(scratch.bsm(words), &trail);
        assert_eq!(text(&input.stdout), expected, "{words:?}");
        assert_eq!((input.status, &input.stderr[..]), (0, ""));
    }
    let twice = ended(scratch.bsm(["record", "2", "2"]));
    assert_eq!(twice, ended(scratch.bsm(["record", "2", "trail"])));
    assert_eq!((twice.status, &twice.stderr[..]), (0, ""));
}

/// The words, and what is said of them.
const WRONG: [(&str, &str); 18] = [
    ("", "'': neither a number nor a range"),
    (",", "'': neither a number nor a range"),
    ("1,", "'': neither a number nor a range"),
    (",1", "'': neither a number nor a range"),
    ("1,,2", "'': neither a number nor a range"),
    ("1-", "'1-': neither a number nor a range"),
    ("-", "'-': neither a number nor a range"),
    ("0,-1", "'-1': neither a number nor a range"),
    ("2-1", "2-1: a range goes from low to high"),
    ("0,0x10-15", "0x10-15: a range goes from low to high"),
    ("x", "x: not a number"),
    ("0x", "0x: not a number"),
    ("1-2-3", "2-3: not a number"),
    ("0-+1", "+1: not a number"),
    ("0, 1", " 1: not a number"),
    ("1.5", "1.5: not a number"),
    (
        "0-18446744073709551616",
        "18446744073709551616: not a number",
    ),
    ("0x10000000000000000", "0x10000000000000000: not a number"),
];

#[test]
fn wrong_numbers() {
    let scratch = Scratch::new();
    scratch.file("trail", &tokens_trail());
    for (word, reason) in WRONG {
        let ended = ended(scratch.bsm(["record", word, "trail"]));
        let bounds = match reason.ends_with("not a number") {
            true => " from 0 to 18446744073709551615",
            false => "",
        };
        let said = format!("bsm: NUMBERS {reason}{bounds}; see 'bsm help record'\n");
        assert_eq!(ended.stderr, said);
        assert_eq!((ended.status, &ended.stdout[..]), (2, &b""[..]), "{word}");
    }
}

/// No numbers, options that choose, and options that are not known.
#[test]
fn wrong_words() {
    let scratch = Scratch::new();
    scratch.file("trail", &tokens_trail());
    let usage = |words: &[&str], said: &str| {
        let ended = ended(scratch.bsm([&["record"], words].concat()));
        let said = format!("{said}; see 'bsm help record'\n");
        assert_eq!((ended.status, ended.stderr), (2, said), "{words:?}");
        assert_eq!(ended.stdout, b"");
    };
    usage(&[], "bsm: no NUMBERS");
    usage(&["--json"], "bsm: no NUMBERS");
    usage(&["-1"], "bsm: -1: unknown option\nbsm: no NUMBERS");
    usage(&["--json=1", "1", "trail"], "bsm: --json takes no value");
    for option in ["--event", "--session", "--user", "--since", "--until"] {
        let said = format!("bsm: {option} does not go with record");
        usage(&[option, "1", "2", "trail"], &said);
        usage(&["2", "trail", &format!("{option}=x")], &said);
        usage(&["2", "trail", option], &said);
    }

    let known = ended(scratch.bsm(["record", "1", "trail"]));
    let unknown = ended(scratch.bsm(["record", "-n", "1", "trail"]));
    assert_eq!(unknown.stderr, "bsm: -n: unknown option\n");
    assert_eq!((unknown.status, unknown.stdout), (2, known.stdout));
    let alone = fed(scratch.bsm(["record", "-n", "1"]), &tokens_trail());
    assert_eq!((alone.status, &alone.stdout[..]), (2, &b""[..]));
}

/// The numbers of a long range are not kept one by one, and those that follow
/// each other are not looked for from an entry on each.
#[test]
fn long_ranges() {
    let trail = record(&header(1, 2), &[]).repeat(400_000);
    let all = fed(bsm(["print"]), &trail);
    let range = fed(bsm(["record", "0-399999"]), &trail);
    assert!(range == all);
    let last = fed(bsm(["record", "399999"]), &trail);
    assert!(
        all.stdout.ends_with(&last.stdout) && last.stdout.starts_with(b"record place=9999975 ")
    );
    assert_eq!((last.status, &last.stderr[..]), (0, ""));
}
