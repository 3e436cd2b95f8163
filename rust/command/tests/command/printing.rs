//! `bsm print` shows every field of every item: from what it prints, in
//! either form, a script of its own writes the same trail again.

use crate::run::*;
use crate::trails::*;
use generator::*;
use std::process::Command;

/// The bytes that the script writes for what was printed.
fn written_again(form: &str, printed: &[u8]) -> Vec<u8> {
    let mut python = Command::new("python3");
    python.arg(concat!(env!("CARGO_MANIFEST_DIR"), "/tests/back.py"));
    python.arg(form);
    let ended = fed(python, printed);
    assert_eq!((ended.status, &ended.stderr[..]), (0, ""));
    ended.stdout
}

/// Prints a trail in both forms, and has its accepted part written again.
fn reads_back(trail: &[u8]) {
    let accepted = reference::run(trail, Default::default()).state.place;
    for (form, words) in [("text", &["print"][..]), ("json", &["print", "--json"])] {
        let printed = fed(bsm(words), trail);
        assert_eq!(printed.status, status_of(trail), "{}", printed.stderr);
        let again = written_again(form, &printed.stdout);
        assert!(
            again == trail[..accepted],
            "{form}: {}",
            text(&printed.stdout)
        );
    }
}

#[test]
fn every_token_reads_back() {
    let trail = tokens_trail();
    let mut numbers: Vec<u8> = every_token().iter().map(|token| token.number()).collect();
    numbers.sort();
    let mut all = TOKEN_NUMBERS.to_vec();
    all.sort();
    assert_eq!(numbers, all, "a token is missing from the test");
    reads_back(&trail);
}

#[test]
fn generated_trails_read_back() {
    let mut rng = Rng::new(811);
    let mut trail = Vec::new();
    for _ in 0..3_000 {
        trail.extend(good_trail(&mut rng, 3));
    }
    reads_back(&trail);
}

#[test]
fn damaged_and_cut_trails_print_what_was_accepted() {
    let mut rng = Rng::new(812);
    for number in READ_REFUSALS {
        if number != 2 {
            let mut trail = good_trail(&mut rng, 5);
            trail.extend(targeted(&mut rng, number).0);
            reads_back(&trail);
        }
    }
    let trail = good_trail(&mut rng, 3);
    for end in [1, trail.len() / 2, trail.len() - 1] {
        reads_back(&trail[..end]);
    }
}

/// Addresses of both kinds, in headers and tokens, in the form that people
/// know.
#[test]
fn addresses_are_printed_as_usual_and_read_back() {
    let shown = ["192.0.2.7", "2001:db8::7", "::1", "::ffff:192.0.2.7"];
    for (address, shown) in ADDRESSES.into_iter().zip(shown) {
        let mut header = header(1, 2);
        header.kind = bsm::HeaderKind::Header64Ex;
        let trail = record_ex(&header, address, &[bsm::Token::InAddrEx { address }]);
        reads_back(&trail);
        let printed = fed(bsm(["print"]), &trail).stdout;
        let (item, token) = text(&printed).split_once('\n').expect("two lines");
        assert!(item.ends_with(&format!(" modifier=0 address={shown}")));
        assert_eq!(token, format!("    in_addr_ex address={shown}\n"));
        let printed = fed(bsm(["print", "--json"]), &trail).stdout;
        let address = format!("\"address\":\"{shown}\"");
        let header = format!(",\"modifier\":0,{address},\"seconds\":2,");
        let token = format!("[{{\"token\":\"in_addr_ex\",{address}}}]}}\n");
        assert!(text(&printed).contains(&header), "{}", text(&printed));
        assert!(text(&printed).ends_with(&token), "{}", text(&printed));
    }

    // Zero bytes in any number and at any place, which IPv6's form shortens.
    let mut rng = Rng::new(814);
    let mut trail = Vec::new();
    for _ in 0..2_000 {
        let sixteen: [u8; 16] = std::array::from_fn(|_| rng.pick(&[0, 0, 0, 1, 0xFF]));
        let mut header = header(1, 2);
        header.kind = bsm::HeaderKind::Header32Ex;
        trail.extend(record_ex(&header, sixteen.into(), &[]));
    }
    reads_back(&trail);
}

/// Seconds of both widths, and the bounds of the fraction.
#[test]
fn times_read_back() {
    let mut rng = Rng::new(813);
    let mut trail = Vec::new();
    for shift in 0..64 {
        for seconds in [u64::MAX >> shift, 1 << shift, rng.bits() >> shift] {
            let mut header = header(1, seconds);
            header.kind = bsm::HeaderKind::Header64;
            header.nanoseconds = rng.bits() % 1_000_000_000;
            trail.extend(record(&header, &[]));
        }
    }
    reads_back(&trail);
}

/// A name that is no UTF-8 keeps its bytes.
#[test]
fn json_names_the_trail() {
    use std::ffi::OsStr;
    use std::os::unix::ffi::OsStrExt;
    let scratch = Scratch::new();
    let trail = record(&header(1, 2), &[]);
    for (name, shown) in [
        (&b"a trail"[..], "\"a trail\""),
        (b"quo\"te\x1b", "\"quo\\\"te\\u001b\""),
        (
            "h\u{f6}he\u{1f600}".as_bytes(),
            "\"h\\u00f6he\\ud83d\\ude00\"",
        ),
        (b"latin\xff", "{\"hex\":\"6c6174696eff\"}"),
    ] {
        let name = OsStr::from_bytes(name);
        scratch.file(name, &trail);
        let ended = ended(scratch.bsm([OsStr::new("print"), OsStr::new("--json"), name]));
        let start = format!("{{\"item\":\"record\",\"trail\":{shown},\"place\":0,");
        assert!(
            text(&ended.stdout).starts_with(&start),
            "{}",
            text(&ended.stdout)
        );
        assert_eq!(ended.status, 0);
    }
}
