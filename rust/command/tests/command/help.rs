//! Help, wherever it is asked for.

use crate::run::*;

const SUBCOMMANDS: [&str; 5] = ["list", "print", "newest", "record", "follow"];

fn help(words: &[&str]) -> String {
    let ended = ended(bsm(words));
    assert_eq!((ended.status, &ended.stderr[..]), (0, ""), "{words:?}");
    text(&ended.stdout).to_string()
}

#[test]
fn general_help() {
    let general = help(&["help"]);
    for words in [
        &["-h"][..],
        &["--help"],
        &["help", "help"],
        &["help", "--help"],
    ] {
        assert_eq!(help(words), general);
    }
    for subcommand in SUBCOMMANDS {
        assert!(
            general.contains(&format!("\n  {subcommand:8} ")),
            "{general}"
        );
    }
    let (_, statuses) = general.split_once("\nStatus: 0 ").expect("statuses");
    for status in [1, 2, 3, 4, 130, 141] {
        let named = [format!(", {status} "), format!(",\n{status} ")];
        assert!(
            named.iter().any(|named| statuses.contains(named)),
            "{status}"
        );
    }
}

#[test]
fn help_of_each() {
    for subcommand in SUBCOMMANDS {
        let of_it = help(&["help", subcommand]);
        assert!(of_it.starts_with(&format!("usage: bsm {subcommand} ")));
        for words in [&["-h"][..], &["--help"], &["missing", "--help"]] {
            assert_eq!(help(&[&[subcommand], words].concat()), of_it);
        }
        let chooses = subcommand != "record";
        if chooses {
            let words = [subcommand, "--event", "1", "-h", "missing"];
            assert_eq!(help(&words), of_it);
        }
        for option in ["--event", "--session", "--user", "--since", "--until"] {
            assert_eq!(of_it.contains(option), chooses, "{of_it}");
        }
    }
}

#[test]
fn lines_fit_a_terminal() {
    for words in [
        &["help"][..],
        &["help", "list"],
        &["help", "print"],
        &["help", "newest"],
        &["help", "record"],
        &["help", "follow"],
    ] {
        let help = help(words);
        let long = help.lines().find(|line| line.len() > 90);
        assert_eq!(long, None);
    }
}
