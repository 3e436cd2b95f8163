//! Finds a session in a trail: the records in which a subject or process
//! token has it, with their event, time and user, and below each its paths
//! and texts.
//!
//!     find_session SESSION < TRAIL
//!
//! Exit status 0 where the trail was read to its end; 1 where it was refused
//! or is still being written, which is said; 2 for wrong usage, or where
//! something cannot be read or written.

use bsm::{tokens, Header, Item, Items, Reason, Refusal, State, Token};
use std::env;
use std::io::{self, stdin, stdout, BufWriter, Read, Write};
use std::process::ExitCode;

/// The audit user and the session that a subject or process token names.
fn party(token: &Token<'_>) -> Option<(u32, u32)> {
    match token {
        Token::Subject32(party) | Token::Process32(party) => Some((party.audit, party.session)),
        Token::Subject64(party) | Token::Process64(party) => Some((party.audit, party.session)),
        Token::Subject32Ex(party) | Token::Process32Ex(party) => Some((party.audit, party.session)),
        Token::Subject64Ex(party) | Token::Process64Ex(party) => Some((party.audit, party.session)),
        _ => None,
    }
}

fn print_record(
    out: &mut impl Write,
    place: usize,
    header: &Header,
    body: &[u8],
    session: u32,
) -> io::Result<()> {
    // The body of an accepted record has no token that is refused.
    let all = || tokens(body).flatten();
    let mut parties = all().filter_map(|token| party(&token));
    let Some((user, _)) = parties.find(|&(_, named)| named == session) else {
        return Ok(());
    };
    writeln!(
        out,
        "{place}\tevent {}\t{}.{:09}\tuser {user}",
        header.event, header.seconds, header.nanoseconds
    )?;
    for token in all() {
        if let Token::Path { text } | Token::Text { text } = token {
            print_text(out, text)?;
        }
    }
    Ok(())
}

/// A trail comes from elsewhere: what is not printable is escaped, so that
/// it cannot steer a terminal.
fn print_text(out: &mut impl Write, text: &[u8]) -> io::Result<()> {
    out.write_all(b"\t")?;
    for &byte in text {
        match byte {
            b'\\' => write!(out, "\\x5c")?,
            b' '..=b'~' => out.write_all(&[byte])?,
            _ => write!(out, "\\x{byte:02x}")?,
        }
    }
    out.write_all(b"\n")
}

/// Prints the records of the session, and answers the refusal at which the
/// reading stopped, or nothing at the trail's end.
fn find(trail: &[u8], session: u32) -> io::Result<Option<Refusal>> {
    let mut out = BufWriter::new(stdout());
    let mut stop = None;
    for item in Items::new(trail, State::default()) {
        match item {
            Ok((place, Item::Record { header, body, .. })) => {
                print_record(&mut out, place, &header, body, session)?;
            }
            Ok((_, Item::File { .. })) => {}
            Err(refusal) => stop = Some(refusal),
        }
    }
    out.flush()?;
    Ok(stop)
}

/// A session's number, if the only word is one.
fn session() -> Option<u32> {
    let mut words = env::args_os().skip(1);
    let word = words.next()?.into_string().ok()?;
    let digits = word.bytes().all(|byte| byte.is_ascii_digit());
    (digits && words.next().is_none()).then(|| word.parse().ok())?
}

fn main() -> ExitCode {
    let Some(session) = session() else {
        eprintln!("usage: find_session SESSION < TRAIL");
        return ExitCode::from(2);
    };
    let mut trail = Vec::new();
    let found = stdin()
        .read_to_end(&mut trail)
        .and_then(|_| find(&trail, session));
    match found {
        Ok(None) => ExitCode::SUCCESS,
        Ok(Some(refusal)) => {
            let Refusal {
                reason,
                place,
                need,
            } = refusal;
            let waits = match reason {
                Reason::Short => ": still being written",
                _ => "",
            };
            let number = reason.number();
            eprintln!("find_session: refusal {number}, place {place}, need {need}{waits}");
            ExitCode::FAILURE
        }
        Err(error) => {
            eprintln!("find_session: {error}");
            ExitCode::from(2)
        }
    }
}
