//! The tokens of each record, then the record, into one buffer.

use crate::workload::Workload;
use reference::{TokenAnswer, WriteToken};
use std::hint::black_box;
use std::iter;
use std::net::IpAddr;

/// Room for a body at the buffer's start; records are written behind it.
const BODY: usize = 65_536;

/// A record to be written by the proved library.
struct Proved<'a> {
    header: bsm::Header,
    /// The address in an expanded header.
    address: Option<IpAddr>,
    tokens: Vec<bsm::NewToken<'a>>,
}

/// A record to be written by the reference.
struct Plain<'a> {
    header: reference::Header<'a>,
    tokens: Vec<WriteToken<'a>>,
}

/// Writes all records of a trail again from their fields.
pub fn load<'a>(name: &'static str, trail: &'a [u8]) -> Workload<'a> {
    let ours = proved_records(trail);
    let theirs = plain_records(trail);
    assert_eq!(ours.len(), theirs.len());
    let count = ours.len();
    let mut buffer = vec![1; BODY + trail.len()];
    let mut other = buffer.clone();
    let proved = move || {
        let (body, records) = black_box(&mut buffer[..]).split_at_mut(BODY);
        let mut used = 0;
        for record in black_box(&ours) {
            let mut size = 0;
            for token in &record.tokens {
                size += bsm::write_token(&mut body[size..], token).unwrap_or(0);
            }
            let dst = &mut records[used..];
            let (header, body) = (&record.header, &body[..size]);
            let written = match record.address {
                None => bsm::write_record(dst, header, body),
                Some(address) => bsm::write_record_ex(dst, header, address, body),
            };
            used += written.unwrap_or(0);
        }
        digest(records, used)
    };
    let plain = move || {
        let (body, records) = black_box(&mut other[..]).split_at_mut(BODY);
        let mut used = 0;
        for record in black_box(&theirs) {
            let mut size = 0;
            for token in &record.tokens {
                size += reference::write_token(&mut body[size..], token).unwrap_or(0);
            }
            let dst = &mut records[used..];
            used += reference::write_record(dst, &record.header, &body[..size]).unwrap_or(0);
        }
        digest(records, used)
    };
    let mut load = Workload {
        name,
        bytes: trail.len(),
        count,
        source: trail,
        proved: Box::new(proved),
        plain: Box::new(plain),
    };
    // All of the trail came out, byte by byte where the digest looks.
    assert_eq!((load.proved)(), digest(trail, trail.len()));
    load
}

/// The bytes used, and a few of them.
fn digest(bytes: &[u8], used: usize) -> usize {
    let step = used / 61 + 1;
    let some = bytes[..used].iter().step_by(step);
    some.fold(used, |sum, &byte| sum.wrapping_mul(31) + usize::from(byte))
}

fn proved_records(trail: &[u8]) -> Vec<Proved<'_>> {
    let items = bsm::Items::new(trail, bsm::State::default());
    items
        .filter_map(|item| match item {
            Ok((place, bsm::Item::Record { header, body, .. })) => Some(Proved {
                header,
                address: bsm::address_at(trail, place),
                tokens: proved_tokens(body),
            }),
            _ => None,
        })
        .collect()
}

/// The tokens of a body of the workloads, none of which has groups.
fn proved_tokens(body: &[u8]) -> Vec<bsm::NewToken<'_>> {
    let mut tokens = bsm::tokens(body);
    let next = || {
        let place = tokens.place();
        let token = tokens.next()?.ok()?;
        let address = || bsm::token_address_at(body, place).expect("it is expanded");
        Some(token.map(|_| &[][..], |()| address()))
    };
    iter::from_fn(next).collect()
}

fn plain_records(trail: &[u8]) -> Vec<Plain<'_>> {
    let (items, _) = reference::reading(trail, reference::State::default());
    items
        .into_iter()
        .filter_map(|(_, item)| match item {
            reference::Item::Record { header, body, .. } => Some(Plain {
                header,
                tokens: plain_tokens(body),
            }),
            reference::Item::File { .. } => None,
        })
        .collect()
}

/// The tokens of a body of the workloads, as the reference writes them.
fn plain_tokens(body: &[u8]) -> Vec<WriteToken<'_>> {
    let mut tokens = Vec::new();
    let mut place = 0;
    while let TokenAnswer::Token { token, size, .. } = reference::token_at(body, place) {
        tokens.push(match token {
            reference::Token::Path { text } => WriteToken::Path { text },
            reference::Token::Text { text } => WriteToken::Text { text },
            reference::Token::Subject32(party) => WriteToken::Subject32(party),
            reference::Token::Subject32Ex(party) => WriteToken::Subject32Ex(party),
            reference::Token::Subject64Ex(party) => WriteToken::Subject64Ex(party),
            reference::Token::Return32 { error, value } => WriteToken::Return32 { error, value },
            reference::Token::ExecEnv { count, strings } => WriteToken::ExecEnv { count, strings },
            other => unreachable!("no workload has {other:?}"),
        });
        place += size;
    }
    tokens
}
