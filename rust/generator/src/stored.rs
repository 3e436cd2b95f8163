//! The stored inputs of the program bsmlist and what it must write for them.
//! Whole items are made with the writers of the crate `reference`, the
//! expected output with its lister.

use crate::expanded::with_one_byte_type;
use crate::good::{record_bytes, token_with};
use crate::layout::{framed, raw_file, raw_record, set};
use crate::page::page_record;
use reference::{program_output, write_file, Header, Party, WriteToken};

/// A stored file: its path below `crates/bsmlist`, and its bytes.
#[derive(Clone, Debug, PartialEq, Eq)]
pub struct StoredFile {
    /// The path.
    pub path: String,
    /// The bytes.
    pub bytes: Vec<u8>,
}

/// All of them: standard input, one file for each other input, the arguments
/// that name them in this order, and the output.
pub fn stored_files() -> Vec<StoredFile> {
    let inputs = inputs();
    let mut args = String::from("-\n");
    let stdin = joined(&[file_a(), smallest()]);
    let mut stdout = program_output(&stdin);
    let mut files = vec![stored("stdin".into(), stdin)];
    for (name, bytes) in inputs {
        args.push_str(name);
        args.push('\n');
        stdout.extend(program_output(&bytes));
        files.push(stored(format!("data/{name}"), bytes));
    }
    files.push(stored("args".into(), args.into_bytes()));
    files.push(stored("stdout".into(), stdout));
    files
}

fn stored(path: String, bytes: Vec<u8>) -> StoredFile {
    StoredFile { path, bytes }
}

/// The inputs beside standard input. A name with a number is refused with
/// it.
fn inputs() -> Vec<(&'static str, Vec<u8>)> {
    let mut all = vec![("empty", Vec::new()), ("mixed", mixed())];
    all.extend(cuts());
    all.extend(bad_items());
    all.extend(bad_bodies());
    all.extend(bad_texts());
    all.extend(bad_names());
    all.extend(bad_times());
    all.extend(wide_versions());
    all.push(("expanded", expanded()));
    all.extend(cut_expanded());
    all.extend(bad_expanded());
    all.extend(bad_types());
    all.extend(two_subjects());
    all.extend(sizes());
    all
}

/// Items of every kind, with fields at their bounds.
fn mixed() -> Vec<u8> {
    let wide = Header {
        number: 0x74,
        version: 255,
        event: u16::MAX,
        modifier: u16::MAX,
        address: &[],
        seconds: u64::MAX,
        nanoseconds: 0,
    };
    // The opaque holds what looks like the trailer of a smaller record.
    let trailer_inside = smallest().split_off(smallest().len() - 7);
    joined(&[
        file(1_763_200_000, 999_999, b"trail.0"),
        booking(),
        record_bytes(&wide, &return32()),
        file(5, 7, b""),
        record_bytes(&HEADER, &opaque(trailer_inside)),
    ])
}

/// A file token, a usual record and the start of another, cut at ends of
/// items, inside a header's count, inside a body, and one byte into an item.
fn cuts() -> Vec<(&'static str, Vec<u8>)> {
    let trail = joined(&[file_a(), booking(), smallest()]);
    [
        ("cut_1", 1),
        ("cut_12", 12),
        ("cut_13", 13),
        ("cut_17", 17),
        ("cut_18", 18),
        ("cut_40", 40),
        ("cut_118", 118),
    ]
    .map(|(name, length)| (name, trail[..length].to_vec()))
    .to_vec()
}

/// Refusals 3, 4 and 5.
fn bad_items() -> Vec<(&'static str, Vec<u8>)> {
    let least = smallest().len() as u32;
    let count = |count: u32| [&[0x14][..], &count.to_be_bytes()].concat();
    let mut trailer = smallest();
    let end = trailer.len();
    set(&mut trailer, end - 4, &(least + 1).to_be_bytes());
    vec![
        ("no3_first_byte", joined(&[file_a(), vec![0x13]])),
        ("no4_count", joined(&[smallest(), count(least - 1)])),
        ("no4_count_large", count(65_536)),
        ("no5_trailer", joined(&[smallest(), trailer])),
    ]
}

/// Refusals 6 and 7 of a body.
fn bad_bodies() -> Vec<(&'static str, Vec<u8>)> {
    let between = joined(&[return32(), vec![0x00], return32()]);
    vec![
        ("no6_number", raw_record(&HEADER, &between)),
        ("no7_end", raw_record(&HEADER, b"\x2c\0")),
        ("no7_strings", raw_record(&HEADER, b"\x3c\0\0\0\x02ab\0cd")),
    ]
}

/// Refusal 8 of a body: a zero byte too early, at a text's start and inside
/// a path that has another one, a last byte that is not zero, and a length
/// of 0.
fn bad_texts() -> Vec<(&'static str, Vec<u8>)> {
    let wide = Header {
        number: 0x74,
        ..HEADER
    };
    let between = |token: &[u8]| joined(&[return32(), token.to_vec(), return32()]);
    let zeros = between(b"\x23\0\x06/a\0b\0\0");
    let last = between(b"\x2d\x01\0\0\0\x02\0\x03abc");
    let length = between(b"\x71\x01\0\0\0\0\0\0\0\x02\0\0");
    vec![
        ("no8_text", raw_record(&HEADER, b"\x28\0\x03\0a\0")),
        ("no8_zeros", joined(&[file_a(), raw_record(&wide, &zeros)])),
        ("no8_last", joined(&[file_a(), raw_record(&HEADER, &last)])),
        (
            "no8_length",
            joined(&[smallest(), raw_record(&wide, &length)]),
        ),
    ]
}

/// Refusal 8 of a file name: a zero byte too early (case 13), a last byte
/// that is not zero, a length of 0, and one over 1,024.
fn bad_names() -> Vec<(&'static str, Vec<u8>)> {
    let long = joined(&[vec![b'n'; 1_024], vec![0]]);
    let behind = |file: Vec<u8>| joined(&[smallest(), file, smallest()]);
    vec![
        ("no8_name", raw_file(5, 7, 3, b"\0a\0")),
        ("no8_name_last", behind(raw_file(5, 7, 3, b"abc"))),
        ("no8_name_length", behind(raw_file(5, 7, 0, b""))),
        ("no8_name_long", behind(raw_file(5, 7, 1_025, &long))),
    ]
}

/// Refusal 9.
fn bad_times() -> Vec<(&'static str, Vec<u8>)> {
    let late = Header {
        nanoseconds: 1_000_000_000,
        ..HEADER
    };
    vec![
        ("no9_file", raw_file(5, 1_000_000, 2, b"a\0")),
        ("no9_header", joined(&[smallest(), raw_record(&late, b"")])),
    ]
}

/// Records with a version of two bytes, as the manual page has it: the one of
/// case 9 before P2, and a usual one. Where the nanoseconds stand now, the
/// latter has the last byte of its seconds first, here the least that is too
/// large.
fn wide_versions() -> Vec<(&'static str, Vec<u8>)> {
    let old = page_record(&HEADER, b"");
    let header = Header {
        seconds: booking_header().seconds / 256 * 256 + 60,
        ..booking_header()
    };
    let usual = page_record(&header, &booking_body());
    vec![
        ("no6_version", joined(&[file_a(), old])),
        ("no9_version", joined(&[file_a(), smallest(), usual])),
    ]
}

/// Expanded headers and tokens of every kind, with either address. Each record
/// has at most one subject.
fn expanded() -> Vec<u8> {
    let small = |address| with_address(0x15, address);
    let wide = |address| with_address(0x79, address);
    let latest = Header {
        version: 255,
        event: u16::MAX,
        modifier: u16::MAX,
        seconds: u64::MAX,
        nanoseconds: 999_999_999,
        ..wide(IPV6)
    };
    let each = |header| {
        let bodies = expanded_bodies();
        let records = bodies.iter().flat_map(|body| record_bytes(header, body));
        records.collect::<Vec<u8>>()
    };
    // The opaque holds a whole expanded record.
    let inside = record_bytes(&small(IPV4), b"");
    joined(&[
        file_a(),
        each(&small(IPV4)),
        record_bytes(&small(IPV6), &opaque(inside)),
        smallest(),
        record_bytes(&wide(IPV4), b""),
        each(&latest),
    ])
}

/// A body for each expanded subject with each address; behind it stand all the
/// other expanded tokens.
fn expanded_bodies() -> Vec<Vec<u8>> {
    let [subject, process, wide, wide_process, in_addr] = expanded_tokens();
    let either = |token| [IPV4, IPV6].map(|address| token_with(token, address.to_vec()));
    let others = [process, wide_process, in_addr].map(either).concat();
    let subjects = [subject, wide].map(either).concat().into_iter();
    subjects
        .map(|subject| joined(&[subject, joined(&others)]))
        .collect()
}

/// The smallest expanded record, cut in its count, its type and its trailer.
fn cut_expanded() -> Vec<(&'static str, Vec<u8>)> {
    let record = record_bytes(&with_address(0x15, IPV4), b"");
    [
        ("cut_expanded_4", 4),
        ("cut_expanded_12", 12),
        ("cut_expanded_32", 32),
    ]
    .map(|(name, length)| (name, record[..length].to_vec()))
    .to_vec()
}

/// Refusals of expanded records other than 13: a count below the smaller
/// record's, and below what type 16 needs; a wrong trailer, which is told
/// before a wrong type; an expanded header in a body; a body that ends inside
/// a type, and inside an address; and a time stamp behind the larger address.
fn bad_expanded() -> Vec<(&'static str, Vec<u8>)> {
    let large = record_bytes(&with_address(0x79, IPV6), b"");
    let second = framed(&large[..45], b"");
    let mut both = record_bytes(&with_address(0x15, IPV4), b"");
    set(&mut both, 10, &[0; 4]);
    let end = both.len();
    set(&mut both, end - 4, &[0; 4]);
    let inside = record_bytes(&with_address(0x15, IPV4), b"");
    let late = Header {
        nanoseconds: 1_000_000_000,
        ..with_address(0x15, IPV6)
    };
    let cut = |token: WriteToken<'static>, left: usize| {
        let token = token_with(token, IPV6.to_vec());
        joined(&[return32(), token[..token.len() - left].to_vec()])
    };
    let [subject, .., in_addr] = expanded_tokens();
    vec![
        ("no4_least", joined(&[file_a(), b"\x15\0\0\0\x20".to_vec()])),
        ("no4_second", joined(&[smallest(), second])),
        ("no5_type", both),
        ("no6_header", raw_record(&HEADER, &inside)),
        ("no7_type", raw_record(&HEADER, &cut(in_addr, 17))),
        ("no7_address", raw_record(&HEADER, &cut(subject, 1))),
        (
            "no9_expanded",
            joined(&[smallest(), raw_record(&late, b"")]),
        ),
    ]
}

/// Refusal 13: a type that is neither 4 nor 16 in a header and in a token, and
/// a type of one byte, as the manual page has it, in either.
fn bad_types() -> Vec<(&'static str, Vec<u8>)> {
    let header = raw_record(&with_address(0x79, &[1, 2, 3, 4, 5, 6]), &return32());
    let page = record_bytes(&with_address(0x15, IPV4), &booking_body());
    let [.., process, in_addr] = expanded_tokens();
    let mut token = token_with(process, IPV4.to_vec());
    set(&mut token, 37, &32u32.to_be_bytes());
    let mut short = token_with(in_addr, IPV6.to_vec());
    short.drain(1..4);
    let between = |token| joined(&[return32(), token, return32()]);
    vec![
        ("no13_header", joined(&[smallest(), header, smallest()])),
        (
            "no13_header_page",
            joined(&[file_a(), with_one_byte_type(&page)]),
        ),
        (
            "no13_token",
            raw_record(&with_address(0x15, IPV6), &between(token)),
        ),
        (
            "no13_token_page",
            joined(&[file_a(), raw_record(&HEADER, &between(short))]),
        ),
    ]
}

/// Refusal 14: two subjects of one kind with processes around them, in the
/// second of three records, and a subject32 before a subject64.
fn two_subjects() -> Vec<(&'static str, Vec<u8>)> {
    let token = |fields| token_with(fields, Vec::new());
    let small = token(WriteToken::Subject32(party(0, 0x7F00_0001)));
    let wide = token(WriteToken::Subject64(party(1 << 40, 0x7F00_0001)));
    let process = token(WriteToken::Process32(party(0, 0x7F00_0001)));
    let twice = joined(&[process.clone(), booking_body(), process, small.clone()]);
    let widths = joined(&[small, return32(), wide, return32()]);
    let header = with_address(0x79, IPV6);
    vec![
        (
            "no14_second_record",
            joined(&[booking(), raw_record(&booking_header(), &twice), smallest()]),
        ),
        (
            "no14_widths",
            joined(&[file_a(), raw_record(&header, &widths)]),
        ),
    ]
}

/// An accepted trail of as many bytes as the program takes, and one more
/// byte.
fn sizes() -> Vec<(&'static str, Vec<u8>)> {
    let around = record_bytes(&HEADER, &opaque(Vec::new())).len() + smallest().len();
    let body = opaque(vec![b'x'; 65_536 - around]);
    let most = joined(&[record_bytes(&HEADER, &body), smallest()]);
    let longer = joined(&[most.clone(), vec![0x14]]);
    vec![("size_65536", most), ("size_65537", longer)]
}

/// The header of paper 01's cases.
const HEADER: Header<'static> = Header {
    number: 0x14,
    version: 11,
    event: 72,
    modifier: 0,
    address: &[],
    seconds: 1,
    nanoseconds: 2,
};

const IPV4: &[u8] = &[192, 0, 2, 7];
const IPV6: &[u8] = &[0x20, 1, 0x0D, 0xB8, 0, 0, 0, 0, 0, 0, 0, 0, 0, 0, 0, 7];

/// The header of the cases with another number and an address.
fn with_address(number: u8, address: &'static [u8]) -> Header<'static> {
    Header {
        number,
        address,
        ..HEADER
    }
}

/// The record of case 9.
fn smallest() -> Vec<u8> {
    record_bytes(&HEADER, b"")
}

/// The file token of case 12.
fn file_a() -> Vec<u8> {
    file(5, 7, b"a")
}

fn file(seconds: u32, microseconds: u32, name: &[u8]) -> Vec<u8> {
    let mut token = vec![0; raw_file(0, 0, 0, name).len() + 1];
    let written = write_file(&mut token, seconds, microseconds, name);
    assert_eq!(written, Ok(token.len()), "a good file token was refused");
    token
}

/// A usual record of four tokens.
fn booking() -> Vec<u8> {
    record_bytes(&booking_header(), &booking_body())
}

fn booking_header() -> Header<'static> {
    Header {
        event: 6_152,
        seconds: 1_763_200_000,
        nanoseconds: 999_999_999,
        ..HEADER
    }
}

/// Who books.
fn party<P, A>(port: P, address: A) -> Party<P, A> {
    Party {
        audit: 1_000,
        effective_user: 1_000,
        effective_group: 100,
        real_user: 1_000,
        real_group: 100,
        process: 4_242,
        session: 77,
        port,
        address,
    }
}

/// The tokens with an address, which is still to come.
fn expanded_tokens() -> [WriteToken<'static>; 5] {
    let (small, wide) = (party(0, &[][..]), party(1 << 40, &[][..]));
    [
        WriteToken::Subject32Ex(small),
        WriteToken::Process32Ex(small),
        WriteToken::Subject64Ex(wide),
        WriteToken::Process64Ex(wide),
        WriteToken::InAddrEx { address: &[] },
    ]
}

fn booking_body() -> Vec<u8> {
    let subject = WriteToken::Subject32(party(0, 0x7F00_0001));
    let path = WriteToken::Path { text: &[] };
    let text = WriteToken::Text { text: &[] };
    joined(&[
        token_with(subject, Vec::new()),
        token_with(path, b"/bookings/cancel".to_vec()),
        token_with(text, b"charter 4711".to_vec()),
        return32(),
    ])
}

fn return32() -> Vec<u8> {
    let fields = WriteToken::Return32 { error: 0, value: 0 };
    token_with(fields, Vec::new())
}

fn opaque(bytes: Vec<u8>) -> Vec<u8> {
    token_with(WriteToken::Opaque { bytes: &[] }, bytes)
}

fn joined(parts: &[Vec<u8>]) -> Vec<u8> {
    parts.concat()
}
