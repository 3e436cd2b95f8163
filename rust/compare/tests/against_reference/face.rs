//! The answers as C sees them, every field of them.

use bsm::sys::*;
use bsm::Reason;
use compare::*;
use generator::*;
use reference::{Answer, Before, Item, Party, Refusal, State, Token, TokenAnswer};

/// One step from a state.
fn raw_step(trail: &[u8], state: State) -> bsm_step {
    let sum = state.records.checked_add(state.files);
    let answer = match sum {
        Some(sum) if sum <= state.place => reference::item_at(trail, state.place),
        _ => Answer::Refused(Refusal {
            number: 2,
            place: state.place,
            need: 0,
        }),
    };
    let (size, record, file) = match answer {
        Answer::Item(item @ Item::Record { .. }) => (item.size(), 1, 0),
        Answer::Item(item @ Item::File { .. }) => (item.size(), 0, 1),
        _ => (0, 0, 0),
    };
    bsm_step {
        item: raw_item(trail, answer),
        place: (state.place + size) as u64,
        records: (state.records + record) as u64,
        files: (state.files + file) as u64,
    }
}

/// One step back.
fn raw_before(trail: &[u8], place: usize) -> bsm_before {
    let (item, place) = match reference::record_before(trail, place) {
        Before::Record { place, item } => (raw_item(trail, Answer::Item(item)), place),
        Before::Boundary { need } => {
            let boundary = bsm_item {
                kind: BSM_BOUNDARY,
                need: need as u64,
                ..bsm_item::default()
            };
            (boundary, place)
        }
        Before::Refused(refusal) => (raw_item(trail, Answer::Refused(refusal)), place),
    };
    bsm_before {
        item,
        place: place as u64,
    }
}

/// The fields of a subject or process token up to its port.
fn party<P: Into<u64>, A>(party: Party<P, A>) -> Vec<u64> {
    let users = [
        party.audit,
        party.effective_user,
        party.effective_group,
        party.real_user,
        party.real_group,
        party.process,
        party.session,
    ];
    let mut values: Vec<u64> = users.map(u64::from).to_vec();
    values.push(party.port.into());
    values
}

/// The same and its address.
fn party_at<P: Into<u64>>(fields: Party<P>) -> Vec<u64> {
    let address = fields.address.into();
    [party(fields), vec![address]].concat()
}

/// The length, number, count or type field of a token, and its other fields.
fn fields(token: Token<'_>, length: usize) -> (u64, Vec<u64>) {
    let length = length as u64;
    match token {
        Token::Path { .. } | Token::Text { .. } | Token::Opaque { .. } => (length, vec![]),
        Token::NewGroups { .. } => (length / 4, vec![]),
        Token::ExecArgs { count, .. } | Token::ExecEnv { count, .. } => (count.into(), vec![]),
        Token::Arg32 {
            argument, value, ..
        } => (length, vec![argument.into(), value.into()]),
        Token::Arg64 {
            argument, value, ..
        } => (length, vec![argument.into(), value]),
        Token::Subject32(fields) | Token::Process32(fields) => (0, party_at(fields)),
        Token::Subject64(fields) | Token::Process64(fields) => (0, party_at(fields)),
        Token::Subject32Ex(fields) | Token::Process32Ex(fields) => (length, party(fields)),
        Token::Subject64Ex(fields) | Token::Process64Ex(fields) => (length, party(fields)),
        Token::InAddrEx { .. } => (length, vec![]),
        Token::Return32 { error, value } => (0, vec![error.into(), value.into()]),
        Token::Return64 { error, value } => (0, vec![error.into(), value]),
        Token::InAddr { address } => (0, vec![address.into()]),
        Token::Iport { port } => (0, vec![port.into()]),
        Token::Seq { sequence } => (0, vec![sequence.into()]),
        Token::Exit { status, value } => (0, vec![status.into(), value.into()]),
        Token::IpcPerm(ipc) => {
            let values = [
                ipc.owner_user,
                ipc.owner_group,
                ipc.creator_user,
                ipc.creator_group,
                ipc.mode,
                ipc.sequence,
                ipc.key,
            ];
            (0, values.map(u64::from).to_vec())
        }
        Token::Ip(ip) => {
            let values = vec![
                ip.version.into(),
                ip.service.into(),
                ip.length.into(),
                ip.id.into(),
                ip.offset.into(),
                ip.ttl.into(),
                ip.protocol.into(),
                ip.checksum.into(),
                ip.source.into(),
                ip.destination.into(),
            ];
            (0, values)
        }
    }
}

fn raw_token(answer: TokenAnswer<'_>) -> bsm_token {
    match answer {
        TokenAnswer::End => bsm_token {
            kind: BSM_NO_TOKEN,
            ..bsm_token::default()
        },
        TokenAnswer::Token {
            token,
            start,
            length,
            size,
        } => {
            let (count, fields) = fields(token, length);
            let mut values = [0; 10];
            values[..fields.len()].copy_from_slice(&fields);
            let text = matches!(token.number(), 0x23 | 0x28 | 0x2D | 0x71);
            bsm_token {
                kind: BSM_TOKEN,
                token: token.number().into(),
                start: start as u64,
                length: (length - usize::from(text)) as u64,
                size: size as u64,
                count,
                values,
                ..bsm_token::default()
            }
        }
        TokenAnswer::Refused(refusal) => bsm_token {
            kind: BSM_TOKEN_REFUSED,
            number: refusal.number.into(),
            place: refusal.place as u64,
            need: refusal.need as u64,
            ..bsm_token::default()
        },
    }
}

#[test]
fn items_field_by_field() {
    let mut rng = Rng::new(801);
    let mut tally = Tally::new();
    while tally.inputs() < FACE / 2 {
        let (trail, state) = any_input(&mut rng);
        let (bytes, length) = (trail.as_ptr(), trail.len());
        let (records, files) = (state.records, state.files);
        let place = match rng.below(3) {
            0 => wild_place(&mut rng, length),
            _ => 0,
        };
        tally.input();
        let answer = reference::item_at(&trail, place);
        let (body, name) = match answer {
            Answer::Item(Item::Record { header, body, .. }) => {
                tally.address(header.number, header.address.len());
                (Some(body), None)
            }
            Answer::Item(Item::File { name, .. }) => (None, Some(name)),
            _ => (None, None),
        };
        // SAFETY: the pointer and the length are those of `trail`.
        unsafe {
            let found = bsm_item_at(bytes, length, place);
            assert_eq!(found, raw_item(&trail, answer));
            let found = bsm_body_at(bytes, length, place);
            assert_eq!(found, raw_part(&trail, body));
            let found = bsm_name_at(bytes, length, place);
            assert_eq!(found, raw_part(&trail, name));
            let found = bsm_address_at(bytes, length, place);
            let address = match &answer {
                Answer::Item(item) => address_of_item(item),
                _ => None,
            };
            assert_eq!(found, raw_part(&trail, address));
        }

        let run = reference::run(&trail, state);
        tally.item_answer(&trail, run.state.place, run.refusal);
        // SAFETY: as above.
        let found = unsafe { bsm_run(bytes, length, state.place, records, files) };
        assert_eq!(found, raw_outcome(run));
        for state in [state, run.state] {
            // SAFETY: as above.
            let found = unsafe { bsm_next(bytes, length, state.place, state.records, state.files) };
            assert_eq!(found, raw_step(&trail, state));
        }
    }
    tally.finish("items field by field", FACE / 2, READ_REFUSALS);
    tally.finish_texts("items field by field", &SPOILT_ITEMS);
    tally.finish_faults("items field by field", &ADDRESS_FAULTS);
    tally.finish_subjects("items field by field");
    tally.finish_addresses("items field by field", &EXPANDED_HEADERS);
}

#[test]
fn steps_back_field_by_field() {
    let mut rng = Rng::new(804);
    let mut tally = Tally::new();
    for _ in 0..1_000 {
        for aim in ENDINGS {
            let (trail, place) = with_ending(&mut rng, aim);
            for place in [place, wild_place(&mut rng, trail.len())] {
                tally.ending(ending_at(&trail, place));
                // SAFETY: the pointer and the length are those of `trail`.
                let found = unsafe { bsm_record_before(trail.as_ptr(), trail.len(), place) };
                assert_eq!(
                    found,
                    raw_before(&trail, place),
                    "{place} of {}",
                    show(&trail)
                );
            }
        }
    }
    tally.finish_endings("steps back field by field");
}

#[test]
fn tokens_field_by_field() {
    let mut rng = Rng::new(802);
    let mut tally = Tally::new();
    while tally.inputs() < FACE / 2 {
        let body = any_body(&mut rng);
        let (bytes, length) = (body.as_ptr(), body.len());
        let mut place = 0;
        loop {
            tally.input();
            let answer = reference::token_at(&body, place);
            let string = match answer {
                TokenAnswer::Token {
                    token: Token::Path { text } | Token::Text { text },
                    ..
                } => Some(text),
                _ => None,
            };
            // SAFETY: the pointer and the length are those of `body`.
            unsafe {
                let found = bsm_token_at(bytes, length, place);
                assert_eq!(found, raw_token(answer));
                let found = bsm_text_at(bytes, length, place);
                assert_eq!(found, raw_part(&body, string));
            }
            match answer {
                TokenAnswer::Token { token, size, .. } => {
                    tally.kind(token.number());
                    if let Some(address) = address_of_token(&token) {
                        tally.address(token.number(), address.len());
                    }
                    place += size;
                }
                TokenAnswer::End => {
                    tally.answer(None);
                    break;
                }
                TokenAnswer::Refused(refusal) => {
                    tally.token_answer(&body, place, Some(refusal));
                    break;
                }
            }
        }
        let walked = reference::walk_body(&body);
        tally.body_answer(&body, walked.err());
        // SAFETY: as above.
        let found = unsafe { bsm_walk_body(bytes, length) };
        assert_eq!(found, raw_written(walked));
    }
    tally.finish("tokens field by field", FACE / 2, [6, 7, 8, 13, 14]);
    tally.finish_texts("tokens field by field", SPOILT_BODIES);
    tally.finish_faults("tokens field by field", BODY_ADDRESS_FAULTS);
    tally.finish_addresses("tokens field by field", &EXPANDED_NUMBERS);
    tally.finish_kinds("tokens field by field");
}

#[test]
fn writers_and_lists_field_by_field() {
    let mut rng = Rng::new(803);
    let mut checked = 0;
    for _ in 0..2_000 {
        let text = rng.bytes(20);
        let room = rng.below(40);
        let mut dst = [0; 40];
        let args = reference::WriteToken::Text { text: &text };
        let expected = raw_written(reference::write_token(&mut [0; 40][..room], &args));
        // SAFETY: `room` is at most the length of `dst`, and `text` is
        // another buffer.
        let found = unsafe { bsm_write_text(dst.as_mut_ptr(), room, text.as_ptr(), text.len()) };
        assert_eq!(found, expected);

        // Any stage from 2 on is the end of a listing.
        let stage = rng.u64().max(2);
        let [place, records, files] = [(); 3].map(|()| rng.u64() as usize);
        let mut out = [0; 200];
        // SAFETY: pointers and lengths are those of two buffers.
        let found = unsafe {
            bsm_list(
                out.as_mut_ptr(),
                out.len(),
                text.as_ptr(),
                text.len(),
                stage,
                place,
                records,
                files,
            )
        };
        let expected = bsm_listing {
            stage: BSM_LIST_DONE,
            ..bsm_listing::default()
        };
        assert_eq!((found, out), (expected, [0; 200]));
        checked += 1;
    }
    assert_eq!(checked, 2_000);
}

/// The names and numbers of the header's enumerations and of its macro.
fn told_names() -> Vec<(String, u64)> {
    let header = include_str!("../../../../include/bsm.h");
    let mut told = Vec::new();
    for behind in header.split("enum {").skip(1) {
        let (names, _) = behind.split_once('}').expect("its end");
        let mut next = 0;
        for line in names.split_inclusive([',', '\n']) {
            let (line, _) = line.split_once("/*").unwrap_or((line, ""));
            let one = line.trim().trim_end_matches(',');
            if one.is_empty() || line.contains("*/") {
                continue;
            }
            let (name, number) = match one.split_once('=') {
                Some((name, number)) => (name.trim(), number_of(number.trim())),
                None => (one, next),
            };
            next = number + 1;
            told.push((name.to_string(), number));
        }
    }
    let (_, behind) = header.split_once("#define BSM_LINE_MAX ").expect("a macro");
    let number = number_of(behind.lines().next().expect("a line"));
    told.push(("BSM_LINE_MAX".to_string(), number));
    told
}

fn number_of(text: &str) -> u64 {
    let number = match text.strip_prefix("0x") {
        Some(digits) => u64::from_str_radix(digits, 16),
        None => text.parse(),
    };
    number.expect("a number")
}

/// The numbers that a C program gets from the header are those of the
/// wrapper. Which field an index names is tried in C.
#[test]
fn constants_of_the_header() {
    let told = told_names();
    let some = |prefix: &str| -> Vec<(&str, u64)> {
        let named = told
            .iter()
            .filter_map(|(name, number)| Some((name.strip_prefix(prefix)?, *number)));
        named.collect()
    };
    let refusals = [
        ("SHORT", Reason::Short),
        ("PLACE", Reason::Place),
        ("NOT_AN_ITEM", Reason::NotAnItem),
        ("RECORD_LENGTH", Reason::RecordLength),
        ("TRAILER", Reason::Trailer),
        ("NOT_A_BODY_TOKEN", Reason::NotABodyToken),
        ("PAST_END", Reason::PastEnd),
        ("BAD_TEXT", Reason::BadText),
        ("TIME_RANGE", Reason::TimeRange),
        ("NO_ROOM", Reason::NoRoom),
        ("TOO_LARGE", Reason::TooLarge),
        ("ADDRESS_TYPE", Reason::AddressType),
        ("SECOND_SUBJECT", Reason::SecondSubject),
    ];
    let refusals = refusals.map(|(name, reason)| (name, reason.number().into()));
    assert_eq!(some("BSM_REFUSAL_"), refusals);

    let mut numbers = [&TOKEN_NUMBERS[..], &HEADER_NUMBERS, &[0x11, 0x13]].concat();
    numbers.sort();
    let ids: Vec<u64> = some("BSM_ID_").iter().map(|(_, number)| *number).collect();
    assert!(ids.iter().copied().eq(numbers.into_iter().map(u64::from)));

    for (name, number) in [
        ("BSM_END", BSM_END),
        ("BSM_FILE", BSM_FILE),
        ("BSM_RECORD", BSM_RECORD),
        ("BSM_REFUSED", BSM_REFUSED),
        ("BSM_NO_TOKEN", BSM_NO_TOKEN),
        ("BSM_TOKEN", BSM_TOKEN),
        ("BSM_TOKEN_REFUSED", BSM_TOKEN_REFUSED),
        ("BSM_LINE_MAX", BSM_LINE_MAX as u64),
        ("BSM_LIST_FIRST", BSM_LIST_FIRST),
        ("BSM_LIST_AT", BSM_LIST_AT),
        ("BSM_LIST_DONE", BSM_LIST_DONE),
    ] {
        assert_eq!(some(name).first(), Some(&("", number)), "{name}");
    }
}
