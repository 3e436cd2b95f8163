//! The generated inputs, as the crate `reference` reads them.

use generator::*;
use reference::*;
use std::collections::BTreeMap;

/// A read token as the writer takes it; `groups` holds its groups.
fn to_write<'a>(token: &Token<'a>, groups: &'a mut Vec<u32>) -> WriteToken<'a> {
    match *token {
        Token::Path { text } => WriteToken::Path { text },
        Token::Text { text } => WriteToken::Text { text },
        Token::Opaque { bytes } => WriteToken::Opaque { bytes },
        Token::Subject32(party) => WriteToken::Subject32(party),
        Token::Process32(party) => WriteToken::Process32(party),
        Token::Subject64(party) => WriteToken::Subject64(party),
        Token::Process64(party) => WriteToken::Process64(party),
        Token::Subject32Ex(party) => WriteToken::Subject32Ex(party),
        Token::Process32Ex(party) => WriteToken::Process32Ex(party),
        Token::Subject64Ex(party) => WriteToken::Subject64Ex(party),
        Token::Process64Ex(party) => WriteToken::Process64Ex(party),
        Token::Return32 { error, value } => WriteToken::Return32 { error, value },
        Token::Return64 { error, value } => WriteToken::Return64 { error, value },
        Token::InAddr { address } => WriteToken::InAddr { address },
        Token::InAddrEx { address } => WriteToken::InAddrEx { address },
        Token::Ip(ip) => WriteToken::Ip(ip),
        Token::Iport { port } => WriteToken::Iport { port },
        Token::Arg32 {
            argument,
            value,
            text,
        } => WriteToken::Arg32 {
            argument,
            value,
            text,
        },
        Token::Arg64 {
            argument,
            value,
            text,
        } => WriteToken::Arg64 {
            argument,
            value,
            text,
        },
        Token::Seq { sequence } => WriteToken::Seq { sequence },
        Token::IpcPerm(ipc) => WriteToken::IpcPerm(ipc),
        Token::NewGroups { groups: raw } => {
            groups.extend(
                raw.chunks(4)
                    .map(|g| u32::from_be_bytes(g.try_into().unwrap())),
            );
            WriteToken::NewGroups { groups }
        }
        Token::ExecArgs { count, strings } => WriteToken::ExecArgs { count, strings },
        Token::ExecEnv { count, strings } => WriteToken::ExecEnv { count, strings },
        Token::Exit { status, value } => WriteToken::Exit { status, value },
    }
}

/// How often tokens and headers of each number came, by the length of the
/// address, which is 0 for those that have none.
#[derive(Debug, Default)]
struct Kinds(BTreeMap<(u8, usize), usize>);

impl Kinds {
    fn count(&mut self, number: u8, address: usize) {
        *self.0.entry((number, address)).or_default() += 1;
    }

    /// Asserts that each kind came often, with either address where it has
    /// one, and nothing else came.
    fn often(&self) {
        let mut left = self.0.clone();
        for number in TOKEN_NUMBERS.into_iter().chain(HEADER_NUMBERS) {
            let addresses = match number {
                0x15 | 0x79 | 0x7A..=0x7E => &[4, 16][..],
                _ => &[0],
            };
            for &address in addresses {
                let times = left.remove(&(number, address)).unwrap_or(0);
                println!("{number:02X}, address of {address}: {times}");
                assert!(times >= 100, "{number:02X}, {address}: {times}");
            }
        }
        assert!(left.is_empty(), "{left:?}");
    }
}

/// Reads a body that is good, writes each token again and compares the
/// bytes. Counts the kinds.
fn tokens_again(body: &[u8], kinds: &mut Kinds) -> usize {
    let mut place = 0;
    let mut tokens = 0;
    loop {
        match token_at(body, place) {
            TokenAnswer::Token {
                token,
                start,
                length,
                size,
            } => {
                assert_eq!(start + length, place + size);
                let mut groups = Vec::new();
                let mut bytes = vec![0; size];
                let again = to_write(&token, &mut groups);
                assert_eq!(write_token(&mut bytes, &again), Ok(size));
                assert_eq!(bytes, body[place..place + size]);
                let number = token.number();
                let expanded = EXPANDED_NUMBERS.contains(&number);
                kinds.count(number, if expanded { length } else { 0 });
                tokens += 1;
                place += size;
            }
            TokenAnswer::End => return tokens,
            TokenAnswer::Refused(refusal) => panic!("{refusal:?}"),
        }
    }
}

/// Writes an accepted item again and compares the bytes.
fn item_again(trail: &[u8], place: usize, item: &Item<'_>, kinds: &mut Kinds) {
    let size = item.size();
    let mut bytes = vec![0; size];
    let written = match item {
        Item::File {
            seconds,
            microseconds,
            name,
            ..
        } => write_file(&mut bytes, *seconds, *microseconds, name),
        Item::Record {
            header,
            body,
            tokens,
            ..
        } => {
            assert_eq!(tokens_again(body, kinds), *tokens);
            kinds.count(header.number, header.address.len());
            assert_eq!(head_size(&trail[place..]), size - body.len() - 7);
            write_record(&mut bytes, header, body)
        }
    };
    assert_eq!(written, Ok(size));
    assert_eq!(bytes, trail[place..place + size]);
}

#[test]
fn good_trails_are_accepted_and_written_again() {
    let mut rng = Rng::new(1);
    let mut kinds = Kinds::default();
    let (mut records, mut files, mut empty) = (0, 0, 0);
    for _ in 0..2_000 {
        let trail = good_trail(&mut rng, 4);
        let (items, run) = reading(&trail, State::default());
        assert_eq!(run.refusal, None);
        assert_eq!(run.state.place, trail.len());
        records += run.state.records;
        files += run.state.files;
        for (place, item) in items {
            item_again(&trail, place, &item, &mut kinds);
            if let Item::Record { body: [], .. } = item {
                empty += 1;
            }
        }
    }
    assert!(records > 4_000 && files > 1_000 && empty > 500);
    kinds.often();
}

#[test]
fn each_number_and_each_kind_comes_out_often() {
    let mut rng = Rng::new(2);
    let mut numbers = BTreeMap::new();
    let mut kinds = Kinds::default();
    let mut ends = 0;
    for _ in 0..20_000 {
        let (trail, state) = any_input(&mut rng);
        let (items, answer) = reading(&trail, state);
        assert_eq!(run(&trail, state), answer);
        for (place, item) in items {
            item_again(&trail, place, &item, &mut kinds);
        }
        match answer.refusal {
            None => ends += 1,
            Some(refusal) => {
                assert_eq!(refusal.need == 0, refusal.number != 1);
                *numbers.entry(refusal.number).or_insert(0) += 1;
            }
        }
    }
    println!("end {ends}, refusals {numbers:?}");
    assert!(ends >= 1_000);
    for number in READ_REFUSALS {
        assert!(numbers[&number] >= 100, "number {number}");
    }
    assert_eq!(numbers.len(), READ_REFUSALS.len());
    kinds.often();
}

#[test]
fn targeted_inputs_mostly_hit() {
    let mut rng = Rng::new(3);
    for number in READ_REFUSALS {
        let mut hits = 0;
        for _ in 0..1_000 {
            let (trail, state) = targeted(&mut rng, number);
            let answer = run(&trail, state);
            hits += usize::from(answer.refusal.is_some_and(|r| r.number == number));
        }
        println!("number {number}: {hits} of 1000");
        assert!(hits >= 800, "number {number}: {hits}");
    }
}

#[test]
fn faults_together_reach_all_numbers_but_2() {
    let mut rng = Rng::new(4);
    let mut numbers = BTreeMap::new();
    for _ in 0..10_000 {
        let item = many_faults(&mut rng);
        if let Answer::Refused(refusal) = item_at(&item, 0) {
            *numbers.entry(refusal.number).or_insert(0) += 1;
        }
    }
    println!("{numbers:?}");
    for number in [1, 3, 4, 5, 6, 7, 8, 9, 13, 14] {
        assert!(numbers[&number] >= 50, "number {number}");
    }
}

#[test]
fn bodies_walked_and_read_token_by_token_agree() {
    let mut rng = Rng::new(5);
    let mut numbers = BTreeMap::new();
    for _ in 0..20_000 {
        let body = any_body(&mut rng);
        let one_by_one = token_by_token(&body);
        assert_eq!(walk_body(&body), one_by_one);
        let number = one_by_one.map_or_else(|refusal| refusal.number, |_| 0);
        *numbers.entry(number).or_insert(0) += 1;
        let wild = wild_place(&mut rng, body.len());
        if wild > body.len() {
            let refusal = Refusal {
                number: 2,
                place: wild,
                need: 0,
            };
            assert_eq!(token_at(&body, wild), TokenAnswer::Refused(refusal));
            assert_eq!(text_at(&body, wild), b"");
        }
    }
    println!("{numbers:?}");
    for number in [0, 6, 7, 8, 13, 14] {
        assert!(numbers[&number] >= 1_000, "number {number}");
    }
    assert_eq!(numbers.len(), 6);
}

#[test]
fn growing_trails_keep_their_answers() {
    let mut rng = Rng::new(6);
    for _ in 0..5_000 {
        let (trail, first) = any_input(&mut rng);
        let (whole, last) = reading(&trail, first);
        let mut state = first;
        let mut items = Vec::new();
        let mut end = None;
        for cut in growth(&mut rng, trail.len()) {
            let (new, run) = reading(&trail[..cut], state);
            items.extend(new);
            state = run.state;
            end = Some(run);
        }
        assert_eq!(end, Some(last));
        assert_eq!(items, whole);
    }
}

#[test]
fn item_answers_stand_in_longer_trails() {
    let mut rng = Rng::new(7);
    let mut shorts = 0;
    for _ in 0..5_000 {
        let (trail, _) = any_input(&mut rng);
        let cut = rng.between(0, trail.len());
        let place = wild_place(&mut rng, cut);
        let later = item_at(&trail, place);
        match item_at(&trail[..cut], place) {
            Answer::Refused(refusal) if refusal.number == 1 => {
                shorts += 1;
                assert!(refusal.need > cut - place);
                let enough = trail.len() - place >= refusal.need;
                assert_eq!(later != Answer::Refused(refusal), enough);
            }
            Answer::Refused(refusal) if refusal.number == 2 => assert!(place > cut),
            Answer::End => assert_eq!(place, cut),
            answer => assert_eq!(later, answer),
        }
    }
    assert!(shorts > 300);
}

#[test]
fn states_of_all_sorts() {
    let mut rng = Rng::new(8);
    let (mut fresh, mut overflow, mut sum_over, mut beyond, mut fine) = (0, 0, 0, 0, 0);
    for _ in 0..10_000 {
        let state = wild_state(&mut rng, 100);
        match state.records.checked_add(state.files) {
            _ if state == State::default() => fresh += 1,
            None => overflow += 1,
            Some(sum) if sum > state.place => sum_over += 1,
            _ if state.place > 100 => beyond += 1,
            _ => fine += 1,
        }
    }
    println!("{fresh} {overflow} {sum_over} {beyond} {fine}");
    assert!([fresh, overflow, sum_over, beyond, fine]
        .iter()
        .all(|&n| n > 500));
}

#[test]
fn program_inputs_meet_the_bound() {
    let mut rng = Rng::new(9);
    let mut over = 0;
    let mut near = 0;
    for _ in 0..400 {
        let input = program_input(&mut rng);
        let output = program_output(&input);
        if input.len() > 65_536 {
            over += 1;
            assert_eq!(output, b"bsmlist\t1\nX\t12\t65536\t0\n");
        } else {
            near += usize::from(input.len() >= 65_535);
            assert_eq!(output, listing(&input));
            let (items, _) = reading(&input, State::default());
            let lines = output.iter().filter(|&&b| b == b'\n').count();
            assert_eq!(lines, items.len() + 2);
        }
    }
    assert!(over > 20 && near > 20);
}
