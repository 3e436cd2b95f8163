//! Reading body tokens on both sides.

use crate::expect;
use crate::raw::{raw_part, raw_token_at};
use crate::reading::show;
use crate::tally::Tally;
use bsm::{Token, TokenAt};
use generator::token_by_token;
use reference::TokenAnswer;

/// Compares the token at a place of a body, where its varying part or its
/// address stands, and the text and address accesses there.
pub fn same_token(tally: &mut Tally, body: &[u8], place: usize) {
    tally.input();
    let plain = reference::token_at(body, place);
    let expected = match plain {
        TokenAnswer::Token { token, size, .. } => Ok(Some(TokenAt {
            token: expect::token(token),
            size,
        })),
        TokenAnswer::End => Ok(None),
        TokenAnswer::Refused(refusal) => Err(expect::refusal(refusal)),
    };
    let found = bsm::token_at(body, place);
    assert_eq!(found, expected, "token at {place} of {}", show(body));

    same_told_address(body, place, plain);

    let string = bsm::text_at(body, place);
    let plain_string = reference::text_at(body, place);
    assert_eq!(string.unwrap_or_default(), plain_string);
    let refusal = match plain {
        TokenAnswer::Refused(refusal) => Some(refusal),
        _ => None,
    };
    tally.token_answer(body, place, refusal);
    match (found, plain) {
        (
            Ok(Some(found)),
            TokenAnswer::Token {
                token,
                start,
                length,
                ..
            },
        ) => {
            tally.kind(found.token.number());
            if let Some(address) = expect::address_of_token(&token) {
                tally.address(token.number(), address.len());
                same_address(body, place, address);
            } else {
                same_part(body, &found.token, start, length);
            }
            match found.token {
                Token::Path { text } | Token::Text { text } => {
                    assert_eq!(string.map(<[u8]>::as_ptr), Some(text.as_ptr()));
                }
                _ => assert_eq!(string, None),
            }
        }
        _ => assert_eq!(string, None),
    }
}

/// Compares the address that is told for a place of a body: that of an expanded
/// token, and none for any other answer.
fn same_told_address(body: &[u8], place: usize, plain: TokenAnswer<'_>) {
    let expected = match plain {
        TokenAnswer::Token { token, .. } => expect::address_of_token(&token),
        TokenAnswer::End | TokenAnswer::Refused(_) => None,
    };
    let found = bsm::token_address_at(body, place);
    let expected = expected.map(expect::address);
    assert_eq!(found, expected, "address at {place} of {}", show(body));
}

/// Asserts that the token at a place of a body has its address there, and its
/// length as type.
fn same_address(body: &[u8], place: usize, address: &[u8]) {
    let told = raw_token_at(body, place);
    let part = raw_part(body, Some(address));
    assert_eq!((told.start, told.length), (part.start, part.length));
    assert_eq!(told.count, part.length);
}

/// Asserts that a token's varying part stands at `start` and has `length`
/// bytes, a text's zero byte included.
fn same_part(body: &[u8], token: &Token<'_>, start: usize, length: usize) {
    let Some(part) = expect::part_of_token(token) else {
        assert_eq!(length, 0);
        return;
    };
    let zero = match token {
        Token::Path { .. } | Token::Text { .. } | Token::Arg32 { .. } | Token::Arg64 { .. } => 1,
        _ => 0,
    };
    assert_eq!(part.as_ptr(), body[start..].as_ptr());
    assert_eq!(part.len() + zero, length);
    match token {
        Token::ExecArgs(strings) | Token::ExecEnv(strings) => {
            let rejoined: Vec<u8> = strings
                .iter()
                .flat_map(|string| [string, &[0]].concat())
                .collect();
            assert_eq!(rejoined, part);
            assert_eq!(strings.iter().count(), strings.count as usize);
        }
        Token::NewGroups { groups } => {
            let rejoined: Vec<u8> = groups.into_iter().flat_map(u32::to_be_bytes).collect();
            assert_eq!(rejoined, part);
            assert_eq!(groups.len() * 4, length);
        }
        _ => {}
    }
}

/// Compares a body's walk and its tokens one after the other, which have no 14
/// and thus may go further.
pub fn same_body(tally: &mut Tally, body: &[u8]) {
    tally.input();
    let plain = reference::walk_body(body);
    let expected = plain.map_err(expect::refusal);
    let found = bsm::walk_body(body);
    assert_eq!(found, expected, "walk of {}", show(body));
    assert_eq!(plain, token_by_token(body), "walk of {}", show(body));
    tally.body_answer(body, plain.err());

    let mut tokens = bsm::tokens(body);
    let mut place = 0;
    let last = loop {
        assert_eq!(tokens.place(), place);
        let plain = reference::token_at(body, place);
        same_told_address(body, place, plain);
        let (token, size) = match plain {
            TokenAnswer::Token { token, size, .. } => (token, size),
            TokenAnswer::End => break None,
            TokenAnswer::Refused(refusal) => break Some(Err(expect::refusal(refusal))),
        };
        tally.kind(token.number());
        assert_eq!(tokens.next(), Some(Ok(expect::token(token))));
        place += size;
    };
    assert_eq!(tokens.next(), last);
    assert_eq!(tokens.next(), None);
}
