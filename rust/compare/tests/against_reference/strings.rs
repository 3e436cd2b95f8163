//! Where the strings of exec tokens end, at each place of the blocks in which
//! the library looks for it. What is expected comes from where the zero bytes
//! were put.

use bsm::{NewToken, Reason, Refusal, Strings, Token};
use generator::Rng;

/// Bytes that a search for zero bytes could take for one.
const LETTERS: [u8; 4] = [b'a', 1, 0x80, 0xFF];

/// So many bytes, with zero bytes at these places.
fn with_zeros(length: usize, zeros: impl IntoIterator<Item = usize>) -> Vec<u8> {
    let mut bytes: Vec<u8> = (0..length).map(|at| LETTERS[at % 4]).collect();
    for zero in zeros {
        bytes[zero] = 0;
    }
    bytes
}

/// The numbers of exec_args and exec_env tokens.
const NUMBERS: [u8; 2] = [0x3C, 0x3D];

/// Asserts what is read of an exec token with `count` strings and these bytes
/// behind its count.
fn reads(count: u32, bytes: &[u8]) {
    let zeros = bytes.iter().enumerate().filter(|(_, &byte)| byte == 0);
    let mut ends = zeros.map(|(at, _)| at + 1);
    let expected = match count {
        0 => Some(0),
        _ => ends.nth(count as usize - 1),
    };
    for number in NUMBERS {
        let mut body = vec![number];
        body.extend(count.to_be_bytes());
        body.extend(bytes);
        let found = bsm::token_at(&body, 0).map(|found| found.expect("a token"));
        match expected {
            Some(end) => {
                let found = found.expect("its strings end");
                let (Token::ExecArgs(strings) | Token::ExecEnv(strings)) = found.token else {
                    panic!("no exec token: {:?}", found.token);
                };
                assert_eq!((found.size, strings.count), (5 + end, count));
                assert_eq!(strings.bytes, &bytes[..end]);
            }
            None => assert_eq!(found.unwrap_err(), refused(Reason::PastEnd)),
        }
    }
}

/// Asserts what is written where bytes are given as `count` strings, and says
/// whether they are.
fn writes(count: u32, bytes: &[u8]) -> bool {
    let zeros = bytes.iter().filter(|&&byte| byte == 0).count();
    let good = zeros == count as usize && bytes.last().is_none_or(|&last| last == 0);
    let strings = Strings { count, bytes };
    let mut dst = vec![0xA5; 5 + bytes.len()];
    for token in [NewToken::ExecArgs(strings), NewToken::ExecEnv(strings)] {
        dst.fill(0xA5);
        let found = bsm::write_token(&mut dst, &token);
        match good {
            true => assert_eq!((found, &dst[5..]), (Ok(5 + bytes.len()), bytes)),
            false => assert_eq!(found, Err(refused(Reason::BadText))),
        }
        assert!(good || dst.iter().all(|&byte| byte == 0xA5));
    }
    good
}

fn refused(reason: Reason) -> Refusal {
    Refusal {
        reason,
        place: 0,
        need: 0,
    }
}

/// Lengths around those of blocks of 144 bytes, and of eight behind them.
fn lengths() -> impl Iterator<Item = usize> {
    let around = [140..=153, 286..=298, 430..=434, 575..=578];
    (0..=34).chain(around.into_iter().flatten())
}

/// One string, ended at each place, and one string too many.
#[test]
fn one_zero_byte_at_each_place() {
    let mut seen = 0;
    for length in lengths() {
        for zero in 0..length {
            let bytes = with_zeros(length, [zero]);
            for count in [0, 1, 2, u32::MAX] {
                reads(count, &bytes);
                let good = writes(count, &bytes[..=zero]);
                assert_eq!(good, count == 1);
            }
            assert!(!writes(1, &bytes[..zero]));
            seen += 1;
        }
        reads(1, &with_zeros(length, []));
    }
    println!("{seen} places");
    assert!(seen > 10_000);
}

/// Strings of one size, from single zero bytes to more than a block, and each
/// count of them.
#[test]
fn each_count_of_strings() {
    let mut seen = [0, 0];
    for size in (1..=20).chain(142..=147) {
        for length in [0, 7, 8, 9, 143, 144, 145, 152, 300, 450] {
            let bytes = with_zeros(length, (size - 1..length).step_by(size));
            let all = (length / size) as u32;
            for count in 0..=all + 1 {
                reads(count, &bytes);
                let end = length.min(size * count as usize);
                let good = writes(count, &bytes[..end]);
                assert_eq!(good, count <= all);
                seen[usize::from(good)] += 1;
            }
        }
    }
    println!("{} as said, {} not", seen[1], seen[0]);
    assert!(seen[1] > 5_000 && seen[0] > 250);
}

/// Zero bytes as they fall, few and many, in bytes of any length.
#[test]
fn zero_bytes_anywhere() {
    let mut rng = Rng::new(481);
    let mut seen = [0, 0];
    for _ in 0..20_000 {
        let length = rng.below(700);
        let one_in = rng.pick(&[1, 2, 3, 8, 40, 300]);
        let zeros: Vec<usize> = (0..length).filter(|_| rng.chance(one_in)).collect();
        let bytes = with_zeros(length, zeros.iter().copied());
        let all = zeros.len() as u32;
        for count in [all, all + 1, rng.below(all as usize + 1) as u32, u32::MAX] {
            reads(count, &bytes);
            seen[usize::from(writes(count, &bytes))] += 1;
        }
    }
    println!("{} as said, {} not", seen[1], seen[0]);
    assert!(seen[1] > 5_000 && seen[0] > 40_000);
}

/// Bytes that are not as many strings as said report 0, wherever a zero byte
/// is missing or one too many.
#[test]
fn strings_that_are_not_as_said() {
    let mut seen = [0, 0];
    for count in [0, 1, 2, 3, 4, 5, u32::MAX] {
        let mut bytes = *b"ls\0-l\0\0/tmp\0";
        for at in 0..bytes.len() {
            for byte in [0, b'x'] {
                let old = std::mem::replace(&mut bytes[at], byte);
                for end in [at, at + 1, bytes.len()] {
                    seen[usize::from(writes(count, &bytes[..end]))] += 1;
                }
                bytes[at] = old;
            }
        }
    }
    println!("{} not as said, {} as said", seen[0], seen[1]);
    assert!(seen[0] > 400 && seen[1] > 40);
}
