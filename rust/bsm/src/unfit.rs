//! Where the linked archive tells something that this wrapper does not know.

/// Stops with a panic. The archive is then not the one that the wrapper was
/// written for, so nothing else of its answer can be relied on either, and
/// an answer must never pass for another one.
#[cold]
#[inline(never)]
pub(crate) fn unfit(what: &str, number: u64) -> ! {
    panic!("the linked BSM archive does not fit this wrapper: it told {what} {number}")
}

#[cfg(test)]
mod tests {
    extern crate std;

    use crate::address::address_of;
    use crate::back::{before, Before};
    use crate::index::found_record;
    use crate::item::{found, part, record, told_address, told_part, Item};
    use crate::listing::{cursor_of, Cursor};
    use crate::refusal::{written, Reason, Refusal};
    use crate::state::run_of;
    use crate::sys;
    use crate::token::Token;
    use crate::token_read::{told_token, told_token_address};
    use core::fmt::Debug;
    use std::panic::{catch_unwind, UnwindSafe};
    use std::string::String;

    /// Numbers that mean nothing anywhere, some of which would be known if
    /// they were cut to 8 or 32 bits.
    const NEVER: [u64; 6] = [0xFF, 0x101, 0x114, 0x123, (1 << 32) + 1, u64::MAX];

    /// The numbers of the body tokens that are not expanded.
    const TOKENS: [u64; 20] = [
        0x23, 0x24, 0x26, 0x27, 0x28, 0x29, 0x2A, 0x2B, 0x2C, 0x2D, 0x2F, 0x32, 0x3B, 0x3C, 0x3D,
        0x52, 0x71, 0x72, 0x75, 0x77,
    ];

    /// Those of the expanded ones.
    const EXPANDED: [u64; 5] = [0x7A, 0x7B, 0x7C, 0x7D, 0x7E];

    /// Asserts that `answer` stops, and that what it says names the number.
    fn stops<T: Debug>(what: &str, number: u64, answer: impl FnOnce() -> T + UnwindSafe) {
        let stopped = catch_unwind(answer).expect_err("it must not be answered");
        let said = stopped.downcast_ref::<String>().expect("a message");
        let end = std::format!("does not fit this wrapper: it told {what} {number}");
        assert!(said.ends_with(&end), "{said}");
    }

    #[test]
    fn refusals() {
        for number in (1..=11).chain([13, 14]) {
            assert_eq!(u64::from(Reason::of(number).number()), number);
        }
        for number in [0, 12, 15, 16, 17].into_iter().chain(NEVER) {
            stops("refusal", number, || Reason::of(number));
            stops("refusal", number, || Refusal::of(number, 0, 0));
            if number != 0 {
                let told = sys::bsm_written {
                    number,
                    ..Default::default()
                };
                stops("refusal", number, || written(told));
                let told = sys::bsm_outcome {
                    number,
                    ..Default::default()
                };
                stops("refusal", number, || run_of(&told));
            }
        }
    }

    #[test]
    fn headers() {
        let told = |header| sys::bsm_item {
            kind: sys::BSM_RECORD,
            header,
            ..Default::default()
        };
        for number in (0..=0x1FF).chain(NEVER) {
            match number {
                0x14 | 0x74 | 0x15 | 0x79 => {
                    let Item::Record { header, .. } = record(&[0; 60], &told(number)) else {
                        panic!("no record");
                    };
                    assert_eq!(u64::from(header.kind.number()), number);
                }
                _ => stops("header", number, || found(&[0; 60], &told(number))),
            }
        }
    }

    /// Lengths that addresses of headers and tokens have, and lengths that none
    /// has.
    #[test]
    fn addresses() {
        let trail: [u8; 60] = core::array::from_fn(|at| at as u8);
        let told = |length| sys::bsm_part { start: 3, length };
        let told_in = |kind, token, length| sys::bsm_token {
            kind,
            token,
            start: 3,
            length,
            number: 7,
            ..Default::default()
        };
        assert_eq!(told_address(&trail, sys::bsm_part::default()), None);
        for length in [4, 16] {
            let address = told_address(&trail, told(length as u64));
            assert_eq!(address, Some(address_of(&trail[3..3 + length])));
            for token in EXPANDED {
                let told = told_in(sys::BSM_TOKEN, token, length as u64);
                assert_eq!(told_token_address(&trail, &told), address);
            }
            // Other tokens have none, nor has what is no token.
            for token in TOKENS {
                let told = told_in(sys::BSM_TOKEN, token, length as u64);
                assert_eq!(told_token_address(&trail, &told), None);
            }
            for kind in [sys::BSM_NO_TOKEN, sys::BSM_TOKEN_REFUSED] {
                let told = told_in(kind, 0x7E, length as u64);
                assert_eq!(told_token_address(&trail, &told), None);
            }
            for number in NEVER {
                let told = told_in(number, 0x7E, length as u64);
                stops("token kind", number, || told_token_address(&trail, &told));
                let told = told_in(sys::BSM_TOKEN, number, length as u64);
                stops("token", number, || told_token_address(&trail, &told));
            }
        }
        let lengths = (0..=40).filter(|length| ![4, 16].contains(length));
        for length in lengths.chain([1 << 32 | 4, u64::MAX]) {
            no_address(length, || told_address(&trail, told(length)));
            for token in EXPANDED {
                let told = told_in(sys::BSM_TOKEN, token, length);
                no_address(length, || told_token_address(&trail, &told));
            }
        }
    }

    /// Asserts that an answer with an address of this length stops.
    fn no_address<T: Debug>(length: u64, answer: impl FnOnce() -> T + UnwindSafe) {
        match length {
            ..=60 => stops("an address with bytes", length, answer),
            // Nothing of the sort is there.
            _ => stops("a part from", 3, answer),
        }
    }

    #[test]
    fn items() {
        let told = |kind, number| sys::bsm_item {
            kind,
            number,
            ..Default::default()
        };
        assert_eq!(found(&[], &told(sys::BSM_END, 0)), Ok(None));
        let file = found(&[0; 60], &told(sys::BSM_FILE, 0));
        assert!(matches!(file, Ok(Some(Item::File { .. }))));
        let refused = found(&[], &told(sys::BSM_REFUSED, 3)).unwrap_err();
        assert_eq!(refused.reason, Reason::NotAnItem);
        for kind in [4, 5].into_iter().chain(NEVER) {
            stops("item kind", kind, || found(&[0; 60], &told(kind, 3)));
        }
        stops("refusal", 0, || found(&[], &told(sys::BSM_REFUSED, 0)));
    }

    #[test]
    fn steps_back() {
        let told = |kind, number| sys::bsm_before {
            item: sys::bsm_item {
                kind,
                header: 0x14,
                number,
                need: 7,
                ..Default::default()
            },
            place: 3,
        };
        let boundary = before(&[], &told(sys::BSM_BOUNDARY, 0));
        assert_eq!(boundary, Ok(Before::Boundary { need: 7 }));
        let record = before(&[], &told(sys::BSM_RECORD, 0));
        assert!(matches!(record, Ok(Before::Record { place: 3, .. })));
        let refused = before(&[], &told(sys::BSM_REFUSED, 2)).unwrap_err();
        assert_eq!(refused.reason, Reason::Place);
        for kind in [sys::BSM_END, sys::BSM_FILE, 5].into_iter().chain(NEVER) {
            stops("item kind", kind, || before(&[0; 60], &told(kind, 0)));
        }
    }

    #[test]
    fn records_by_number() {
        let told = |kind, number| sys::bsm_found {
            item: sys::bsm_item {
                kind,
                header: 0x14,
                number,
                place: 9,
                ..Default::default()
            },
            place: 3,
        };
        let record = found_record(&[], &told(sys::BSM_RECORD, 0));
        assert!(matches!(record, Ok(Some((3, Item::Record { .. })))));
        assert_eq!(found_record(&[], &told(sys::BSM_END, 0)), Ok(None));
        let refused = found_record(&[], &told(sys::BSM_REFUSED, 2)).unwrap_err();
        assert_eq!((refused.reason, refused.place), (Reason::Place, 9));
        for kind in [sys::BSM_FILE, sys::BSM_BOUNDARY, 5]
            .into_iter()
            .chain(NEVER)
        {
            stops("item kind", kind, || found_record(&[0; 60], &told(kind, 3)));
        }
        stops("refusal", 0, || {
            found_record(&[], &told(sys::BSM_REFUSED, 0))
        });
    }

    #[test]
    fn tokens() {
        let told = |kind, token| sys::bsm_token {
            kind,
            token,
            length: 4,
            number: 7,
            ..Default::default()
        };
        for number in 0..=0x1FF {
            let read = || told_token(&[0; 8], &told(sys::BSM_TOKEN, number));
            if TOKENS.contains(&number) || EXPANDED.contains(&number) {
                let token: Token<'_> = read().unwrap().unwrap().token;
                assert_eq!(u64::from(token.number()), number);
            } else {
                stops("token", number, read);
            }
        }
        for number in NEVER {
            stops("token", number, || {
                told_token(&[0; 8], &told(sys::BSM_TOKEN, number))
            });
        }
        assert_eq!(told_token(&[], &told(sys::BSM_NO_TOKEN, 0)), Ok(None));
        let refused = told_token(&[], &told(sys::BSM_TOKEN_REFUSED, 0)).unwrap_err();
        assert_eq!(refused.reason, Reason::PastEnd);
        for kind in [2, 4].into_iter().chain(NEVER) {
            stops("token kind", kind, || told_token(&[], &told(kind, 0x52)));
        }
    }

    #[test]
    fn stages() {
        let told = |stage| sys::bsm_listing {
            stage,
            place: 5,
            records: 2,
            files: 1,
            written: 0,
        };
        assert_eq!(cursor_of(&told(sys::BSM_LIST_FIRST)), Cursor::First);
        assert!(
            matches!(cursor_of(&told(sys::BSM_LIST_AT)), Cursor::At(state) if state.place == 5)
        );
        assert_eq!(cursor_of(&told(sys::BSM_LIST_DONE)), Cursor::Done);
        for stage in [3].into_iter().chain(NEVER) {
            stops("stage", stage, || cursor_of(&told(stage)));
        }
    }

    #[test]
    fn parts() {
        let bytes = [1, 2, 3];
        let told = |start, length| sys::bsm_part { start, length };
        assert_eq!(told_part(&bytes, told(0, 0)), None);
        assert_eq!(told_part(&bytes, told(1, 2)), Some(&bytes[1..]));
        assert_eq!(told_part(&bytes, told(3, 0)), Some(&bytes[3..]));
        for (start, length) in [(4, 0), (3, 1), (1, 3), (1, usize::MAX), (usize::MAX, 1)] {
            stops("a part from", start as u64, || part(&bytes, start, length));
        }
    }
}
