//! Lines of the listing (paper 01, 'Listing').

use reference::*;

const FILL: u8 = 0xA5;

/// The line, with every smaller destination checked to be refused.
fn line(write: impl Fn(&mut [u8]) -> Result<usize, Refusal>) -> String {
    let mut dst = vec![FILL; 300];
    let size = write(&mut dst).unwrap();
    assert!(dst[size..].iter().all(|&b| b == FILL));
    let no_room = Refusal {
        number: 10,
        place: 0,
        need: 0,
    };
    for room in 0..size {
        let mut small = vec![FILL; room];
        assert_eq!(write(&mut small), Err(no_room));
        assert!(small.iter().all(|&b| b == FILL));
    }
    let mut exact = vec![FILL; size];
    assert_eq!(write(&mut exact), Ok(size));
    assert_eq!(exact, &dst[..size]);
    String::from_utf8(exact).unwrap()
}

#[test]
fn all_lines() {
    assert_eq!(line(first_line), "bsmlist\t1\n");
    let file = Item::File {
        size: 13,
        seconds: u32::MAX,
        microseconds: 0,
        name: b"a",
    };
    assert_eq!(
        line(|dst| item_line(dst, 100, &file)),
        "F\t100\t13\t4294967295\t0\n"
    );
    let record = Item::Record {
        size: 33,
        header: Header {
            number: 0x74,
            version: 11,
            event: 65_535,
            modifier: 10,
            address: &[],
            seconds: u64::MAX,
            nanoseconds: 999_999_999,
        },
        body: &[],
        tokens: 7,
    };
    assert_eq!(
        line(|dst| item_line(dst, usize::MAX, &record)),
        format!(
            "R\t{}\t33\t65535\t10\t18446744073709551615\t999999999\t7\n",
            usize::MAX
        )
    );
    let state = State {
        place: 9,
        records: 10,
        files: 0,
    };
    let end = Run {
        state,
        refusal: None,
    };
    assert_eq!(line(|dst| last_line(dst, &end)), "E\t10\t0\n");
    let refused = Run {
        state,
        refusal: Some(Refusal {
            number: 1,
            place: 9,
            need: 65_535,
        }),
    };
    assert_eq!(line(|dst| last_line(dst, &refused)), "X\t1\t9\t65535\n");
}

#[test]
fn longest_line_fits() {
    let record = Item::Record {
        size: usize::MAX,
        header: Header {
            number: 0x74,
            version: u16::MAX,
            event: u16::MAX,
            modifier: u16::MAX,
            address: &[],
            seconds: u64::MAX,
            nanoseconds: u64::MAX,
        },
        body: &[],
        tokens: usize::MAX,
    };
    let text = line(|dst| item_line(dst, usize::MAX, &record));
    assert_eq!(text.split('\t').count(), 8);
}

#[test]
fn program_bound() {
    assert_eq!(program_output(&[]), b"bsmlist\t1\nE\t0\t0\n");
    let most = vec![0; 65_536];
    assert_eq!(program_output(&most), b"bsmlist\t1\nX\t3\t0\t0\n");
    let over = vec![0; 65_537];
    assert_eq!(program_output(&over), b"bsmlist\t1\nX\t12\t65536\t0\n");
    assert_eq!(listing(&over), b"bsmlist\t1\nX\t3\t0\t0\n");
}
