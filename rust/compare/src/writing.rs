//! Writing on both sides, into watched buffers.

use crate::expect;
use crate::raw::{raw_write, raw_written};
use crate::tally::Tally;
use bsm::{Item, TokenAt};
use generator::{given_address, Rng, WriteArgs};
use reference::Refusal;

/// A destination inside a larger buffer of random bytes.
#[derive(Clone, Debug)]
pub struct Watched {
    before: Vec<u8>,
    bytes: Vec<u8>,
    start: usize,
    room: usize,
}

impl Watched {
    /// A destination of `room` bytes.
    pub fn new(rng: &mut Rng, room: usize) -> Self {
        let start = rng.between(8, 40);
        let behind = rng.between(8, 40);
        let bytes = rng.bytes(start + room + behind);
        Watched {
            before: bytes.clone(),
            bytes,
            start,
            room,
        }
    }

    /// The destination.
    pub fn dst(&mut self) -> &mut [u8] {
        &mut self.bytes[self.start..self.start + self.room]
    }

    /// Asserts that nothing changed but the first `written` bytes of the
    /// destination, and gives those.
    pub fn written(&self, written: usize) -> &[u8] {
        assert!(written <= self.room);
        let end = self.start + written;
        assert!(self.bytes[..self.start] == self.before[..self.start]);
        assert!(self.bytes[end..] == self.before[end..]);
        &self.bytes[self.start..end]
    }
}

/// Calls the writer of the proved library. An address has 4 or 16 bytes, or
/// none in the header of a record.
fn write(args: &WriteArgs, dst: &mut [u8]) -> Result<usize, bsm::Refusal> {
    match args {
        WriteArgs::Token(args) => bsm::write_token(dst, &expect::new_token(args.token())),
        WriteArgs::File {
            seconds,
            microseconds,
            name,
        } => bsm::write_file(dst, *seconds, *microseconds, name),
        WriteArgs::Record { header, body } => {
            let fields = expect::header(header.header());
            match &header.address[..] {
                [] => bsm::write_record(dst, &fields, body),
                address => bsm::write_record_ex(dst, &fields, expect::address(address), body),
            }
        }
    }
}

/// Compares a write into a destination of `room` bytes: the answer, every
/// byte of the buffer around it, and what reading back gives. Arguments with
/// an address are also given to the writer as C does, and only so if the
/// wrapper cannot be given one of its length. The reference's answer is handed
/// back.
pub fn same_write(
    tally: &mut Tally,
    rng: &mut Rng,
    args: &WriteArgs,
    room: usize,
) -> Result<usize, Refusal> {
    tally.input();
    let mut watched = Watched::new(rng, room);
    let mut plain = watched.clone();
    let expected = args.write(plain.dst());
    let bytes = plain.written(expected.unwrap_or(0));
    tally.write_answer(args, room, expected.err());
    if let WriteArgs::Token(args) = args {
        tally.kind(args.fields.number());
    }

    if let Some((number, address)) = given_address(args) {
        tally.address(number, address.len());
        let mut watched = watched.clone();
        let found = raw_write(args, watched.dst());
        assert_eq!(found, Some(raw_written(expected)), "{args:?} into {room}");
        assert!(
            watched.written(bytes.len()) == bytes,
            "{args:?} into {room}"
        );
        let is_record = matches!(args, WriteArgs::Record { .. });
        if !matches!((address.len(), is_record), (4 | 16, _) | (0, true)) {
            return expected;
        }
    }
    let found = write(args, watched.dst());
    assert_eq!(
        found,
        expected.map_err(expect::refusal),
        "{args:?} into {room}"
    );
    assert!(
        watched.written(bytes.len()) == bytes,
        "{args:?} into {room}"
    );
    if found.is_ok() {
        assert_eq!(bytes.len(), args.size());
        same_back(args, bytes);
    }
    expected
}

/// Asserts that written bytes read back as what was given.
fn same_back(args: &WriteArgs, written: &[u8]) {
    let size = written.len();
    match args {
        WriteArgs::Token(args) => {
            let read = bsm::token_at(written, 0);
            let Ok(Some(TokenAt { token, size: read })) = read else {
                panic!("{args:?} reads back as {read:?}");
            };
            assert_eq!(read, size);
            let given = expect::new_token(args.token());
            let address = bsm::token_address_at(written, 0);
            let read = token.map(|groups| groups.into_iter().collect(), |()| address);
            assert_eq!(read, given.map(<[u32]>::to_vec, Some));
        }
        WriteArgs::File {
            seconds,
            microseconds,
            name,
        } => {
            let given = Item::File {
                size,
                seconds: *seconds,
                microseconds: *microseconds,
                name,
            };
            assert_eq!(bsm::item_at(written, 0), Ok(Some(given)));
        }
        WriteArgs::Record { header, body } => {
            let Ok(tokens) = bsm::walk_body(body) else {
                panic!("{args:?} was written");
            };
            let given = Item::Record {
                size,
                header: expect::header(header.header()),
                body,
                tokens,
            };
            assert_eq!(bsm::item_at(written, 0), Ok(Some(given)));
            let address = Some(&header.address[..]).filter(|address| !address.is_empty());
            assert_eq!(bsm::address_at(written, 0), address.map(expect::address));
        }
    }
}
