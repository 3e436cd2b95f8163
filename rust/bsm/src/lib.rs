//! Reads, writes and lists BSM audit trails: a safe face, without `std` and
//! without allocation, on a library that is proved to answer as paper 01
//! says. Every call answers for every input.
//!
//! None panics with the archive that this version was written for. Should
//! another archive be linked and tell a number that is not known here, the
//! call panics and says so: an answer must not pass for another one.
//!
//! A trail is a run of items: file tokens and records. A record's body is a
//! run of tokens. What is not accepted is a [`Refusal`] with its [`Reason`].
//!
//! # Reading a trail
//!
//! ```
//! use bsm::{tokens, Item, Items, State, Token};
//!
//! fn paths(trail: &[u8]) -> Result<Vec<&[u8]>, bsm::Refusal> {
//!     let mut found = Vec::new();
//!     for item in Items::new(trail, State::default()) {
//!         if let (_, Item::Record { body, .. }) = item? {
//!             for token in tokens(body) {
//!                 if let Token::Path { text } = token? {
//!                     found.push(text);
//!                 }
//!             }
//!         }
//!     }
//!     Ok(found)
//! }
//!
//! let record = b"\x14\0\0\0\x21\x0b\0\x48\0\0\0\0\0\x01\0\0\0\x02\
//!     \x23\0\x05/etc\0\x13\xb1\x05\0\0\0\x21";
//! assert_eq!(paths(record)?, [b"/etc"]);
//! # Ok::<(), bsm::Refusal>(())
//! ```
//!
//! # A trail that is still being written
//!
//! A record that is half there is not damaged: it is short, and says how
//! many bytes it waits for. [`Reader`] holds no part of the trail, so the
//! trail may grow and be moved between two steps.
//!
//! ```
//! use bsm::{Reader, Step};
//!
//! /// Prints the items that are there, and says how long the trail must be
//! /// before it is worth asking again.
//! fn catch_up(reader: &mut Reader, trail: &[u8]) -> Result<usize, bsm::Refusal> {
//!     loop {
//!         match reader.next(trail) {
//!             Step::Item { place, item } => println!("{place}: {item:?}"),
//!             Step::End => return Ok(trail.len() + 1),
//!             Step::Short { place, need } => return Ok(place + need),
//!             Step::Refused(refusal) => return Err(refusal),
//!         }
//!     }
//! }
//!
//! let record = b"\x14\0\0\0\x19\x0b\0\x48\0\0\0\0\0\x01\0\0\0\x02\x13\xb1\x05\0\0\0\x19";
//! let mut trail = [&record[..], &record[..7]].concat();
//! let mut reader = Reader::new();
//! assert_eq!(catch_up(&mut reader, &trail)?, 50);
//! assert_eq!(reader.state().records, 1);
//!
//! trail.extend(&record[7..]);
//! assert_eq!(catch_up(&mut reader, &trail)?, 51);
//! assert_eq!(reader.state().records, 2);
//! # Ok::<(), bsm::Refusal>(())
//! ```
//!
//! # The newest records first
//!
//! [`Newest`] walks from the trail's end back to its last file token, at the
//! cost of the records it hands out, however long the trail is.
//!
//! # A record by its number
//!
//! [`Index`] keeps the places of records 0, 64, 128 and so on in a table that
//! it is lent, also while the trail grows. Each record up to where it has read
//! is then found by reading at most 64, however many stand before it.
//!
//! ```
//! use bsm::{Index, Item};
//!
//! # let record = b"\x14\0\0\0\x19\x0b\0\x48\0\0\0\0\0\x01\0\0\0\x02\x13\xb1\x05\0\0\0\x19";
//! # let trail = record.repeat(200);
//! // `trail` has 200 records of 25 bytes.
//! let mut index = Index::new([0; 4]);
//! assert_eq!(index.read(&trail).run.refusal, None);
//! assert_eq!(index.table(), [0, 1_600, 3_200, 4_800]);
//!
//! let found = index.find(&trail, 150)?;
//! assert!(matches!(found, Some((3_750, Item::Record { .. }))));
//! assert_eq!(index.find(&trail, 200)?, None);
//! # Ok::<(), bsm::Refusal>(())
//! ```
//!
//! # Writing
//!
//! ```
//! use bsm::{item_at, tokens, write_record, write_token};
//! use bsm::{Header, HeaderKind, Item, NewToken, Token};
//!
//! // Each token goes behind the one before.
//! let mut body = [0; 100];
//! let mut used = 0;
//! for token in [
//!     NewToken::Text { text: b"login" },
//!     NewToken::Return32 { error: 0, value: 1 },
//! ] {
//!     used += write_token(&mut body[used..], &token)?;
//! }
//! let mut header = Header::new(HeaderKind::Header64);
//! header.version = 11;
//! header.event = 6152;
//! header.seconds = 1_700_000_000;
//! header.nanoseconds = 999_999_999;
//! let mut trail = [0; 200];
//! let size = write_record(&mut trail, &header, &body[..used])?;
//!
//! let Some(Item::Record { header: read, body, .. }) = item_at(&trail[..size], 0)? else {
//!     panic!("no record");
//! };
//! assert_eq!(read, header);
//! assert_eq!(tokens(body).next(), Some(Ok(Token::Text { text: b"login" })));
//! # Ok::<(), bsm::Refusal>(())
//! ```

#![no_std]
#![warn(missing_docs)]

#[cfg(not(target_pointer_width = "64"))]
compile_error!("the archive of the proved library is for 64-bit machines");

mod address;
mod back;
mod index;
mod item;
mod listing;
mod parts;
mod reader;
mod refusal;
mod state;
#[doc(hidden)]
pub mod sys;
mod token;
mod token_read;
mod unfit;
mod write;

pub use back::{record_before, Before, Newest};
pub use index::{fill_index, find_record, Filled, Index, RECORDS_PER_ENTRY};
pub use item::{address_at, body_at, item_at, name_at, Header, HeaderKind, Item};
pub use listing::{first_line, item_line, last_line, list, Cursor, Listed, LINE_MAX};
pub use parts::{Groups, Strings};
pub use reader::{Items, Reader};
pub use refusal::{Reason, Refusal};
pub use state::{next, run, Run, State, Step};
pub use token::{IpHeader, IpcPerm, NewToken, Party, Token};
pub use token_read::{text_at, token_address_at, token_at, tokens, walk_body, TokenAt, Tokens};
pub use write::{write_file, write_record, write_record_ex, write_token};
