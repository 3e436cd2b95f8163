//! Compares the proved library, called through the crate `bsm`, with the
//! crate `reference`. Here are the comparisons; the tests and the soak feed
//! them.
//!
//! One input is one set of arguments: bytes with a place or a state, or what
//! is to be written with the room lent for it. It is counted once, however
//! many functions it is given to.

#![warn(missing_docs)]

mod back;
mod expect;
mod growing;
mod growing_index;
mod index;
mod lines;
mod raw;
mod raw_item;
mod reading;
mod shares;
pub mod soak;
mod tally;
mod tokens;
mod writing;

pub use back::{same_around, same_before, same_newest};
pub use expect::{address, address_of_item, address_of_token, part_of_item, part_of_token};
pub use expect::{header, item, new_token, refusal, run, state, token, REASONS};
pub use growing::Growing;
pub use growing_index::GrowingIndex;
pub use index::{same_fill, same_find, same_without, Indexed, INDEXED, UNFILLED};
pub use lines::{same_lines, same_parts};
pub use raw::{raw_address_before, raw_address_next, raw_addresses, raw_part};
pub use raw::{raw_token_at, raw_write, raw_written};
pub use raw_item::{raw_filled, raw_found, raw_item, raw_outcome};
pub use reading::{same_item, same_items, same_run, same_step, show};
pub use shares::*;
pub use tally::{Tally, EXPANDED_HEADERS, READ_FAULTS};
pub use tokens::{same_body, same_token};
pub use writing::{same_write, Watched};
