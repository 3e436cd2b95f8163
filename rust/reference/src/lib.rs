//! A second reader and writer of BSM audit trails, written from paper 01 and
//! the landed requests of paper 02 (P1 to P3, P5 to P7) alone. It is there to
//! be compared with another implementation, and to be its baseline for speed.
//!
//! Reading allocates nothing and hands back parts of the lent buffer. Every
//! call answers for every input; see [`Refusal`] for the numbers.

#![forbid(unsafe_code)]
#![warn(missing_docs)]

mod address;
mod back;
mod fields;
mod index;
mod item;
mod item_write;
mod layout;
mod listing;
mod refusal;
mod run;
mod scan;
mod token;
mod token_read;
mod token_write;

pub use back::{newest, record_before, Before};
pub use index::{fill, find, Filled, Found};
pub use item::{item_at, Answer, Header, Item};
pub use item_write::{write_file, write_record};
pub use listing::{first_line, item_line, last_line, listing, program_output};
pub use refusal::Refusal;
pub use run::{reading, run, Run, State};
pub use token::{IpHeader, IpcPerm, Party, Token, WriteToken};
pub use token_read::{text_at, token_at, walk_body, TokenAnswer};
pub use token_write::write_token;
