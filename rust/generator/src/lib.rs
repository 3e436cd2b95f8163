//! Seeded inputs for readers and writers of BSM audit trails: good ones,
//! damaged ones, ones aimed at a refusal number, and large ones for timing.
//! The same seed gives the same inputs on every machine. The stored inputs of
//! the program bsmlist are made here too.
//!
//! Good bytes are made with the writers of the crate `reference`; what is
//! damaged is found with the layouts written down here once more.

#![forbid(unsafe_code)]
#![warn(missing_docs)]

mod calls;
mod damage;
mod endings;
mod expanded;
mod good;
mod header_args;
mod input;
mod layout;
mod many;
mod page;
mod rng;
mod spoilt;
mod stored;
mod subjects;
mod targeted;
mod texts;
mod token_args;
mod values;
mod versions;
mod workload;

pub use calls::{write_calls, WriteArgs, WriteCall};
pub use damage::{damage, damage_body};
pub use endings::{ending_at, file_like_trailer, with_ending, Ending, ENDINGS};
pub use expanded::{address_fault, body_address_fault, call_address_fault, given_address};
pub use expanded::{with_address_fault, AddressFault};
pub use expanded::{ADDRESS_FAULTS, BODY_ADDRESS_FAULTS, CALL_ADDRESS_FAULTS};
pub use good::{good_body, good_file, good_header, good_record, good_token, good_trail, token_of};
pub use header_args::HeaderArgs;
pub use input::{any_body, any_input, growth, program_input, random_trail, wild_place, wild_state};
pub use layout::{head_size, header_size, raw_file, raw_record};
pub use layout::{EXPANDED_NUMBERS, HEADER_NUMBERS, TEXT_NUMBERS, TOKEN_NUMBERS};
pub use layout::{PROCESS_NUMBERS, SUBJECT_NUMBERS};
pub use many::{indexed_trail, many, many_records, small_record};
pub use many::{wild_count, wild_number, wild_table};
pub use page::{page_fields, page_found, page_record};
pub use rng::Rng;
pub use spoilt::{spoilt_body, spoilt_call, spoilt_item, spoilt_token, Spoilt};
pub use spoilt::{READ_WAYS, SPOILT_BODIES, SPOILT_CALLS, SPOILT_ITEMS};
pub use stored::{stored_files, StoredFile};
pub use subjects::{body_subjects, call_subjects, item_subjects, token_by_token};
pub use subjects::{two_subjects, Second, SECONDS, SUBJECT_PAIRS};
pub use targeted::{many_faults, refused_item, targeted, READ_REFUSALS};
pub use token_args::{good_args, TokenArgs};
pub use versions::{large_version, Beside, LARGE_VERSIONS};
pub use workload::{exec_records, large_exec, large_opaque, text_records};
pub use workload::{expanded_records, small_records, usual_records};
