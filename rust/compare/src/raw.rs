//! Calls as C makes them, for what the wrapper does not show: where an
//! address stands, and what is answered to one of any length.

use bsm::sys::*;
use generator::WriteArgs;
use reference::{Header, Party, Refusal, State, WriteToken};

/// Where a part stands in a buffer, or 0 and 0.
pub fn raw_part(bytes: &[u8], part: Option<&[u8]>) -> bsm_part {
    part.map_or_else(bsm_part::default, |part| bsm_part {
        start: (part.as_ptr() as usize - bytes.as_ptr() as usize) as u64,
        length: part.len() as u64,
    })
}

/// What a writer or a walk answers.
pub fn raw_written(answer: Result<usize, Refusal>) -> bsm_written {
    match answer {
        Ok(written) => bsm_written {
            written: written as u64,
            ..bsm_written::default()
        },
        Err(refusal) => bsm_written {
            written: 0,
            number: refusal.number.into(),
            place: refusal.place as u64,
            need: refusal.need as u64,
        },
    }
}

/// Where the address of the record at a place stands: by the access to it,
/// and by the item.
pub fn raw_addresses(trail: &[u8], place: usize) -> [bsm_part; 2] {
    let (bytes, length) = (trail.as_ptr(), trail.len());
    // SAFETY: the pointer and the length are those of `trail`.
    let (told, item) = unsafe {
        (
            bsm_address_at(bytes, length, place),
            bsm_item_at(bytes, length, place),
        )
    };
    [told, address_in(&item)]
}

/// Where the address of the record stands that a step from a state finds.
pub fn raw_address_next(trail: &[u8], state: State) -> bsm_part {
    let (bytes, length) = (trail.as_ptr(), trail.len());
    // SAFETY: the pointer and the length are those of `trail`.
    let step = unsafe { bsm_next(bytes, length, state.place, state.records, state.files) };
    address_in(&step.item)
}

/// Where the address of the record that ends at a place stands.
pub fn raw_address_before(trail: &[u8], place: usize) -> bsm_part {
    // SAFETY: the pointer and the length are those of `trail`.
    let before = unsafe { bsm_record_before(trail.as_ptr(), trail.len(), place) };
    address_in(&before.item)
}

fn address_in(item: &bsm_item) -> bsm_part {
    bsm_part {
        start: item.address_start,
        length: item.address_length,
    }
}

/// The token at a place of a body.
pub fn raw_token_at(body: &[u8], place: usize) -> bsm_token {
    // SAFETY: the pointer and the length are those of `body`.
    unsafe { bsm_token_at(body.as_ptr(), body.len(), place) }
}

/// Calls the writer of an expanded token, or of a record with an expanded
/// header, whatever the length of its address; nothing for other arguments.
pub fn raw_write(args: &WriteArgs, dst: &mut [u8]) -> Option<bsm_written> {
    match args {
        WriteArgs::Token(args) => raw_write_token(&args.token(), dst),
        WriteArgs::File { .. } => None,
        WriteArgs::Record { header, body } => {
            let writer = match header.fields.number {
                0x15 => bsm_write_record32_ex,
                0x79 => bsm_write_record64_ex,
                _ => return None,
            };
            Some(record(writer, dst, header.header(), body))
        }
    }
}

fn raw_write_token(token: &WriteToken<'_>, dst: &mut [u8]) -> Option<bsm_written> {
    Some(match *token {
        WriteToken::Subject32Ex(fields) => party(bsm_write_subject32_ex, dst, fields),
        WriteToken::Process32Ex(fields) => party(bsm_write_process32_ex, dst, fields),
        WriteToken::Subject64Ex(fields) => party(bsm_write_subject64_ex, dst, fields),
        WriteToken::Process64Ex(fields) => party(bsm_write_process64_ex, dst, fields),
        // SAFETY: pointers and lengths are those of two slices, of which
        // `dst` is borrowed alone.
        WriteToken::InAddrEx { address } => unsafe {
            bsm_write_in_addr_ex(dst.as_mut_ptr(), dst.len(), address.as_ptr(), address.len())
        },
        _ => return None,
    })
}

type RecordWriter = unsafe extern "C" fn(
    *mut u8,
    usize,
    u16,
    u16,
    u16,
    u64,
    u64,
    *const u8,
    usize,
    *const u8,
    usize,
) -> bsm_written;

fn record(writer: RecordWriter, dst: &mut [u8], header: Header<'_>, body: &[u8]) -> bsm_written {
    // SAFETY: as above.
    unsafe {
        writer(
            dst.as_mut_ptr(),
            dst.len(),
            header.version,
            header.event,
            header.modifier,
            header.seconds,
            header.nanoseconds,
            header.address.as_ptr(),
            header.address.len(),
            body.as_ptr(),
            body.len(),
        )
    }
}

type PartyWriter<P> = unsafe extern "C" fn(
    *mut u8,
    usize,
    u32,
    u32,
    u32,
    u32,
    u32,
    u32,
    u32,
    P,
    *const u8,
    usize,
) -> bsm_written;

fn party<P>(writer: PartyWriter<P>, dst: &mut [u8], party: Party<P, &[u8]>) -> bsm_written {
    // SAFETY: as above.
    unsafe {
        writer(
            dst.as_mut_ptr(),
            dst.len(),
            party.audit,
            party.effective_user,
            party.effective_group,
            party.real_user,
            party.real_group,
            party.process,
            party.session,
            party.port,
            party.address.as_ptr(),
            party.address.len(),
        )
    }
}
