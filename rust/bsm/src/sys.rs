//! The functions of `include/bsm.h` as C sees them. Every one answers for
//! any numbers and any lent parts; a pointer may be null where the length
//! behind it is 0.

#![allow(non_camel_case_types, missing_docs)]

pub const BSM_END: u64 = 0;
pub const BSM_FILE: u64 = 1;
pub const BSM_RECORD: u64 = 2;
pub const BSM_REFUSED: u64 = 3;
pub const BSM_BOUNDARY: u64 = 4;

pub const BSM_NO_TOKEN: u64 = 0;
pub const BSM_TOKEN: u64 = 1;
pub const BSM_TOKEN_REFUSED: u64 = 3;

pub const BSM_LIST_FIRST: u64 = 0;
pub const BSM_LIST_AT: u64 = 1;
pub const BSM_LIST_DONE: u64 = 2;

pub const BSM_LINE_MAX: usize = 149;

#[repr(C)]
#[derive(Clone, Copy, Debug, Default, PartialEq, Eq)]
pub struct bsm_item {
    pub kind: u64,
    pub size: u64,
    pub header: u64,
    pub version: u64,
    pub event: u64,
    pub modifier: u64,
    pub seconds: u64,
    pub fraction: u64,
    pub tokens: u64,
    pub start: u64,
    pub length: u64,
    pub address_start: u64,
    pub address_length: u64,
    pub number: u64,
    pub place: u64,
    pub need: u64,
}

#[repr(C)]
#[derive(Clone, Copy, Debug, Default, PartialEq, Eq)]
pub struct bsm_part {
    pub start: u64,
    pub length: u64,
}

#[repr(C)]
#[derive(Clone, Copy, Debug, Default, PartialEq, Eq)]
pub struct bsm_step {
    pub item: bsm_item,
    pub place: u64,
    pub records: u64,
    pub files: u64,
}

#[repr(C)]
#[derive(Clone, Copy, Debug, Default, PartialEq, Eq)]
pub struct bsm_outcome {
    pub place: u64,
    pub records: u64,
    pub files: u64,
    pub number: u64,
    pub at: u64,
    pub need: u64,
}

#[repr(C)]
#[derive(Clone, Copy, Debug, Default, PartialEq, Eq)]
pub struct bsm_before {
    pub item: bsm_item,
    pub place: u64,
}

#[repr(C)]
#[derive(Clone, Copy, Debug, Default, PartialEq, Eq)]
pub struct bsm_filled {
    pub run: bsm_outcome,
    pub count: u64,
}

#[repr(C)]
#[derive(Clone, Copy, Debug, Default, PartialEq, Eq)]
pub struct bsm_found {
    pub item: bsm_item,
    pub place: u64,
}

#[repr(C)]
#[derive(Clone, Copy, Debug, Default, PartialEq, Eq)]
pub struct bsm_token {
    pub kind: u64,
    pub token: u64,
    pub start: u64,
    pub length: u64,
    pub size: u64,
    pub count: u64,
    pub values: [u64; 10],
    pub number: u64,
    pub place: u64,
    pub need: u64,
}

#[repr(C)]
#[derive(Clone, Copy, Debug, Default, PartialEq, Eq)]
pub struct bsm_written {
    pub written: u64,
    pub number: u64,
    pub place: u64,
    pub need: u64,
}

#[repr(C)]
#[derive(Clone, Copy, Debug, Default, PartialEq, Eq)]
pub struct bsm_listing {
    pub stage: u64,
    pub place: u64,
    pub records: u64,
    pub files: u64,
    pub written: u64,
}

extern "C" {
    pub fn bsm_item_at(trail: *const u8, length: usize, place: usize) -> bsm_item;
    pub fn bsm_body_at(trail: *const u8, length: usize, place: usize) -> bsm_part;
    pub fn bsm_name_at(trail: *const u8, length: usize, place: usize) -> bsm_part;
    pub fn bsm_address_at(trail: *const u8, length: usize, place: usize) -> bsm_part;
    pub fn bsm_next(
        trail: *const u8,
        length: usize,
        place: usize,
        records: usize,
        files: usize,
    ) -> bsm_step;
    pub fn bsm_run(
        trail: *const u8,
        length: usize,
        place: usize,
        records: usize,
        files: usize,
    ) -> bsm_outcome;

    pub fn bsm_record_before(trail: *const u8, length: usize, place: usize) -> bsm_before;

    pub fn bsm_fill_index(
        trail: *const u8,
        length: usize,
        place: usize,
        records: usize,
        files: usize,
        table: *mut u64,
        entries: usize,
    ) -> bsm_filled;
    pub fn bsm_find_record(
        trail: *const u8,
        length: usize,
        table: *const u64,
        entries: usize,
        count: usize,
        n: usize,
    ) -> bsm_found;

    pub fn bsm_token_at(body: *const u8, length: usize, place: usize) -> bsm_token;
    pub fn bsm_text_at(body: *const u8, length: usize, place: usize) -> bsm_part;
    pub fn bsm_walk_body(body: *const u8, length: usize) -> bsm_written;

    pub fn bsm_write_path(dst: *mut u8, room: usize, text: *const u8, length: usize)
        -> bsm_written;
    pub fn bsm_write_text(dst: *mut u8, room: usize, text: *const u8, length: usize)
        -> bsm_written;
    pub fn bsm_write_opaque(
        dst: *mut u8,
        room: usize,
        bytes: *const u8,
        length: usize,
    ) -> bsm_written;
    pub fn bsm_write_subject32(
        dst: *mut u8,
        room: usize,
        audit: u32,
        effective_user: u32,
        effective_group: u32,
        real_user: u32,
        real_group: u32,
        process: u32,
        session: u32,
        port: u32,
        address: u32,
    ) -> bsm_written;
    pub fn bsm_write_process32(
        dst: *mut u8,
        room: usize,
        audit: u32,
        effective_user: u32,
        effective_group: u32,
        real_user: u32,
        real_group: u32,
        process: u32,
        session: u32,
        port: u32,
        address: u32,
    ) -> bsm_written;
    pub fn bsm_write_subject64(
        dst: *mut u8,
        room: usize,
        audit: u32,
        effective_user: u32,
        effective_group: u32,
        real_user: u32,
        real_group: u32,
        process: u32,
        session: u32,
        port: u64,
        address: u32,
    ) -> bsm_written;
    pub fn bsm_write_process64(
        dst: *mut u8,
        room: usize,
        audit: u32,
        effective_user: u32,
        effective_group: u32,
        real_user: u32,
        real_group: u32,
        process: u32,
        session: u32,
        port: u64,
        address: u32,
    ) -> bsm_written;
    pub fn bsm_write_subject32_ex(
        dst: *mut u8,
        room: usize,
        audit: u32,
        effective_user: u32,
        effective_group: u32,
        real_user: u32,
        real_group: u32,
        process: u32,
        session: u32,
        port: u32,
        address: *const u8,
        length: usize,
    ) -> bsm_written;
    pub fn bsm_write_process32_ex(
        dst: *mut u8,
        room: usize,
        audit: u32,
        effective_user: u32,
        effective_group: u32,
        real_user: u32,
        real_group: u32,
        process: u32,
        session: u32,
        port: u32,
        address: *const u8,
        length: usize,
    ) -> bsm_written;
    pub fn bsm_write_subject64_ex(
        dst: *mut u8,
        room: usize,
        audit: u32,
        effective_user: u32,
        effective_group: u32,
        real_user: u32,
        real_group: u32,
        process: u32,
        session: u32,
        port: u64,
        address: *const u8,
        length: usize,
    ) -> bsm_written;
    pub fn bsm_write_process64_ex(
        dst: *mut u8,
        room: usize,
        audit: u32,
        effective_user: u32,
        effective_group: u32,
        real_user: u32,
        real_group: u32,
        process: u32,
        session: u32,
        port: u64,
        address: *const u8,
        length: usize,
    ) -> bsm_written;
    pub fn bsm_write_return32(dst: *mut u8, room: usize, error: u8, value: u32) -> bsm_written;
    pub fn bsm_write_return64(dst: *mut u8, room: usize, error: u8, value: u64) -> bsm_written;
    pub fn bsm_write_in_addr(dst: *mut u8, room: usize, address: u32) -> bsm_written;
    pub fn bsm_write_in_addr_ex(
        dst: *mut u8,
        room: usize,
        address: *const u8,
        length: usize,
    ) -> bsm_written;
    pub fn bsm_write_ip(
        dst: *mut u8,
        room: usize,
        version: u8,
        service: u8,
        length: u16,
        id: u16,
        offset: u16,
        ttl: u8,
        protocol: u8,
        checksum: u16,
        source: u32,
        destination: u32,
    ) -> bsm_written;
    pub fn bsm_write_iport(dst: *mut u8, room: usize, port: u16) -> bsm_written;
    pub fn bsm_write_arg32(
        dst: *mut u8,
        room: usize,
        argument: u8,
        value: u32,
        text: *const u8,
        length: usize,
    ) -> bsm_written;
    pub fn bsm_write_arg64(
        dst: *mut u8,
        room: usize,
        argument: u8,
        value: u64,
        text: *const u8,
        length: usize,
    ) -> bsm_written;
    pub fn bsm_write_seq(dst: *mut u8, room: usize, sequence: u32) -> bsm_written;
    pub fn bsm_write_ipc_perm(
        dst: *mut u8,
        room: usize,
        user: u32,
        group: u32,
        creator_user: u32,
        creator_group: u32,
        mode: u32,
        sequence: u32,
        key: u32,
    ) -> bsm_written;
    pub fn bsm_write_newgroups(
        dst: *mut u8,
        room: usize,
        groups: *const u32,
        count: usize,
    ) -> bsm_written;
    pub fn bsm_write_exec_args(
        dst: *mut u8,
        room: usize,
        count: u32,
        strings: *const u8,
        length: usize,
    ) -> bsm_written;
    pub fn bsm_write_exec_env(
        dst: *mut u8,
        room: usize,
        count: u32,
        strings: *const u8,
        length: usize,
    ) -> bsm_written;
    pub fn bsm_write_exit(dst: *mut u8, room: usize, status: u32, value: u32) -> bsm_written;
    pub fn bsm_write_file(
        dst: *mut u8,
        room: usize,
        seconds: u32,
        microseconds: u32,
        name: *const u8,
        length: usize,
    ) -> bsm_written;
    pub fn bsm_write_record32(
        dst: *mut u8,
        room: usize,
        version: u16,
        event: u16,
        modifier: u16,
        seconds: u64,
        nanoseconds: u64,
        body: *const u8,
        length: usize,
    ) -> bsm_written;
    pub fn bsm_write_record64(
        dst: *mut u8,
        room: usize,
        version: u16,
        event: u16,
        modifier: u16,
        seconds: u64,
        nanoseconds: u64,
        body: *const u8,
        length: usize,
    ) -> bsm_written;
    pub fn bsm_write_record32_ex(
        dst: *mut u8,
        room: usize,
        version: u16,
        event: u16,
        modifier: u16,
        seconds: u64,
        nanoseconds: u64,
        address: *const u8,
        address_length: usize,
        body: *const u8,
        length: usize,
    ) -> bsm_written;
    pub fn bsm_write_record64_ex(
        dst: *mut u8,
        room: usize,
        version: u16,
        event: u16,
        modifier: u16,
        seconds: u64,
        nanoseconds: u64,
        address: *const u8,
        address_length: usize,
        body: *const u8,
        length: usize,
    ) -> bsm_written;

    pub fn bsm_first_line(dst: *mut u8, room: usize) -> bsm_written;
    pub fn bsm_item_line(
        dst: *mut u8,
        room: usize,
        trail: *const u8,
        length: usize,
        place: usize,
    ) -> bsm_written;
    pub fn bsm_last_line(
        dst: *mut u8,
        room: usize,
        trail: *const u8,
        length: usize,
        place: usize,
        records: usize,
        files: usize,
    ) -> bsm_written;
    pub fn bsm_list(
        out: *mut u8,
        room: usize,
        trail: *const u8,
        length: usize,
        stage: u64,
        place: usize,
        records: usize,
        files: usize,
    ) -> bsm_listing;
}
