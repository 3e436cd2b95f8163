//! Token numbers, sizes and bounds (paper 01, 'Layouts'; paper 02, P5).

pub(crate) const FILE: u8 = 0x11;
pub(crate) const TRAILER: u8 = 0x13;
pub(crate) const HEADER32: u8 = 0x14;
pub(crate) const HEADER32_EX: u8 = 0x15;
pub(crate) const HEADER64: u8 = 0x74;
pub(crate) const HEADER64_EX: u8 = 0x79;

pub(crate) const PATH: u8 = 0x23;
pub(crate) const SUBJECT32: u8 = 0x24;
pub(crate) const PROCESS32: u8 = 0x26;
pub(crate) const RETURN32: u8 = 0x27;
pub(crate) const TEXT: u8 = 0x28;
pub(crate) const OPAQUE: u8 = 0x29;
pub(crate) const IN_ADDR: u8 = 0x2A;
pub(crate) const IP: u8 = 0x2B;
pub(crate) const IPORT: u8 = 0x2C;
pub(crate) const ARG32: u8 = 0x2D;
pub(crate) const SEQ: u8 = 0x2F;
pub(crate) const IPC_PERM: u8 = 0x32;
pub(crate) const NEWGROUPS: u8 = 0x3B;
pub(crate) const EXEC_ARGS: u8 = 0x3C;
pub(crate) const EXEC_ENV: u8 = 0x3D;
pub(crate) const EXIT: u8 = 0x52;
pub(crate) const ARG64: u8 = 0x71;
pub(crate) const RETURN64: u8 = 0x72;
pub(crate) const SUBJECT64: u8 = 0x75;
pub(crate) const PROCESS64: u8 = 0x77;
pub(crate) const SUBJECT32_EX: u8 = 0x7A;
pub(crate) const PROCESS32_EX: u8 = 0x7B;
pub(crate) const SUBJECT64_EX: u8 = 0x7C;
pub(crate) const PROCESS64_EX: u8 = 0x7D;
pub(crate) const IN_ADDR_EX: u8 = 0x7E;

/// Size of a file token without its name.
pub(crate) const FILE_FIXED: usize = 11;
/// Size of a header's fields up to the modifier.
pub(crate) const KINDS_SIZE: usize = 10;
/// Size of an address's type.
pub(crate) const TYPE_SIZE: usize = 4;
/// Size of the smaller address.
pub(crate) const IPV4_SIZE: usize = 4;
/// Size of the larger address.
pub(crate) const IPV6_SIZE: usize = 16;
/// Size of both times of a header with 4 bytes for each.
pub(crate) const TIMES32_SIZE: usize = 8;
/// Size of both times of a header with 8 bytes for each.
pub(crate) const TIMES64_SIZE: usize = 16;
/// Size of the trailer.
pub(crate) const TRAILER_SIZE: usize = 7;
/// Largest size of a record.
pub(crate) const RECORD_MAX: usize = 65_535;
/// Largest size of a file name, zero byte included.
pub(crate) const NAME_MAX: usize = 1_024;
/// Largest microseconds of a file token.
pub(crate) const MICROS_MAX: u32 = 999_999;
/// Largest nanoseconds of a header.
pub(crate) const NANOS_MAX: u64 = 999_999_999;

/// The trailer of a record of `count` bytes.
#[inline]
pub(crate) const fn trailer(count: u32) -> [u8; TRAILER_SIZE] {
    let [a, b, c, d] = count.to_be_bytes();
    [TRAILER, 0xB1, 0x05, a, b, c, d]
}
