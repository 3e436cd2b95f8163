//! The twenty-five body tokens, as read and as given to the writer
//! (paper 01, 'Layouts'; paper 02, P5).

use crate::layout::*;

/// Who acts (subject) or is acted on (process). `P` holds the port, `u32` or
/// `u64`, and `A` the address: `u32`, or bytes in an expanded token.
#[derive(Clone, Copy, Debug, PartialEq, Eq)]
pub struct Party<P, A = u32> {
    /// Audit user.
    pub audit: u32,
    /// Effective user.
    pub effective_user: u32,
    /// Effective group.
    pub effective_group: u32,
    /// Real user.
    pub real_user: u32,
    /// Real group.
    pub real_group: u32,
    /// Process.
    pub process: u32,
    /// Audit session.
    pub session: u32,
    /// Terminal port.
    pub port: P,
    /// Terminal machine address.
    pub address: A,
}

/// The fields of an ip token.
#[derive(Clone, Copy, Debug, PartialEq, Eq)]
pub struct IpHeader {
    /// Version and header length.
    pub version: u8,
    /// Type of service.
    pub service: u8,
    /// Packet length.
    pub length: u16,
    /// Identification.
    pub id: u16,
    /// Fragment offset and flags.
    pub offset: u16,
    /// Time to live.
    pub ttl: u8,
    /// Protocol.
    pub protocol: u8,
    /// Checksum.
    pub checksum: u16,
    /// Source address.
    pub source: u32,
    /// Destination address.
    pub destination: u32,
}

/// The fields of an ipc_perm token.
#[derive(Clone, Copy, Debug, PartialEq, Eq)]
pub struct IpcPerm {
    /// Owner's user.
    pub owner_user: u32,
    /// Owner's group.
    pub owner_group: u32,
    /// Creator's user.
    pub creator_user: u32,
    /// Creator's group.
    pub creator_group: u32,
    /// Access mode.
    pub mode: u32,
    /// Sequence number.
    pub sequence: u32,
    /// Key.
    pub key: u32,
}

/// Declares a token enum; the two differ only in how groups are held.
macro_rules! token_enum {
    ($(#[$about:meta])* $name:ident, $groups:ty) => {
        $(#[$about])*
        #[derive(Clone, Copy, Debug, PartialEq, Eq)]
        pub enum $name<'a> {
            /// 23, path.
            Path {
                /// The path without its zero byte.
                text: &'a [u8],
            },
            /// 28, text.
            Text {
                /// The text without its zero byte.
                text: &'a [u8],
            },
            /// 29, opaque.
            Opaque {
                /// Bytes of any kind.
                bytes: &'a [u8],
            },
            /// 24, subject32.
            Subject32(Party<u32>),
            /// 26, process32.
            Process32(Party<u32>),
            /// 75, subject64.
            Subject64(Party<u64>),
            /// 77, process64.
            Process64(Party<u64>),
            /// 7A, subject32_ex.
            Subject32Ex(Party<u32, &'a [u8]>),
            /// 7B, process32_ex.
            Process32Ex(Party<u32, &'a [u8]>),
            /// 7C, subject64_ex.
            Subject64Ex(Party<u64, &'a [u8]>),
            /// 7D, process64_ex.
            Process64Ex(Party<u64, &'a [u8]>),
            /// 27, return32.
            Return32 {
                /// Error.
                error: u8,
                /// Value.
                value: u32,
            },
            /// 72, return64.
            Return64 {
                /// Error.
                error: u8,
                /// Value.
                value: u64,
            },
            /// 2A, in_addr.
            InAddr {
                /// Address.
                address: u32,
            },
            /// 7E, in_addr_ex.
            InAddrEx {
                /// Address; one that was read has 4 or 16 bytes.
                address: &'a [u8],
            },
            /// 2B, ip.
            Ip(IpHeader),
            /// 2C, iport.
            Iport {
                /// Port.
                port: u16,
            },
            /// 2D, arg32.
            Arg32 {
                /// Which argument.
                argument: u8,
                /// Value.
                value: u32,
                /// The text without its zero byte.
                text: &'a [u8],
            },
            /// 71, arg64.
            Arg64 {
                /// Which argument.
                argument: u8,
                /// Value.
                value: u64,
                /// The text without its zero byte.
                text: &'a [u8],
            },
            /// 2F, seq.
            Seq {
                /// Sequence number.
                sequence: u32,
            },
            /// 32, ipc_perm.
            IpcPerm(IpcPerm),
            /// 3B, newgroups.
            NewGroups {
                /// The groups.
                groups: $groups,
            },
            /// 3C, exec_args.
            ExecArgs {
                /// How many strings.
                count: u32,
                /// The strings, each with its zero byte.
                strings: &'a [u8],
            },
            /// 3D, exec_env.
            ExecEnv {
                /// How many strings.
                count: u32,
                /// The strings, each with its zero byte.
                strings: &'a [u8],
            },
            /// 52, exit.
            Exit {
                /// Status.
                status: u32,
                /// Value.
                value: u32,
            },
        }

        impl $name<'_> {
            /// The token number.
            pub fn number(&self) -> u8 {
                match self {
                    Self::Path { .. } => PATH,
                    Self::Text { .. } => TEXT,
                    Self::Opaque { .. } => OPAQUE,
                    Self::Subject32(_) => SUBJECT32,
                    Self::Process32(_) => PROCESS32,
                    Self::Subject64(_) => SUBJECT64,
                    Self::Process64(_) => PROCESS64,
                    Self::Subject32Ex(_) => SUBJECT32_EX,
                    Self::Process32Ex(_) => PROCESS32_EX,
                    Self::Subject64Ex(_) => SUBJECT64_EX,
                    Self::Process64Ex(_) => PROCESS64_EX,
                    Self::Return32 { .. } => RETURN32,
                    Self::Return64 { .. } => RETURN64,
                    Self::InAddr { .. } => IN_ADDR,
                    Self::InAddrEx { .. } => IN_ADDR_EX,
                    Self::Ip(_) => IP,
                    Self::Iport { .. } => IPORT,
                    Self::Arg32 { .. } => ARG32,
                    Self::Arg64 { .. } => ARG64,
                    Self::Seq { .. } => SEQ,
                    Self::IpcPerm(_) => IPC_PERM,
                    Self::NewGroups { .. } => NEWGROUPS,
                    Self::ExecArgs { .. } => EXEC_ARGS,
                    Self::ExecEnv { .. } => EXEC_ENV,
                    Self::Exit { .. } => EXIT,
                }
            }
        }
    };
}

token_enum! {
    /// A body token as read; groups are the raw bytes, four for each.
    Token, &'a [u8]
}

token_enum! {
    /// A body token to be written; groups are given as numbers.
    WriteToken, &'a [u32]
}
