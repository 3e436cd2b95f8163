//! The twenty-five body tokens, as read and as given to the writer.

use crate::parts::{Groups, Strings};
use core::net::IpAddr;

/// Who acts (subject) or is acted on (process). `P` is the port's type,
/// `u32` or `u64`; `A` the address's, `u32`; in expanded tokens `()` where
/// one was read, whose address
/// [`token_address_at`](crate::token_address_at) tells, and [`IpAddr`] where
/// one is to be written.
#[derive(Clone, Copy, Debug, PartialEq, Eq, Hash)]
pub struct Party<P, A = u32> {
    /// Audit user.
    pub audit: u32,
    /// Effective user.
    pub effective_user: u32,
    /// Effective group.
    pub effective_group: u32,
    /// Real user.
    pub real_user: u32,
    /// Real group.
    pub real_group: u32,
    /// Process.
    pub process: u32,
    /// Audit session.
    pub session: u32,
    /// Terminal port.
    pub port: P,
    /// Terminal machine address.
    pub address: A,
}

impl<P, A> Party<P, A> {
    /// The same with its address held in another way.
    fn map_address<B>(self, held: impl FnOnce(A) -> B) -> Party<P, B> {
        Party {
            audit: self.audit,
            effective_user: self.effective_user,
            effective_group: self.effective_group,
            real_user: self.real_user,
            real_group: self.real_group,
            process: self.process,
            session: self.session,
            port: self.port,
            address: held(self.address),
        }
    }
}

/// The fields of an ip token.
#[derive(Clone, Copy, Debug, PartialEq, Eq, Hash)]
pub struct IpHeader {
    /// Version and header length.
    pub version: u8,
    /// Type of service.
    pub service: u8,
    /// Packet length.
    pub length: u16,
    /// Identification.
    pub id: u16,
    /// Fragment offset and flags.
    pub offset: u16,
    /// Time to live.
    pub ttl: u8,
    /// Protocol.
    pub protocol: u8,
    /// Checksum.
    pub checksum: u16,
    /// Source address.
    pub source: u32,
    /// Destination address.
    pub destination: u32,
}

/// The fields of an ipc_perm token.
#[derive(Clone, Copy, Debug, PartialEq, Eq, Hash)]
pub struct IpcPerm {
    /// Owner's user.
    pub user: u32,
    /// Owner's group.
    pub group: u32,
    /// Creator's user.
    pub creator_user: u32,
    /// Creator's group.
    pub creator_group: u32,
    /// Access mode.
    pub mode: u32,
    /// Sequence number.
    pub sequence: u32,
    /// Key.
    pub key: u32,
}

/// A body token. One that was read borrows its texts, bytes, groups and
/// strings from the body; one to be written is a [`NewToken`]. Later
/// versions may have more kinds.
///
/// The address of an expanded token that was read is not in it:
/// [`token_address_at`](crate::token_address_at) tells it. So tokens, which
/// each step of an iterator copies, are no larger than the other kinds need.
#[derive(Clone, Copy, Debug, PartialEq, Eq, Hash)]
#[non_exhaustive]
pub enum Token<'a, G = Groups<'a>, A = ()> {
    /// 23, path.
    Path {
        /// The path without its zero byte.
        text: &'a [u8],
    },
    /// 24, subject32.
    Subject32(Party<u32>),
    /// 26, process32.
    Process32(Party<u32>),
    /// 27, return32.
    Return32 {
        /// Error.
        error: u8,
        /// Value.
        value: u32,
    },
    /// 28, text.
    Text {
        /// The text without its zero byte.
        text: &'a [u8],
    },
    /// 29, opaque.
    Opaque {
        /// Bytes of any kind.
        bytes: &'a [u8],
    },
    /// 2A, in_addr.
    InAddr {
        /// Address.
        address: u32,
    },
    /// 2B, ip.
    Ip(IpHeader),
    /// 2C, iport.
    Iport {
        /// Port.
        port: u16,
    },
    /// 2D, arg32.
    Arg32 {
        /// Which argument.
        argument: u8,
        /// Value.
        value: u32,
        /// The text without its zero byte.
        text: &'a [u8],
    },
    /// 2F, seq.
    Seq {
        /// Sequence number.
        sequence: u32,
    },
    /// 32, ipc_perm.
    IpcPerm(IpcPerm),
    /// 3B, newgroups.
    NewGroups {
        /// The groups.
        groups: G,
    },
    /// 3C, exec_args.
    ExecArgs(Strings<'a>),
    /// 3D, exec_env.
    ExecEnv(Strings<'a>),
    /// 52, exit.
    Exit {
        /// Status.
        status: u32,
        /// Value.
        value: u32,
    },
    /// 71, arg64.
    Arg64 {
        /// Which argument.
        argument: u8,
        /// Value.
        value: u64,
        /// The text without its zero byte.
        text: &'a [u8],
    },
    /// 72, return64.
    Return64 {
        /// Error.
        error: u8,
        /// Value.
        value: u64,
    },
    /// 75, subject64.
    Subject64(Party<u64>),
    /// 77, process64.
    Process64(Party<u64>),
    /// 7A, subject32_ex.
    Subject32Ex(Party<u32, A>),
    /// 7B, process32_ex.
    Process32Ex(Party<u32, A>),
    /// 7C, subject64_ex.
    Subject64Ex(Party<u64, A>),
    /// 7D, process64_ex.
    Process64Ex(Party<u64, A>),
    /// 7E, in_addr_ex.
    InAddrEx {
        /// Address, as in [`Party`].
        address: A,
    },
}

/// A body token to be written; its groups are numbers, and its address is an
/// [`IpAddr`].
pub type NewToken<'a> = Token<'a, &'a [u32], IpAddr>;

impl<'a, G, A> Token<'a, G, A> {
    /// The token number.
    pub const fn number(&self) -> u8 {
        match self {
            Token::Path { .. } => 0x23,
            Token::Subject32(_) => 0x24,
            Token::Process32(_) => 0x26,
            Token::Return32 { .. } => 0x27,
            Token::Text { .. } => 0x28,
            Token::Opaque { .. } => 0x29,
            Token::InAddr { .. } => 0x2A,
            Token::Ip(_) => 0x2B,
            Token::Iport { .. } => 0x2C,
            Token::Arg32 { .. } => 0x2D,
            Token::Seq { .. } => 0x2F,
            Token::IpcPerm(_) => 0x32,
            Token::NewGroups { .. } => 0x3B,
            Token::ExecArgs(_) => 0x3C,
            Token::ExecEnv(_) => 0x3D,
            Token::Exit { .. } => 0x52,
            Token::Arg64 { .. } => 0x71,
            Token::Return64 { .. } => 0x72,
            Token::Subject64(_) => 0x75,
            Token::Process64(_) => 0x77,
            Token::Subject32Ex(_) => 0x7A,
            Token::Process32Ex(_) => 0x7B,
            Token::Subject64Ex(_) => 0x7C,
            Token::Process64Ex(_) => 0x7D,
            Token::InAddrEx { .. } => 0x7E,
        }
    }

    /// The same token with its groups and the address of an expanded one held
    /// in another way, as for writing a token that was read. Each function is
    /// called only where the token has such a part.
    ///
    /// ```
    /// use bsm::{token_address_at, tokens, write_token, NewToken};
    ///
    /// // Two groups, and an address of four bytes.
    /// let body = b"\x3b\0\x02\0\0\0\x0a\0\0\0\x14\x7e\0\0\0\x04\xc0\0\x02\x07";
    /// let mut again = [0; 20];
    /// let mut used = 0;
    /// for token in tokens(body) {
    ///     let mut groups = Vec::new();
    ///     let new: NewToken = token?.map(
    ///         |read| {
    ///             groups.extend(read);
    ///             &groups[..]
    ///         },
    ///         // All before it was written, so that it stands at the same place.
    ///         |()| token_address_at(body, used).unwrap(),
    ///     );
    ///     used += write_token(&mut again[used..], &new)?;
    /// }
    /// assert_eq!(&again, body);
    /// # Ok::<(), bsm::Refusal>(())
    /// ```
    pub fn map<H, B>(
        self,
        groups_held: impl FnOnce(G) -> H,
        address_held: impl FnOnce(A) -> B,
    ) -> Token<'a, H, B> {
        match self {
            Token::Path { text } => Token::Path { text },
            Token::Subject32(party) => Token::Subject32(party),
            Token::Process32(party) => Token::Process32(party),
            Token::Return32 { error, value } => Token::Return32 { error, value },
            Token::Text { text } => Token::Text { text },
            Token::Opaque { bytes } => Token::Opaque { bytes },
            Token::InAddr { address } => Token::InAddr { address },
            Token::Ip(header) => Token::Ip(header),
            Token::Iport { port } => Token::Iport { port },
            Token::Arg32 {
                argument,
                value,
                text,
            } => Token::Arg32 {
                argument,
                value,
                text,
            },
            Token::Seq { sequence } => Token::Seq { sequence },
            Token::IpcPerm(fields) => Token::IpcPerm(fields),
            Token::NewGroups { groups } => Token::NewGroups {
                groups: groups_held(groups),
            },
            Token::ExecArgs(strings) => Token::ExecArgs(strings),
            Token::ExecEnv(strings) => Token::ExecEnv(strings),
            Token::Exit { status, value } => Token::Exit { status, value },
            Token::Arg64 {
                argument,
                value,
                text,
            } => Token::Arg64 {
                argument,
                value,
                text,
            },
            Token::Return64 { error, value } => Token::Return64 { error, value },
            Token::Subject64(party) => Token::Subject64(party),
            Token::Process64(party) => Token::Process64(party),
            Token::Subject32Ex(party) => Token::Subject32Ex(party.map_address(address_held)),
            Token::Process32Ex(party) => Token::Process32Ex(party.map_address(address_held)),
            Token::Subject64Ex(party) => Token::Subject64Ex(party.map_address(address_held)),
            Token::Process64Ex(party) => Token::Process64Ex(party.map_address(address_held)),
            Token::InAddrEx { address } => Token::InAddrEx {
                address: address_held(address),
            },
        }
    }
}
