//! Arguments of the token writer, with what they point at.

use crate::layout::{shape, Tail};
use crate::rng::Rng;
use crate::values;
use reference::{IpHeader, IpcPerm, Party, WriteToken};

/// A token to be written, owning its varying part.
#[derive(Clone, Debug)]
pub struct TokenArgs {
    /// The token with an empty varying part.
    pub fields: WriteToken<'static>,
    /// Text without zero byte, opaque bytes, strings with zero bytes, or an
    /// address.
    pub bytes: Vec<u8>,
    /// Groups.
    pub groups: Vec<u32>,
}

impl TokenArgs {
    /// The token as the writer takes it.
    pub fn token(&self) -> WriteToken<'_> {
        let part = &self.bytes[..];
        match self.fields {
            WriteToken::Path { .. } => WriteToken::Path { text: part },
            WriteToken::Text { .. } => WriteToken::Text { text: part },
            WriteToken::Opaque { .. } => WriteToken::Opaque { bytes: part },
            WriteToken::Arg32 {
                argument, value, ..
            } => WriteToken::Arg32 {
                argument,
                value,
                text: part,
            },
            WriteToken::Arg64 {
                argument, value, ..
            } => WriteToken::Arg64 {
                argument,
                value,
                text: part,
            },
            WriteToken::NewGroups { .. } => WriteToken::NewGroups {
                groups: &self.groups,
            },
            WriteToken::ExecArgs { count, .. } => WriteToken::ExecArgs {
                count,
                strings: part,
            },
            WriteToken::ExecEnv { count, .. } => WriteToken::ExecEnv {
                count,
                strings: part,
            },
            WriteToken::Subject32Ex(party) => WriteToken::Subject32Ex(at(party, part)),
            WriteToken::Process32Ex(party) => WriteToken::Process32Ex(at(party, part)),
            WriteToken::Subject64Ex(party) => WriteToken::Subject64Ex(at(party, part)),
            WriteToken::Process64Ex(party) => WriteToken::Process64Ex(at(party, part)),
            WriteToken::InAddrEx { .. } => WriteToken::InAddrEx { address: part },
            fields => fields,
        }
    }

    /// The bytes the token takes, if its writing is not refused.
    pub fn size(&self) -> usize {
        let (fixed, tail) = shape(self.fields.number()).unwrap_or((0, Tail::None));
        fixed
            + match tail {
                Tail::None => 0,
                Tail::Text => self.bytes.len() + 1,
                Tail::Bytes | Tail::Strings | Tail::Address => self.bytes.len(),
                Tail::Groups => 4 * self.groups.len(),
            }
    }

    /// What follows the fixed part.
    pub(crate) fn tail(&self) -> Tail {
        shape(self.fields.number()).map_or(Tail::None, |shape| shape.1)
    }

    /// Sets the count of an exec token.
    pub(crate) fn set_count(&mut self, new: u32) {
        if let WriteToken::ExecArgs { count, .. } | WriteToken::ExecEnv { count, .. } =
            &mut self.fields
        {
            *count = new;
        }
    }
}

fn party<P>(rng: &mut Rng, port: P) -> Party<P> {
    Party {
        audit: rng.u32(),
        effective_user: rng.u32(),
        effective_group: rng.u32(),
        real_user: rng.u32(),
        real_group: rng.u32(),
        process: rng.u32(),
        session: rng.u32(),
        port,
        address: rng.u32(),
    }
}

/// A party with another address.
fn at<P, A, B>(party: Party<P, A>, address: B) -> Party<P, B> {
    Party {
        audit: party.audit,
        effective_user: party.effective_user,
        effective_group: party.effective_group,
        real_user: party.real_user,
        real_group: party.real_group,
        process: party.process,
        session: party.session,
        port: party.port,
        address,
    }
}

fn party32(rng: &mut Rng) -> Party<u32> {
    let port = rng.u32();
    party(rng, port)
}

fn party64(rng: &mut Rng) -> Party<u64> {
    let port = rng.u64();
    party(rng, port)
}

/// A good token with this number, which must be a body token's.
pub fn good_args(rng: &mut Rng, number: u8) -> TokenArgs {
    const EMPTY: &[u8] = &[];
    let fields = match number {
        0x23 => WriteToken::Path { text: EMPTY },
        0x24 => WriteToken::Subject32(party32(rng)),
        0x26 => WriteToken::Process32(party32(rng)),
        0x27 => WriteToken::Return32 {
            error: rng.u8(),
            value: rng.u32(),
        },
        0x28 => WriteToken::Text { text: EMPTY },
        0x29 => WriteToken::Opaque { bytes: EMPTY },
        0x2A => WriteToken::InAddr { address: rng.u32() },
        0x2B => WriteToken::Ip(IpHeader {
            version: rng.u8(),
            service: rng.u8(),
            length: rng.u16(),
            id: rng.u16(),
            offset: rng.u16(),
            ttl: rng.u8(),
            protocol: rng.u8(),
            checksum: rng.u16(),
            source: rng.u32(),
            destination: rng.u32(),
        }),
        0x2C => WriteToken::Iport { port: rng.u16() },
        0x2D => WriteToken::Arg32 {
            argument: rng.u8(),
            value: rng.u32(),
            text: EMPTY,
        },
        0x2F => WriteToken::Seq {
            sequence: rng.u32(),
        },
        0x32 => WriteToken::IpcPerm(IpcPerm {
            owner_user: rng.u32(),
            owner_group: rng.u32(),
            creator_user: rng.u32(),
            creator_group: rng.u32(),
            mode: rng.u32(),
            sequence: rng.u32(),
            key: rng.u32(),
        }),
        0x3B => WriteToken::NewGroups { groups: &[] },
        0x3C => WriteToken::ExecArgs {
            count: 0,
            strings: EMPTY,
        },
        0x3D => WriteToken::ExecEnv {
            count: 0,
            strings: EMPTY,
        },
        0x71 => WriteToken::Arg64 {
            argument: rng.u8(),
            value: rng.u64(),
            text: EMPTY,
        },
        0x72 => WriteToken::Return64 {
            error: rng.u8(),
            value: rng.u64(),
        },
        0x75 => WriteToken::Subject64(party64(rng)),
        0x77 => WriteToken::Process64(party64(rng)),
        0x7A => WriteToken::Subject32Ex(at(party32(rng), EMPTY)),
        0x7B => WriteToken::Process32Ex(at(party32(rng), EMPTY)),
        0x7C => WriteToken::Subject64Ex(at(party64(rng), EMPTY)),
        0x7D => WriteToken::Process64Ex(at(party64(rng), EMPTY)),
        0x7E => WriteToken::InAddrEx { address: EMPTY },
        0x52 => WriteToken::Exit {
            status: rng.u32(),
            value: rng.u32(),
        },
        _ => panic!("{number:02X} is no body token"),
    };
    let mut args = TokenArgs {
        fields,
        bytes: Vec::new(),
        groups: Vec::new(),
    };
    match args.tail() {
        Tail::None => {}
        Tail::Text => args.bytes = values::text(rng),
        Tail::Bytes => args.bytes = values::opaque(rng),
        Tail::Groups => args.groups = values::groups(rng),
        Tail::Strings => {
            let (count, strings) = values::strings(rng);
            args.set_count(count);
            args.bytes = strings;
        }
        Tail::Address => args.bytes = values::address(rng),
    }
    args
}
