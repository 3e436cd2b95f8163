//! Items and tokens as names and values, for every form that shows them.
//! docs/COMMAND.md lists the names; they stay as they are.

use crate::time::Time;
use bsm::{address_at, token_address_at, Groups, Header, HeaderKind};
use bsm::{IpHeader, IpcPerm, Item, Party, Strings, Token};
use std::net::{IpAddr, Ipv4Addr};

/// The value of a field.
pub enum Value<'a> {
    /// A number.
    Number(u64),
    /// A word of our own.
    Word(&'static str),
    /// A moment.
    Time(Time),
    /// An address of four or sixteen bytes.
    Address(IpAddr),
    /// A text or path.
    Text(&'a [u8]),
    /// Bytes of any kind.
    Bytes(&'a [u8]),
    /// Group numbers.
    Groups(Groups<'a>),
    /// The strings of an exec token.
    Strings(Strings<'a>),
}

use Value::{Address, Bytes, Number, Text, Word};

/// An address that is held as a number.
fn ipv4<'a>(address: u32) -> Value<'a> {
    Address(Ipv4Addr::from(address).into())
}

/// A field's name and its value.
pub type Field<'a> = (&'static str, Value<'a>);

/// What an item is called.
pub const fn item_name(item: &Item<'_>) -> &'static str {
    match item {
        Item::File { .. } => "file",
        Item::Record { .. } => "record",
    }
}

/// When an item was written.
pub fn time_of(item: &Item<'_>) -> Time {
    match *item {
        Item::File {
            seconds,
            microseconds,
            ..
        } => Time {
            seconds: u64::from(seconds),
            nanoseconds: u64::from(microseconds) * 1_000,
        },
        Item::Record { header, .. } => Time {
            seconds: header.seconds,
            nanoseconds: header.nanoseconds,
        },
    }
}

/// An item that is to be shown, and where it was read.
#[derive(Clone, Copy, Debug)]
pub struct Shown<'a> {
    /// The trail, or the part of it that is held.
    pub bytes: &'a [u8],
    /// Where the bytes start in the trail.
    pub base: usize,
    /// Where the item stands in the bytes.
    pub at: usize,
    /// The item.
    pub item: Item<'a>,
}

impl Shown<'_> {
    /// Where the item stands in the trail.
    fn place(&self) -> usize {
        self.base + self.at
    }

    /// The address in a record's header. Only an expanded one is read again
    /// for it.
    fn address(&self) -> Option<IpAddr> {
        match self.item {
            Item::File { .. } => None,
            Item::Record { header, .. } => match header.kind {
                HeaderKind::Header32 | HeaderKind::Header64 => None,
                _ => address_at(self.bytes, self.at),
            },
        }
    }
}

/// A token that is to be shown, and where it was read.
#[derive(Clone, Copy, Debug)]
pub struct ShownToken<'a> {
    /// The body.
    pub body: &'a [u8],
    /// Where the token stands in the body.
    pub at: usize,
    /// The token.
    pub token: Token<'a>,
}

impl<'a> ShownToken<'a> {
    /// The address of an expanded token, which is read again for it.
    fn address(&self) -> Value<'a> {
        let address = token_address_at(self.body, self.at);
        Address(address.expect("an expanded token has an address"))
    }
}

/// The fields of an item; [`moment_fields`] has its time once more.
pub fn item_fields<'a>(shown: &Shown<'a>) -> Vec<Field<'a>> {
    let item = &shown.item;
    let mut fields = vec![
        ("place", Number(shown.place() as u64)),
        ("size", Number(item.size() as u64)),
        ("time", Value::Time(time_of(item))),
    ];
    match *item {
        Item::File { name, .. } => fields.push(("name", Text(name))),
        Item::Record { header, .. } => fields.extend(header_fields(&header, shown.address())),
    }
    fields
}

fn header_fields<'a>(header: &Header, address: Option<IpAddr>) -> impl Iterator<Item = Field<'a>> {
    let fields = [
        ("header", Word(header_name(header.kind))),
        ("version", Number(header.version.into())),
        ("event", Number(header.event.into())),
        ("modifier", Number(header.modifier.into())),
    ];
    let address = address.map(|address| ("address", Address(address)));
    fields.into_iter().chain(address)
}

/// The numbers of an item's time, as the layout has them.
pub fn moment_fields<'a>(item: &Item<'_>) -> [Field<'a>; 2] {
    match *item {
        Item::File {
            seconds,
            microseconds,
            ..
        } => [
            ("seconds", Number(seconds.into())),
            ("microseconds", Number(microseconds.into())),
        ],
        Item::Record { header, .. } => [
            ("seconds", Number(header.seconds)),
            ("nanoseconds", Number(header.nanoseconds)),
        ],
    }
}

/// The name of a header, as the papers have it.
pub fn header_name(kind: HeaderKind) -> &'static str {
    match kind {
        HeaderKind::Header32 => "header32",
        HeaderKind::Header64 => "header64",
        HeaderKind::Header32Ex => "header32_ex",
        HeaderKind::Header64Ex => "header64_ex",
        _ => unnamed("header", kind.number()),
    }
}

/// The name of a token, as the papers have it.
pub fn token_name<G, A>(token: &Token<'_, G, A>) -> &'static str {
    match token {
        Token::Path { .. } => "path",
        Token::Subject32(_) => "subject32",
        Token::Process32(_) => "process32",
        Token::Return32 { .. } => "return32",
        Token::Text { .. } => "text",
        Token::Opaque { .. } => "opaque",
        Token::InAddr { .. } => "in_addr",
        Token::Ip(_) => "ip",
        Token::Iport { .. } => "iport",
        Token::Arg32 { .. } => "arg32",
        Token::Seq { .. } => "seq",
        Token::IpcPerm(_) => "ipc_perm",
        Token::NewGroups { .. } => "newgroups",
        Token::ExecArgs(_) => "exec_args",
        Token::ExecEnv(_) => "exec_env",
        Token::Exit { .. } => "exit",
        Token::Arg64 { .. } => "arg64",
        Token::Return64 { .. } => "return64",
        Token::Subject64(_) => "subject64",
        Token::Process64(_) => "process64",
        Token::Subject32Ex(_) => "subject32_ex",
        Token::Process32Ex(_) => "process32_ex",
        Token::Subject64Ex(_) => "subject64_ex",
        Token::Process64Ex(_) => "process64_ex",
        Token::InAddrEx { .. } => "in_addr_ex",
        _ => unnamed("token", token.number()),
    }
}

/// The fields of a token, in the order of its layout.
pub fn token_fields<'a>(shown: &ShownToken<'a>) -> Vec<Field<'a>> {
    match shown.token {
        Token::Path { text } => vec![("path", Text(text))],
        Token::Text { text } => vec![("text", Text(text))],
        Token::Opaque { bytes } => vec![("bytes", Bytes(bytes))],
        Token::Subject32(ref party) | Token::Process32(ref party) => {
            party_fields(party, ipv4(party.address))
        }
        Token::Subject64(ref party) | Token::Process64(ref party) => {
            party_fields(party, ipv4(party.address))
        }
        Token::Subject32Ex(ref party) | Token::Process32Ex(ref party) => {
            party_fields(party, shown.address())
        }
        Token::Subject64Ex(ref party) | Token::Process64Ex(ref party) => {
            party_fields(party, shown.address())
        }
        Token::Return32 { error, value } => return_fields(error, value.into()),
        Token::Return64 { error, value } => return_fields(error, value),
        Token::InAddr { address } => vec![("address", ipv4(address))],
        Token::InAddrEx { .. } => vec![("address", shown.address())],
        Token::Ip(ref header) => ip_fields(header),
        Token::Iport { port } => vec![("port", Number(port.into()))],
        Token::Arg32 {
            argument,
            value,
            text,
        } => arg_fields(argument, value.into(), text),
        Token::Arg64 {
            argument,
            value,
            text,
        } => arg_fields(argument, value, text),
        Token::Seq { sequence } => vec![("sequence", Number(sequence.into()))],
        Token::IpcPerm(ref fields) => ipc_fields(fields),
        Token::NewGroups { groups } => vec![("groups", Value::Groups(groups))],
        Token::ExecArgs(strings) | Token::ExecEnv(strings) => {
            vec![("strings", Value::Strings(strings))]
        }
        Token::Exit { status, value } => vec![
            ("status", Number(status.into())),
            ("value", Number(value.into())),
        ],
        _ => unnamed("token", shown.token.number()),
    }
}

fn party_fields<'a, P: Copy + Into<u64>, A>(
    party: &Party<P, A>,
    address: Value<'a>,
) -> Vec<Field<'a>> {
    vec![
        ("audit", Number(party.audit.into())),
        ("effective_user", Number(party.effective_user.into())),
        ("effective_group", Number(party.effective_group.into())),
        ("real_user", Number(party.real_user.into())),
        ("real_group", Number(party.real_group.into())),
        ("process", Number(party.process.into())),
        ("session", Number(party.session.into())),
        ("port", Number(party.port.into())),
        ("address", address),
    ]
}

fn return_fields<'a>(error: u8, value: u64) -> Vec<Field<'a>> {
    vec![("error", Number(error.into())), ("value", Number(value))]
}

fn arg_fields(argument: u8, value: u64, text: &[u8]) -> Vec<Field<'_>> {
    vec![
        ("argument", Number(argument.into())),
        ("value", Number(value)),
        ("text", Text(text)),
    ]
}

fn ip_fields<'a>(header: &IpHeader) -> Vec<Field<'a>> {
    vec![
        ("version", Number(header.version.into())),
        ("service", Number(header.service.into())),
        ("length", Number(header.length.into())),
        ("id", Number(header.id.into())),
        ("offset", Number(header.offset.into())),
        ("ttl", Number(header.ttl.into())),
        ("protocol", Number(header.protocol.into())),
        ("checksum", Number(header.checksum.into())),
        ("source", ipv4(header.source)),
        ("destination", ipv4(header.destination)),
    ]
}

fn ipc_fields<'a>(fields: &IpcPerm) -> Vec<Field<'a>> {
    vec![
        ("user", Number(fields.user.into())),
        ("group", Number(fields.group.into())),
        ("creator_user", Number(fields.creator_user.into())),
        ("creator_group", Number(fields.creator_group.into())),
        ("mode", Number(fields.mode.into())),
        ("sequence", Number(fields.sequence.into())),
        ("key", Number(fields.key.into())),
    ]
}

/// The library has a kind that has no name here. The tests print each kind
/// of token that there is, so that this cannot stay unseen.
fn unnamed(what: &str, number: u8) -> ! {
    panic!("{what} {number:02X} has no name in the command")
}
