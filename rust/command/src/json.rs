//! Items as JSON, an object and a line for each. All of it is printable
//! ASCII.

use crate::escape::write_hex;
use crate::fields::{
    item_fields, item_name, moment_fields, token_fields, token_name, Field, Shown, ShownToken,
    Value,
};
use crate::reading::tokens_of;
use crate::write::{write_list, write_number};
use bsm::Item;
use std::io::{self, Write};
use std::str;

/// Writes the object of an item in the trail of this name.
pub fn write_item(out: &mut impl Write, trail: &[u8], shown: &Shown<'_>) -> io::Result<()> {
    let item = &shown.item;
    write!(out, "{{\"item\":\"{}\"", item_name(item))?;
    write_fields(out, &[("trail", Value::Text(trail))])?;
    write_fields(out, &item_fields(shown))?;
    write_fields(out, &moment_fields(item))?;
    if let Item::Record { .. } = item {
        out.write_all(b",\"tokens\":")?;
        write_list(out, tokens_of(item), |out, token| write_token(out, &token))?;
    }
    out.write_all(b"}\n")
}

fn write_token(out: &mut impl Write, shown: &ShownToken<'_>) -> io::Result<()> {
    write!(out, "{{\"token\":\"{}\"", token_name(&shown.token))?;
    write_fields(out, &token_fields(shown))?;
    out.write_all(b"}")
}

/// Writes fields behind another one of the same object.
fn write_fields(out: &mut impl Write, fields: &[Field<'_>]) -> io::Result<()> {
    for (name, value) in fields {
        for part in [",\"", name, "\":"] {
            out.write_all(part.as_bytes())?;
        }
        write_value(out, value)?;
    }
    Ok(())
}

fn write_value(out: &mut impl Write, value: &Value<'_>) -> io::Result<()> {
    match *value {
        Value::Number(number) => write_number(out, number),
        Value::Word(word) => write!(out, "\"{word}\""),
        Value::Time(time) => write!(out, "\"{time}\""),
        Value::Address(address) => write!(out, "\"{address}\""),
        Value::Text(text) => write_text(out, text),
        Value::Bytes(bytes) => write_bytes(out, bytes),
        Value::Groups(groups) => {
            write_list(out, groups, |out, group| write_number(out, group.into()))
        }
        Value::Strings(strings) => write_list(out, strings.iter(), write_text),
    }
}

/// Writes a string where the bytes are UTF-8, and otherwise what
/// [`write_bytes`] does.
fn write_text(out: &mut impl Write, text: &[u8]) -> io::Result<()> {
    match str::from_utf8(text) {
        Ok(text) => write_string(out, text),
        Err(_) => write_bytes(out, text),
    }
}

/// Writes an object that holds the bytes as hexadecimal digits.
fn write_bytes(out: &mut impl Write, bytes: &[u8]) -> io::Result<()> {
    out.write_all(b"{\"hex\":\"")?;
    write_hex(out, bytes)?;
    out.write_all(b"\"}")
}

/// Writes a string, with `\u` and four digits for each UTF-16 unit of what
/// is not printable ASCII.
fn write_string(out: &mut impl Write, text: &str) -> io::Result<()> {
    out.write_all(b"\"")?;
    for character in text.chars() {
        match character {
            '"' | '\\' => write!(out, "\\{character}")?,
            ' '..='~' => out.write_all(&[character as u8])?,
            _ => {
                for unit in character.encode_utf16(&mut [0; 2]) {
                    write!(out, "\\u{unit:04x}")?;
                }
            }
        }
    }
    out.write_all(b"\"")
}
