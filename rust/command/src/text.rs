//! Items for people: a line for the item, and one below it for each token of
//! a record: the name of the thing, then its fields.

use crate::escape::{write_hex, write_quoted};
use crate::fields::{item_fields, item_name, token_fields, token_name, Field, Shown, Value};
use crate::reading::tokens_of;
use crate::write::{write_list, write_number};
use std::io::{self, Write};

/// Writes the lines of an item.
pub fn write_item(out: &mut impl Write, shown: &Shown<'_>) -> io::Result<()> {
    out.write_all(item_name(&shown.item).as_bytes())?;
    write_fields(out, &item_fields(shown))?;
    for token in tokens_of(&shown.item) {
        out.write_all(b"    ")?;
        out.write_all(token_name(&token.token).as_bytes())?;
        write_fields(out, &token_fields(&token))?;
    }
    Ok(())
}

/// Writes fields and ends the line.
fn write_fields(out: &mut impl Write, fields: &[Field<'_>]) -> io::Result<()> {
    for (name, value) in fields {
        for part in [" ", name, "="] {
            out.write_all(part.as_bytes())?;
        }
        write_value(out, value)?;
    }
    out.write_all(b"\n")
}

fn write_value(out: &mut impl Write, value: &Value<'_>) -> io::Result<()> {
    match *value {
        Value::Number(number) => write_number(out, number),
        Value::Word(word) => out.write_all(word.as_bytes()),
        Value::Time(time) => write!(out, "{time}"),
        Value::Address(address) => write!(out, "{address}"),
        Value::Text(text) => write_quoted(out, text),
        Value::Bytes(bytes) => write_hex(out, bytes),
        Value::Groups(groups) => {
            write_list(out, groups, |out, group| write_number(out, group.into()))
        }
        Value::Strings(strings) => write_list(out, strings.iter(), write_quoted),
    }
}
