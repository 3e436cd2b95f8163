//! Bytes of a trail as printable ASCII, so that none of them can steer a
//! terminal, and names of files without control characters.

use std::ffi::OsStr;
use std::io::{self, Write};
use std::os::unix::ffi::OsStrExt;

/// Writes bytes between quotes, with `\"`, `\\`, `\n`, `\r` and `\t`, and
/// `\xHH` for every other byte that is not printable ASCII.
pub fn write_quoted(out: &mut impl Write, bytes: &[u8]) -> io::Result<()> {
    out.write_all(b"\"")?;
    let mut rest = bytes;
    loop {
        let plain = rest.iter().take_while(|&&byte| is_plain(byte)).count();
        out.write_all(&rest[..plain])?;
        let Some(&byte) = rest.get(plain) else {
            return out.write_all(b"\"");
        };
        match byte {
            b'"' => out.write_all(b"\\\"")?,
            b'\\' => out.write_all(b"\\\\")?,
            b'\n' => out.write_all(b"\\n")?,
            b'\r' => out.write_all(b"\\r")?,
            b'\t' => out.write_all(b"\\t")?,
            _ => write!(out, "\\x{byte:02x}")?,
        }
        rest = &rest[plain + 1..];
    }
}

/// Whether a byte stands for itself between quotes.
const fn is_plain(byte: u8) -> bool {
    matches!(byte, b' '..=b'~') && byte != b'"' && byte != b'\\'
}

/// Writes two hexadecimal digits for each byte.
pub fn write_hex(out: &mut impl Write, bytes: &[u8]) -> io::Result<()> {
    const DIGITS: &[u8; 16] = b"0123456789abcdef";
    for byte in bytes {
        let high = DIGITS[usize::from(byte >> 4)];
        let low = DIGITS[usize::from(byte & 15)];
        out.write_all(&[high, low])?;
    }
    Ok(())
}

/// A file's name as it is shown: as it was given, but for control characters
/// and bytes that are no UTF-8.
pub fn shown(name: &OsStr) -> String {
    let mut shown = String::new();
    for chunk in name.as_bytes().utf8_chunks() {
        for character in chunk.valid().chars() {
            if character.is_control() {
                shown.extend(character.escape_default());
            } else {
                shown.push(character);
            }
        }
        for byte in chunk.invalid() {
            shown.push_str(&format!("\\x{byte:02x}"));
        }
    }
    shown
}

#[cfg(test)]
mod tests {
    use super::*;

    fn quoted(bytes: &[u8]) -> String {
        let mut out = Vec::new();
        write_quoted(&mut out, bytes).expect("memory can be written");
        String::from_utf8(out).expect("it is ASCII")
    }

    /// The bytes that a quoted text stands for.
    fn unquoted(text: &str) -> Vec<u8> {
        let inner = text
            .strip_prefix('"')
            .and_then(|text| text.strip_suffix('"'));
        let mut bytes = inner.expect("quotes").bytes();
        let mut read = Vec::new();
        while let Some(byte) = bytes.next() {
            assert_ne!(byte, b'"', "{text}");
            read.push(match byte {
                b'\\' => match bytes.next() {
                    Some(b'n') => b'\n',
                    Some(b'r') => b'\r',
                    Some(b't') => b'\t',
                    Some(b'x') => {
                        let digits = [bytes.next(), bytes.next()].map(|digit| digit.unwrap());
                        let digits = std::str::from_utf8(&digits).unwrap();
                        u8::from_str_radix(digits, 16).unwrap()
                    }
                    Some(other) => other,
                    None => panic!("{text} ends in an escape"),
                },
                other => other,
            });
        }
        read
    }

    #[test]
    fn every_pair_of_bytes_is_printable_and_reads_back() {
        for first in 0..=255 {
            for second in 0..=255 {
                let text = quoted(&[first, second]);
                assert!(text.bytes().all(|byte| matches!(byte, b' '..=b'~')));
                assert_eq!(unquoted(&text), [first, second]);
            }
        }
    }

    #[test]
    fn hex_reads_back() {
        let bytes: Vec<u8> = (0..=255).collect();
        let mut hex = Vec::new();
        write_hex(&mut hex, &bytes).expect("memory can be written");
        let hex = String::from_utf8(hex).expect("digits");
        let again = (0..256).map(|i| u8::from_str_radix(&hex[2 * i..2 * i + 2], 16));
        assert_eq!(again.collect::<Result<Vec<u8>, _>>(), Ok(bytes));
    }

    #[test]
    fn names_show_no_control_characters() {
        assert_eq!(shown(OsStr::new("a b.trail")), "a b.trail");
        assert_eq!(shown(OsStr::new("h\u{f6}he")), "h\u{f6}he");
        let steering = shown(OsStr::from_bytes(b"a\x1b[2Jb\nc\xffd\xc2\x9be"));
        assert_eq!(steering, "a\\u{1b}[2Jb\\nc\\xffd\\u{9b}e");
    }
}
