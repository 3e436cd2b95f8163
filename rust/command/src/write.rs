//! Numbers and lists, as both forms of print write them.

use std::io::{self, Write};

/// Writes a number in decimal; a good deal faster than `write!`.
pub fn write_number(out: &mut impl Write, number: u64) -> io::Result<()> {
    let mut digits = [0; 20];
    let mut start = digits.len();
    let mut left = number;
    loop {
        start -= 1;
        digits[start] = b'0' + (left % 10) as u8;
        left /= 10;
        if left == 0 {
            return out.write_all(&digits[start..]);
        }
    }
}

/// Writes several things between brackets, with commas between them.
pub fn write_list<W: Write, T>(
    out: &mut W,
    things: impl IntoIterator<Item = T>,
    mut write_one: impl FnMut(&mut W, T) -> io::Result<()>,
) -> io::Result<()> {
    out.write_all(b"[")?;
    for (i, thing) in things.into_iter().enumerate() {
        if i > 0 {
            out.write_all(b",")?;
        }
        write_one(out, thing)?;
    }
    out.write_all(b"]")
}
