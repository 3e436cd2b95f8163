//! The searches for zero bytes as they were before paper 02's P4, written
//! again in Rust: byte by byte, and as the library had them until then.

/// One byte after the other.
pub mod bytes {
    /// Where `count` strings end.
    pub fn strings_end(bytes: &[u8], count: u32) -> Option<usize> {
        let mut left = count;
        let mut at = 0;
        while left > 0 {
            if *bytes.get(at)? == 0 {
                left -= 1;
            }
            at += 1;
        }
        Some(at)
    }

    /// Whether the first zero byte is the last byte.
    pub fn good_text(text: &[u8]) -> bool {
        let mut at = 0;
        while at < text.len() && text[at] != 0 {
            at += 1;
        }
        at + 1 == text.len()
    }
}

/// Strings counted in blocks of 128 bytes and then found one by one, eight
/// bytes to a test; texts by sixteen bytes to a test.
pub mod base {
    /// Where `count` strings end.
    pub fn strings_end(bytes: &[u8], count: u32) -> Option<usize> {
        let mut left = count;
        let mut at = 0;
        for block in bytes.chunks_exact(128) {
            let here = block.iter().map(|&byte| u8::from(byte == 0)).sum::<u8>();
            if left <= u32::from(here) {
                break;
            }
            left -= u32::from(here);
            at += block.len();
        }
        while left > 0 {
            let zero = zero_at(&bytes[at..]);
            if zero == bytes.len() - at {
                return None;
            }
            at += zero + 1;
            left -= 1;
        }
        Some(at)
    }

    /// Whether the last byte of a text of more than 145 bytes is zero, and
    /// no other.
    pub fn good_text(text: &[u8]) -> bool {
        assert!(text.len() > 145);
        let Some((last, before)) = text.split_last() else {
            return false;
        };
        let mut blocks = before.chunks_exact(16);
        let end = &before[before.len() - 16..];
        !(blocks.any(has_zero) || has_zero(end)) && *last == 0
    }

    /// The place of the first zero byte, or the length.
    fn zero_at(bytes: &[u8]) -> usize {
        let mut at = 0;
        while let Some(block) = bytes.get(at..at + 8) {
            if has_zero(block) {
                break;
            }
            at += 8;
        }
        while at < bytes.len() && bytes[at] != 0 {
            at += 1;
        }
        at
    }

    fn has_zero(block: &[u8]) -> bool {
        block.iter().fold(false, |any, &byte| any | (byte == 0))
    }
}
