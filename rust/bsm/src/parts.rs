//! The varying parts of tokens that hold several things.

use core::iter::Map;
use core::slice::Iter;

/// The groups of a newgroups token that was read.
///
/// ```
/// use bsm::Groups;
///
/// let groups = Groups::new(b"\0\0\0\x0a\0\0\0\x14");
/// assert!(groups.into_iter().eq([10, 20]));
/// ```
#[derive(Clone, Copy, Debug, Default, PartialEq, Eq, Hash)]
pub struct Groups<'a> {
    groups: &'a [[u8; 4]],
}

impl<'a> Groups<'a> {
    /// The groups that these bytes hold, four bytes each; a rest of fewer
    /// bytes is left out.
    #[inline]
    pub const fn new(bytes: &'a [u8]) -> Self {
        Groups {
            groups: bytes.as_chunks().0,
        }
    }

    /// The bytes of the groups.
    #[inline]
    pub const fn bytes(self) -> &'a [u8] {
        self.groups.as_flattened()
    }

    /// How many there are.
    #[inline]
    pub const fn len(self) -> usize {
        self.groups.len()
    }

    /// Whether there are none.
    #[inline]
    pub const fn is_empty(self) -> bool {
        self.groups.is_empty()
    }
}

impl<'a> IntoIterator for Groups<'a> {
    type Item = u32;
    type IntoIter = Map<Iter<'a, [u8; 4]>, fn(&[u8; 4]) -> u32>;

    #[inline]
    fn into_iter(self) -> Self::IntoIter {
        self.groups.iter().map(|bytes| u32::from_be_bytes(*bytes))
    }
}

/// The strings of an exec token, as read and as given to the writer, which
/// refuses bytes that are not `count` strings.
#[derive(Clone, Copy, Debug, Default, PartialEq, Eq, Hash)]
pub struct Strings<'a> {
    /// How many there are.
    pub count: u32,
    /// The strings, each with its zero byte.
    pub bytes: &'a [u8],
}

impl<'a> Strings<'a> {
    /// The strings, each without its zero byte.
    ///
    /// ```
    /// use bsm::Strings;
    ///
    /// let strings = Strings { count: 3, bytes: b"ls\0\0-l\0" };
    /// assert!(strings.iter().eq([&b"ls"[..], b"", b"-l"]));
    /// ```
    #[inline]
    pub fn iter(self) -> impl Iterator<Item = &'a [u8]> + Clone {
        self.bytes
            .split_inclusive(|&byte| byte == 0)
            .map(|string| string.strip_suffix(&[0]).unwrap_or(string))
    }
}
