//! What spoils a text that is refused with 8, in words. The library names the
//! byte. What it is there for is asked of the library too, with another byte
//! in its place, so that no layout is read here.

use bsm::{item_at, Reason, Refusal};
use std::fmt::{self, Display, Formatter};

/// No item has more bytes.
const ITEM_MAX: usize = 65_536;

/// What is wrong with the text of an item.
#[derive(Clone, Copy, Debug, PartialEq, Eq)]
pub struct Spoilt {
    /// Where the item starts in its trail.
    pub item: usize,
    /// Where the byte stands that spoils the text.
    pub place: usize,
    /// In which way.
    pub way: Way,
}

/// How a byte spoils a text.
#[derive(Clone, Copy, Debug, PartialEq, Eq)]
pub enum Way {
    /// It is zero, and not the last byte.
    Early,
    /// It is the last byte, and this instead of zero.
    Last(u8),
    /// It is the first of the length, which is 0 or more than a name's may
    /// be.
    Length(u16),
}

impl Spoilt {
    /// What is wrong with the item at a place of a trail that is refused like
    /// this; nothing where it is not refused for a text.
    pub fn find(trail: &[u8], item: usize, refusal: &Refusal) -> Option<Spoilt> {
        if refusal.reason != Reason::BadText {
            return None;
        }
        let place = refusal.place;
        let at = place.checked_sub(item)?;
        let rest = trail.get(item..)?;
        let bytes = &rest[..rest.len().min(ITEM_MAX)];
        let byte = *bytes.get(at)?;
        let way = if is_length(bytes, at) {
            let low = *bytes.get(at + 1)?;
            Way::Length(u16::from_be_bytes([byte, low]))
        } else if byte == 0 {
            Way::Early
        } else {
            Way::Last(byte)
        };
        Some(Spoilt { item, place, way })
    }
}

/// Whether the byte at a place of an item that is refused for it is the first
/// of a length, and none of a text.
///
/// The item is read again with one byte changed: the one behind a zero byte,
/// any other one itself, becomes 1. A length of 0 is 1 then, and one that was
/// too large for a name 256 to 511: neither is refused. A text still has the
/// zero byte that is not its last, or a last byte that is not zero.
fn is_length(item: &[u8], at: usize) -> bool {
    let mut other = item.to_vec();
    let changed = if item[at] == 0 { at + 1 } else { at };
    if let Some(byte) = other.get_mut(changed) {
        *byte = 1;
    }
    match item_at(&other, 0) {
        Err(refusal) => (refusal.reason, refusal.place) != (Reason::BadText, at),
        Ok(_) => true,
    }
}

impl Display for Spoilt {
    fn fmt(&self, f: &mut Formatter<'_>) -> fmt::Result {
        let Spoilt { item, place, way } = self;
        write!(f, "bad text in the item at place {item}: ")?;
        match way {
            Way::Early => write!(
                f,
                "the zero byte at place {place} stands before the text's end"
            ),
            Way::Last(byte) => write!(
                f,
                "its last byte, at place {place}, is 0x{byte:02x}, not zero"
            ),
            Way::Length(0) => write!(f, "its length, at place {place}, is 0"),
            Way::Length(length) => write!(
                f,
                "the file name's length, at place {place}, is {length}, more than 1024"
            ),
        }
    }
}

#[cfg(test)]
mod tests {
    use super::*;
    use bsm::{run, State};
    use generator::{spoilt_item, targeted, Rng, SPOILT_ITEMS};
    use std::collections::BTreeMap;

    /// What the library tells is what the layouts tell.
    #[test]
    fn ways_are_those_of_the_layouts() {
        let mut rng = Rng::new(851);
        let mut seen = BTreeMap::new();
        for _ in 0..20_000 {
            let (trail, _) = targeted(&mut rng, 8);
            let run = run(&trail, State::default());
            let refusal = run.refusal.expect("a bad text");
            assert_eq!(refusal.reason, Reason::BadText);
            let (item, place) = (run.state.place, refusal.place);
            let kind = spoilt_item(&trail, item, place);
            let way = match kind.1 {
                generator::Spoilt::Early => Way::Early,
                generator::Spoilt::Last => Way::Last(trail[place]),
                _ => Way::Length(u16::from_be_bytes([trail[place], trail[place + 1]])),
            };
            let expected = Spoilt { item, place, way };
            assert_eq!(Spoilt::find(&trail, item, &refusal), Some(expected));
            *seen.entry(kind).or_insert(0) += 1;
        }
        for kind in SPOILT_ITEMS {
            assert!(seen[&kind] > 100, "{kind:02X?}");
        }
    }

    /// Other refusals, and places where nothing stands.
    #[test]
    fn nothing_else_is_spoilt() {
        let trail = b"\x11\0\0\0\x05\0\0\0\x07\0\x03\0a\0";
        let bad = item_at(trail, 0).expect_err("case 13");
        let way = Way::Early;
        let found = Spoilt::find(trail, 0, &bad);
        assert_eq!(
            found,
            Some(Spoilt {
                item: 0,
                place: 11,
                way
            })
        );
        for reason in [Reason::NotAnItem, Reason::PastEnd, Reason::TimeRange] {
            assert_eq!(Spoilt::find(trail, 0, &Refusal { reason, ..bad }), None);
        }
        for (item, place) in [(12, 11), (0, trail.len()), (99, 100), (0, usize::MAX)] {
            let elsewhere = Refusal { place, ..bad };
            assert_eq!(Spoilt::find(trail, item, &elsewhere), None);
        }
    }
}
