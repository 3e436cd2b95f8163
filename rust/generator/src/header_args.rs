//! A header to be written, with the address it points at.

use crate::layout::{header_size, is_expanded};
use reference::Header;

/// A header to be written, owning its address.
#[derive(Clone, Debug, PartialEq, Eq)]
pub struct HeaderArgs {
    /// The header with an empty address.
    pub fields: Header<'static>,
    /// The address; empty where the header has none.
    pub address: Vec<u8>,
}

impl HeaderArgs {
    /// The header as the writer takes it.
    pub fn header(&self) -> Header<'_> {
        Header {
            address: &self.address,
            ..self.fields
        }
    }

    /// Whether it has an address, and that is none of 4 or 16 bytes.
    pub(crate) fn is_misaddressed(&self) -> bool {
        is_expanded(self.fields.number) && !matches!(self.address.len(), 4 | 16)
    }

    /// The bytes the header takes, if its writing is not refused.
    pub fn size(&self) -> usize {
        header_size(self.fields.number) + self.address.len()
    }
}
