//! Addresses of expanded headers and tokens. Their type, 4 or 16, is how many
//! bytes they have, so that an `IpAddr` holds both.

use crate::unfit::unfit;
use core::net::IpAddr;

/// The address that these bytes are, which the library names only where they
/// are 4 or 16.
#[inline]
pub(crate) fn address_of(bytes: &[u8]) -> IpAddr {
    if let Ok(four) = <[u8; 4]>::try_from(bytes) {
        IpAddr::from(four)
    } else if let Ok(sixteen) = <[u8; 16]>::try_from(bytes) {
        IpAddr::from(sixteen)
    } else {
        unfit("an address with bytes", bytes.len() as u64)
    }
}

/// The bytes of an address, to be lent to a writer.
pub(crate) struct Octets {
    bytes: [u8; 16],
    length: usize,
}

impl Octets {
    #[inline]
    pub(crate) fn of(address: IpAddr) -> Self {
        match address {
            IpAddr::V4(four) => {
                let mut bytes = [0; 16];
                bytes[..4].copy_from_slice(&four.octets());
                Octets { bytes, length: 4 }
            }
            IpAddr::V6(sixteen) => Octets {
                bytes: sixteen.octets(),
                length: 16,
            },
        }
    }

    #[inline]
    pub(crate) const fn as_ptr(&self) -> *const u8 {
        self.bytes.as_ptr()
    }

    /// How many of the bytes are the address.
    #[inline]
    pub(crate) const fn len(&self) -> usize {
        self.length
    }
}

#[cfg(test)]
mod tests {
    use super::*;

    #[test]
    fn bytes_of_either_length_come_back() {
        let bytes: [u8; 16] = core::array::from_fn(|at| 0xF0 + at as u8);
        for length in [4, 16] {
            let address = address_of(&bytes[..length]);
            assert_eq!(address.is_ipv4(), length == 4);
            let octets = Octets::of(address);
            assert_eq!(octets.bytes[..octets.len()], bytes[..length]);
        }
        // An IPv4 address in IPv6's form keeps its sixteen bytes.
        let mapped = [0, 0, 0, 0, 0, 0, 0, 0, 0, 0, 255, 255, 192, 0, 2, 1];
        let octets = Octets::of(address_of(&mapped));
        assert_eq!((octets.bytes, octets.len()), (mapped, 16));
    }
}
