//! Addresses by prefix (RFC 6052): which IPv4 server an IPv6 address stands for, and the other way
//! round. They need no session.

use crate::raw;
use std::error::Error;
use std::fmt;
use std::net::{Ipv4Addr, Ipv6Addr};

/// Why an address is not worked out.
#[derive(Clone, Copy, Debug, PartialEq, Eq, Hash)]
pub enum PrefixRefused {
    /// The prefix has not 32, 40, 48, 56, 64 or 96 bits.
    BadLength,
    /// A bit among bits 64 to 71 is set: of a prefix of 96, or of the address that is read.
    ReservedBits,
}

impl fmt::Display for PrefixRefused {
    fn fmt(&self, f: &mut fmt::Formatter<'_>) -> fmt::Result {
        f.write_str(match self {
            PrefixRefused::BadLength => "a prefix has 32, 40, 48, 56, 64 or 96 bits",
            PrefixRefused::ReservedBits => "a bit is set among bits 64 to 71",
        })
    }
}

impl Error for PrefixRefused {}

/// The IPv6 address that an IPv4 address has behind a prefix of so many bits; bits of the prefix
/// past these are not looked at.
///
/// ```
/// # fn main() -> Result<(), fashlemor::PrefixRefused> {
/// let prefix = "2001:db8:122:344::".parse().unwrap();
/// let ipv6 = fashlemor::embed(prefix, 64, [192, 0, 2, 33].into())?;
/// assert_eq!(ipv6.to_string(), "2001:db8:122:344:c0:2:2100:0");
/// assert_eq!(fashlemor::extract(ipv6, 64)?.to_string(), "192.0.2.33");
/// # Ok(())
/// # }
/// ```
pub fn embed(prefix: Ipv6Addr, bits: u64, ipv4: Ipv4Addr) -> Result<Ipv6Addr, PrefixRefused> {
    let mut ipv6 = [0; 16];
    let answer = raw::embed(&prefix.octets(), bits, &ipv4.octets(), &mut ipv6);
    refused(answer).map_or(Ok(ipv6.into()), Err)
}

/// The IPv4 address inside an IPv6 address whose prefix has so many bits. Which prefix that is, and
/// what stands behind the IPv4 address, is not looked at.
pub fn extract(ipv6: Ipv6Addr, bits: u64) -> Result<Ipv4Addr, PrefixRefused> {
    let mut ipv4 = [0; 4];
    let answer = raw::extract(&ipv6.octets(), bits, &mut ipv4);
    refused(answer).map_or(Ok(ipv4.into()), Err)
}

fn refused(answer: u8) -> Option<PrefixRefused> {
    match answer {
        raw::DONE => None,
        raw::RESERVED_BITS => Some(PrefixRefused::ReservedBits),
        _ => Some(PrefixRefused::BadLength),
    }
}

#[cfg(test)]
mod tests {
    use super::*;

    /// RFC 6052, section 2.4, for 192.0.2.33: prefix, bits, IPv6 address.
    const PUBLISHED: [(&str, u64, &str); 7] = [
        ("2001:db8::", 32, "2001:db8:c000:221::"),
        ("2001:db8:100::", 40, "2001:db8:1c0:2:21::"),
        ("2001:db8:122::", 48, "2001:db8:122:c000:2:2100::"),
        ("2001:db8:122:300::", 56, "2001:db8:122:3c0:0:221::"),
        ("2001:db8:122:344::", 64, "2001:db8:122:344:c0:2:2100::"),
        ("2001:db8:122:344::", 96, "2001:db8:122:344::192.0.2.33"),
        ("64:ff9b::", 96, "64:ff9b::192.0.2.33"),
    ];

    fn ipv6(text: &str) -> Ipv6Addr {
        text.parse().unwrap()
    }

    #[test]
    fn published_both_ways() {
        let ipv4 = Ipv4Addr::new(192, 0, 2, 33);
        for (prefix, bits, address) in PUBLISHED {
            assert_eq!(embed(ipv6(prefix), bits, ipv4), Ok(ipv6(address)));
            assert_eq!(extract(ipv6(address), bits), Ok(ipv4));
        }
    }

    #[test]
    fn refusals() {
        let (ipv4, set) = (Ipv4Addr::LOCALHOST, ipv6("2001:db8:0:0:100::"));
        for bits in [0, 31, 33, 72, 88, 128, 256 + 96, (1 << 32) + 96, u64::MAX] {
            assert_eq!(embed(set, bits, ipv4), Err(PrefixRefused::BadLength));
            assert_eq!(extract(set, bits), Err(PrefixRefused::BadLength));
        }
        assert_eq!(embed(set, 96, ipv4), Err(PrefixRefused::ReservedBits));
        assert_eq!(extract(set, 64), Err(PrefixRefused::ReservedBits));
        assert!(embed(set, 64, ipv4).is_ok());
    }

    #[test]
    fn refusals_write_zeros_and_wrong_slices_nothing() {
        let (prefix, ipv4) = ([1; 16], [2; 4]);
        for (slice, room) in [(15, 16), (17, 16), (0, 16), (16, 15), (16, 17), (16, 0)] {
            let mut out = [7; 17];
            let given = [1; 17];
            let answer = raw::embed(&given[..slice], 96, &ipv4, &mut out[..room]);
            assert_eq!((answer, out), (raw::BAD_LENGTH, [7; 17]));
        }
        for (slice, room) in [(15, 4), (17, 4), (16, 3), (16, 5)] {
            let mut out = [7; 5];
            let given = [1; 17];
            let answer = raw::extract(&given[..slice], 96, &mut out[..room]);
            assert_eq!((answer, out), (raw::BAD_LENGTH, [7; 5]));
        }
        let mut out = [7; 16];
        assert_eq!(
            raw::embed(&prefix, 96, &ipv4[..3], &mut out),
            raw::BAD_LENGTH
        );
        assert_eq!(out, [7; 16]);
        assert_eq!(raw::embed(&prefix, 97, &ipv4, &mut out), raw::BAD_LENGTH);
        assert_eq!(out, [0; 16]);
        out = [7; 16];
        assert_eq!(raw::embed(&prefix, 96, &ipv4, &mut out), raw::RESERVED_BITS);
        assert_eq!(out, [0; 16]);
        let mut out = [7; 4];
        assert_eq!(raw::extract(&prefix, 96, &mut out), raw::RESERVED_BITS);
        assert_eq!(out, [0; 4]);
    }
}
