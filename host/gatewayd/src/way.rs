//! Where a datagram came from, and to which of our addresses.

use std::net::{IpAddr, Ipv6Addr, SocketAddr};

/// The way of a datagram to us; an answer goes back the same way.
#[derive(Clone, Copy, PartialEq, Eq, Debug)]
pub struct Way {
    pub sender: SocketAddr,
    /// Which of our addresses it came to, where the system tells.
    pub ours: Option<IpAddr>,
}

/// One address has one form, however the gateway listens: a socket for both versions shows
/// 192.0.2.7 as ::ffff:192.0.2.7.
pub fn plain(address: SocketAddr) -> SocketAddr {
    match address.ip().to_canonical() {
        IpAddr::V4(ip) => (ip, address.port()).into(),
        IpAddr::V6(_) => address,
    }
}

/// What one stranger has at his disposal: an address of version 4, a network of 64 bits of
/// version 6. Shares of work and room are counted by it.
pub fn host(address: SocketAddr) -> IpAddr {
    match address.ip().to_canonical() {
        IpAddr::V4(ip) => ip.into(),
        IpAddr::V6(ip) => Ipv6Addr::from_bits(ip.to_bits() >> 64 << 64).into(),
    }
}

#[cfg(test)]
mod tests {
    use super::*;

    #[test]
    fn one_form_for_an_address() {
        let mapped: SocketAddr = "[::ffff:192.0.2.7]:4000".parse().unwrap();
        assert_eq!(plain(mapped), "192.0.2.7:4000".parse().unwrap());
        for same in ["192.0.2.7:4000", "[2001:db8::1]:4000"] {
            assert_eq!(plain(same.parse().unwrap()), same.parse().unwrap());
        }
    }

    #[test]
    fn hosts() {
        let host = |text: &str| host(text.parse().unwrap());
        assert_eq!(host("192.0.2.7:1"), host("[::ffff:192.0.2.7]:2"));
        assert_ne!(host("192.0.2.7:1"), host("192.0.2.8:1"));
        assert_eq!(host("[2001:db8::1]:1"), host("[2001:db8::ffff:2:3]:1"));
        assert_ne!(host("[2001:db8::1]:1"), host("[2001:db8:0:1::1]:1"));
    }
}
