//! The datagram that is asked about: in hexadecimal, as it is, or the payload of a packet in a capture file.

use crate::hex;

/// Reads it. A capture is known by its first bytes, hexadecimal by all of them; with `raw` it is neither.
pub fn read(bytes: &[u8], packet: Option<usize>, raw: bool) -> Result<Vec<u8>, String> {
    if raw {
        return Ok(bytes.to_vec());
    }
    if let Some(order) = Order::of(bytes) {
        let packet =
            packet.ok_or("a capture file: say which packet with --packet N (the first is 1)")?;
        return in_capture(bytes, order, packet);
    }
    if packet.is_some() {
        return Err("--packet, and this is no capture file".to_string());
    }
    let text: Option<String> = std::str::from_utf8(bytes)
        .ok()
        .map(|text| text.split_whitespace().collect::<String>().to_ascii_lowercase());
    match text {
        Some(text) if text.bytes().all(|byte| byte.is_ascii_hexdigit()) => {
            hex::read(&text).map_err(|_| "an odd number of hexadecimal digits".to_string())
        }
        _ => Ok(bytes.to_vec()),
    }
}

/// Of the numbers in a capture file.
#[derive(Clone, Copy)]
enum Order {
    Big,
    Little,
}

impl Order {
    fn of(bytes: &[u8]) -> Option<Order> {
        match bytes.get(..4)? {
            [0xa1, 0xb2, 0xc3, 0xd4] | [0xa1, 0xb2, 0x3c, 0x4d] => Some(Order::Big),
            [0xd4, 0xc3, 0xb2, 0xa1] | [0x4d, 0x3c, 0xb2, 0xa1] => Some(Order::Little),
            _ => None,
        }
    }

    fn word(self, bytes: &[u8], at: usize) -> Option<u32> {
        let four: [u8; 4] = bytes.get(at..at + 4)?.try_into().ok()?;
        Some(match self {
            Order::Big => u32::from_be_bytes(four),
            Order::Little => u32::from_le_bytes(four),
        })
    }
}

const FILE_HEAD: usize = 24;
const PACKET_HEAD: usize = 16;

fn in_capture(bytes: &[u8], order: Order, packet: usize) -> Result<Vec<u8>, String> {
    let link = order.word(bytes, 20).ok_or("the capture file is cut")? & 0xffff;
    let (mut at, mut count) = (FILE_HEAD, 0);
    while let (Some(kept), Some(long)) = (order.word(bytes, at + 8), order.word(bytes, at + 12)) {
        let end = at + PACKET_HEAD + kept as usize;
        count += 1;
        if count == packet {
            let found = bytes.get(at + PACKET_HEAD..end).ok_or("the capture file is cut")?;
            if kept < long {
                return Err(format!("packet {packet} is cut: {kept} of {long} bytes are kept"));
            }
            let told = |what: &str| format!("packet {packet}: {what}");
            let ip =
                network(link, found).ok_or_else(|| told("no way to read this kind of link"))?;
            return datagram(ip).map(<[u8]>::to_vec).ok_or_else(|| told("no whole UDP datagram"));
        }
        at = end;
    }
    Err(format!("there is no packet {packet}: the capture file has {count}"))
}

/// What a packet of the network is, behind the head of its link: none, Ethernet's (with a tag or without), Linux's two, loopback's.
fn network(link: u32, packet: &[u8]) -> Option<&[u8]> {
    match link {
        101 | 228 | 229 => Some(packet),
        1 if packet.get(12..14) == Some(&[0x81, 0]) => packet.get(18..),
        1 => packet.get(14..),
        113 => packet.get(16..),
        276 => packet.get(20..),
        0 | 108 => packet.get(4..),
        _ => None,
    }
}

/// The payload of UDP in a packet of version 4 or 6, if it is whole.
fn datagram(packet: &[u8]) -> Option<&[u8]> {
    let two = |at: usize| Some(u16::from_be_bytes([*packet.get(at)?, *packet.get(at + 1)?]));
    let udp = match packet.first()? >> 4 {
        // Not a part of one that was divided.
        4 if packet.get(9) == Some(&17) && two(6)? & 0x3fff == 0 => usize::from(packet[0] & 15) * 4,
        6 if packet.get(6) == Some(&17) => 40,
        _ => return None,
    };
    packet.get(udp + 8..udp + usize::from(two(udp + 4)?))
}

#[cfg(test)]
mod tests {
    use super::*;
    use peer::capture::{Capture, Way};

    #[test]
    fn hexadecimal_and_raw() {
        assert_eq!(read(b"64 00 1F\nab", None, false), Ok(vec![0x64, 0, 0x1f, 0xab]));
        assert_eq!(
            read(b"640", None, false),
            Err("an odd number of hexadecimal digits".to_string())
        );
        assert_eq!(read(b"6400", None, true), Ok(b"6400".to_vec()));
        for raw in [&[0x64, 0, 1, 7][..], &[0x41, 0x30, 0x31, 1], b"no digits", &[0xff; 3]] {
            assert_eq!(read(raw, None, false), Ok(raw.to_vec()));
        }
        assert_eq!(read(b"", None, false), Ok(Vec::new()));
        assert!(read(b"6400", Some(1), false).is_err());
    }

    #[test]
    fn a_packet_of_a_capture() {
        let path = std::env::temp_dir().join(format!("why-capture-{}", std::process::id()));
        let mut capture = Capture::create(&path).unwrap();
        let datagrams = [vec![0x64, 0, 1, 9], vec![7; 300]];
        for datagram in &datagrams {
            capture.add(Way::ToShore, datagram).unwrap();
        }
        drop(capture);
        let bytes = std::fs::read(&path).unwrap();
        std::fs::remove_file(&path).unwrap();
        assert_eq!(read(&bytes, Some(1), false), Ok(datagrams[0].clone()));
        assert_eq!(read(&bytes, Some(2), false), Ok(datagrams[1].clone()));
        for (packet, what) in [(None, "--packet N"), (Some(3), "has 2"), (Some(0), "has 2")] {
            assert!(read(&bytes, packet, false).unwrap_err().contains(what));
        }
        for cut in 4..bytes.len() {
            assert!(read(&bytes[..cut], Some(2), false).is_err(), "{cut}");
        }
        // Behind the head of a link.
        let ip = &bytes[FILE_HEAD + PACKET_HEAD..][..20 + 8 + 4];
        for (link, head) in [
            (1, vec![0; 14]),
            (1, [vec![0; 12], vec![0x81, 0, 0, 1, 8, 0]].concat()),
            (113, vec![0; 16]),
        ] {
            let packet = [&head[..], ip].concat();
            assert_eq!(network(link, &packet).and_then(datagram), Some(&datagrams[0][..]));
        }
        // Version 6, and what is no UDP.
        let mut six = [vec![0; 40], ip[20..].to_vec()].concat();
        (six[0], six[6]) = (0x60, 17);
        assert_eq!(datagram(&six), Some(&datagrams[0][..]));
        six[6] = 6;
        assert_eq!(datagram(&six), None);
        assert_eq!(datagram(&[]), None);
    }
}
