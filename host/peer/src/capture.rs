//! The datagrams of a day as a capture file, for a packet reader: classic pcap, raw IPv4, UDP.

use std::fs::File;
use std::io::{self, Write};
use std::path::Path;

pub struct Capture {
    file: File,
    packets: u32,
}

/// Which way a datagram goes.
#[derive(Clone, Copy, PartialEq, Eq)]
pub enum Way {
    ToShore,
    ToShip,
}

const RAW_IP: u32 = 101;
const SHIP: [u8; 4] = [192, 0, 2, 1];
const SHORE: [u8; 4] = [192, 0, 2, 2];
const SHIP_PORT: u16 = 40000;
/// The registered port, by which a reader knows WTLS.
const SHORE_PORT: u16 = 9202;

impl Capture {
    pub fn create(path: &Path) -> io::Result<Capture> {
        let mut file = File::create(path)?;
        let words = [0xa1b2c3d4, 0x0002_0004_u32.rotate_left(16), 0, 0, 65535, RAW_IP];
        for word in words {
            file.write_all(&word.to_le_bytes())?;
        }
        Ok(Capture { file, packets: 0 })
    }

    pub fn add(&mut self, way: Way, datagram: &[u8]) -> io::Result<()> {
        let packet = packet(way, datagram);
        let size = packet.len() as u32;
        for word in [self.packets, 0, size, size] {
            self.file.write_all(&word.to_le_bytes())?;
        }
        self.packets += 1;
        self.file.write_all(&packet)
    }
}

/// IPv4 and UDP headers before the datagram; the checksums are left out.
fn packet(way: Way, datagram: &[u8]) -> Vec<u8> {
    let (from, to) = match way {
        Way::ToShore => ((SHIP, SHIP_PORT), (SHORE, SHORE_PORT)),
        Way::ToShip => ((SHORE, SHORE_PORT), (SHIP, SHIP_PORT)),
    };
    let size = 28 + datagram.len() as u16;
    let mut packet = vec![0x45, 0];
    packet.extend(size.to_be_bytes());
    packet.extend([0, 0, 0, 0, 64, 17, 0, 0]);
    packet.extend(from.0);
    packet.extend(to.0);
    for word in [from.1, to.1, size - 20, 0] {
        packet.extend(word.to_be_bytes());
    }
    packet.extend(datagram);
    packet
}
