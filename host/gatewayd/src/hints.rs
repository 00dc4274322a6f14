//! no_connection (002 10.2): a hint to a sender whose datagram no ship took that its unit should
//! say hello again. It is clear, so it proves nothing, and nobody need believe it.

use crate::throttle::Throttle;
use crate::way;
use std::hash::{BuildHasher, RandomState};
use std::net::SocketAddr;
use std::time::{Duration, Instant};

pub struct Hints {
    /// Hosts fall into a fixed number of places, so strangers cannot make it grow.
    throttle: Throttle<u64>,
    hasher: RandomState,
}

const PLACES: u64 = 1024;
/// Clear alert, number 65,535, no length; critical, no_connection.
const HEAD: [u8; 5] = [0x42, 0xff, 0xff, 2, 5];
const SIZE: usize = 9;

impl Hints {
    pub fn new(every: Duration) -> Hints {
        Hints { throttle: Throttle::new(every), hasher: RandomState::new() }
    }

    /// The alert that answers a record, if its sender's host has had none for a while. It is never
    /// larger than the record.
    pub fn answer(&mut self, sender: SocketAddr, record: &[u8], now: Instant) -> Option<Vec<u8>> {
        if record.len() < SIZE {
            return None;
        }
        let place = self.hasher.hash_one(way::host(sender)) % PLACES;
        self.throttle.pass(place, now)?;
        Some([&HEAD[..], &checksum(record)].concat())
    }
}

/// The record's blocks of four bytes, padded with zeros, by exclusive or.
fn checksum(record: &[u8]) -> [u8; 4] {
    let mut sum = [0; 4];
    for (place, byte) in record.iter().enumerate() {
        sum[place % 4] ^= byte;
    }
    sum
}

#[cfg(test)]
mod tests {
    use super::*;

    #[test]
    fn one_hint_to_a_host_in_a_time_and_a_small_one() {
        let mut hints = Hints::new(Duration::from_secs(60));
        let sender = SocketAddr::from(([192, 0, 2, 1], 4000));
        let other_port = SocketAddr::from(([192, 0, 2, 1], 4001));
        let now = Instant::now();
        let record = [0x64, 0, 9, 1, 2, 3, 4, 5, 6, 7];
        assert_eq!(hints.answer(sender, &record[..8], now), None);
        let hint = hints.answer(sender, &record, now).unwrap();
        assert!(hint.len() <= record.len());
        let alert = peer::alert::read(&hint[3..]).unwrap();
        assert_eq!((alert.description, alert.checksum), (5, peer::alert::checksum(&record)));
        assert_eq!(&hint[..4], [0x42, 0xff, 0xff, 2]);
        assert_eq!(hints.answer(other_port, &record, now), None);
        assert!(hints.answer(sender, &record, now + Duration::from_secs(60)).is_some());
        for n in 0..100_000_u32 {
            hints.answer((n.to_be_bytes(), 1).into(), &record, now);
        }
        assert!(hints.throttle.untold().count() <= PLACES as usize);
    }
}
