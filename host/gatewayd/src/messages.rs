//! Short messages. Each UDP datagram at this address is the user data of one, as a relay of a short-message centre passes them
//! on. The library gathers them, and the datagram that a message shows is taken as any other; what goes back to a relay goes as one
//! message, with the ports exchanged. Nothing of this is stored: what was gathered and not finished is lost in a crash, as the link
//! may lose it.

use crate::inbox::Inbox;
use crate::note::Note;
use crate::socket::{Datagram, Socket};
use crate::way::Way;
use gateway::{Gatherer, Held, Ports};
use std::collections::HashMap;
use std::io;
use std::net::SocketAddr;
use std::time::{Duration, Instant};

pub struct Messages {
    socket: Socket,
    inbox: Inbox,
    is_closed: bool,
    relays: Relays,
}

/// Who has sent messages, each with its own gatherer.
pub struct Relays {
    known: HashMap<SocketAddr, Relay>,
    gather_for: Duration,
}

struct Relay {
    gatherer: Gatherer,
    /// Since when the references wait that it holds.
    since: HashMap<u8, Instant>,
    /// Of its last message.
    ports: Ports,
    heard: Instant,
}

/// What has come: the datagrams that messages show, and what to log of whom.
#[derive(Default)]
pub struct Shown {
    pub run: Vec<Datagram>,
    pub notes: Vec<(SocketAddr, Note)>,
}

/// A gatherer and its assembly buffer are 7,100 bytes. Beyond so many, who was heard longest ago is forgotten.
const MOST_RELAYS: usize = 1024;

impl Messages {
    pub fn open(socket: Socket, gather_for: Duration) -> io::Result<Messages> {
        let inbox = Inbox::open(&socket)?;
        Ok(Messages { socket, inbox, is_closed: false, relays: Relays::new(gather_for) })
    }

    /// How many messages the system has dropped.
    pub fn dropped(&self) -> u64 {
        self.inbox.dropped()
    }

    pub fn into_socket(self) -> Socket {
        self.socket
    }

    pub fn address(&self) -> io::Result<SocketAddr> {
        self.socket.address()
    }

    /// What has come, up to about so many messages; waits for none. Once it is closed, all.
    pub fn next(&mut self, most: usize) -> io::Result<Shown> {
        let mut shown = Shown::default();
        loop {
            let (now, messages) = (Instant::now(), self.inbox.poll(most)?);
            if messages.is_empty() {
                return Ok(shown);
            }
            for Datagram { way, bytes } in messages {
                self.relays.take(way, &bytes, now, &mut shown);
            }
            if !self.is_closed {
                return Ok(shown);
            }
        }
    }

    /// Sends a datagram as a message, if it is for a relay; else says so.
    pub fn send(&self, way: Way, datagram: &[u8]) -> Option<io::Result<()>> {
        let message = self.relays.message(way.sender, datagram)?;
        Some(self.socket.send(way, &message))
    }

    /// No more is received. What was received still waits to be taken.
    pub fn close(&mut self) {
        self.inbox.close();
        self.is_closed = true;
    }
}

impl Relays {
    pub fn new(gather_for: Duration) -> Relays {
        Relays { known: HashMap::new(), gather_for }
    }

    /// Takes one message.
    pub fn take(&mut self, way: Way, message: &[u8], now: Instant, shown: &mut Shown) {
        let gather_for = self.gather_for;
        let relay = self.relay(way.sender, now);
        for held in relay.drop_old(gather_for, now) {
            let Held { have, total, .. } = held;
            shown.notes.push((way.sender, Note::GatheringDropped { have, total }));
        }
        match relay.gatherer.gather(message) {
            Err(refusal) => shown.notes.push((way.sender, Note::MessageRefused { refusal })),
            Ok(gathered) => {
                relay.ports = gathered.ports();
                let datagram = gathered.datagram().map(<[u8]>::to_vec);
                shown.run.extend(datagram.map(|bytes| Datagram { way, bytes }));
            }
        }
        relay.note_held(now);
    }

    /// A datagram for a relay as one message: the ports of its last one, exchanged.
    pub fn message(&self, to: SocketAddr, datagram: &[u8]) -> Option<Vec<u8>> {
        let Ports { destination, originator } = self.known.get(&to)?.ports;
        let (to, from) = (originator.to_be_bytes(), destination.to_be_bytes());
        Some([&[6, 5, 4], &to[..], &from[..], datagram].concat())
    }

    fn relay(&mut self, sender: SocketAddr, now: Instant) -> &mut Relay {
        if !self.known.contains_key(&sender) && self.known.len() >= MOST_RELAYS {
            let oldest = self.known.iter().min_by_key(|(_, relay)| relay.heard);
            if let Some(oldest) = oldest.map(|(address, _)| *address) {
                self.known.remove(&oldest);
            }
        }
        let relay = self.known.entry(sender).or_insert_with(|| Relay {
            gatherer: Gatherer::new(),
            since: HashMap::new(),
            ports: Ports { destination: 0, originator: 0 },
            heard: now,
        });
        relay.heard = now;
        relay
    }
}

impl Relay {
    /// Drops what has waited for too long, and gives it.
    fn drop_old(&mut self, gather_for: Duration, now: Instant) -> Vec<Held> {
        let is_old = |held: &Held| {
            let since = self.since.get(&held.reference).copied().unwrap_or(now);
            now.saturating_duration_since(since) > gather_for
        };
        let old: Vec<Held> = self.gatherer.held().into_iter().filter(is_old).collect();
        for held in &old {
            self.gatherer.drop_reference(held.reference);
            self.since.remove(&held.reference);
        }
        old
    }

    /// Notes since when each reference waits; one that ended is forgotten, and begins anew.
    fn note_held(&mut self, now: Instant) {
        let held = self.gatherer.held();
        self.since.retain(|reference, _| held.iter().any(|held| held.reference == *reference));
        for held in held {
            self.since.entry(held.reference).or_insert(now);
        }
    }
}

#[cfg(test)]
mod tests {
    use super::*;

    const LIMIT: Duration = Duration::from_secs(300);

    fn part(reference: u8, total: u8, place: u8, bytes: &[u8]) -> Vec<u8> {
        [&[11, 5, 4, 0x23, 0xf0, 0xc0, 1, 0, 3, reference, total, place], bytes].concat()
    }

    fn from(port: u16) -> Way {
        Way { sender: ([192, 0, 2, 7], port).into(), ours: None }
    }

    /// The datagrams and the notes of one message.
    fn took(relays: &mut Relays, way: Way, message: &[u8], now: Instant) -> (Vec<Vec<u8>>, usize) {
        let mut shown = Shown::default();
        relays.take(way, message, now, &mut shown);
        (shown.run.into_iter().map(|datagram| datagram.bytes).collect(), shown.notes.len())
    }

    #[test]
    fn parts_of_each_sender_are_gathered_apart() {
        let (mut relays, now) = (Relays::new(LIMIT), Instant::now());
        assert_eq!(took(&mut relays, from(1), &part(7, 2, 2, b"b"), now), (vec![], 0));
        assert_eq!(took(&mut relays, from(2), &part(7, 2, 1, b"x"), now), (vec![], 0));
        assert_eq!(
            took(&mut relays, from(1), &part(7, 2, 1, b"a"), now),
            (vec![b"ab".to_vec()], 0)
        );
        assert_eq!(took(&mut relays, from(1), &[6, 5, 4, 0, 1, 0, 2, 9], now), (vec![vec![9]], 0));
        assert_eq!(took(&mut relays, from(1), b"no header", now), (vec![], 1));
    }

    #[test]
    fn replies_have_the_ports_exchanged() {
        let (mut relays, now) = (Relays::new(LIMIT), Instant::now());
        assert_eq!(relays.message(from(1).sender, b"x"), None);
        took(&mut relays, from(1), &part(7, 2, 2, b"b"), now);
        let message = relays.message(from(1).sender, b"x").unwrap();
        assert_eq!(message, [6, 5, 4, 0xc0, 1, 0x23, 0xf0, b'x']);
    }

    /// Four leftovers leave no room, until they have waited for too long; what is gathered in time is not dropped.
    #[test]
    fn leftovers_are_dropped() {
        let (mut relays, now) = (Relays::new(LIMIT), Instant::now());
        for reference in 0..4 {
            assert_eq!(took(&mut relays, from(1), &part(reference, 2, 1, b"l"), now), (vec![], 0));
        }
        let later = now + LIMIT;
        assert_eq!(took(&mut relays, from(1), &part(9, 2, 1, b"a"), later), (vec![], 1));
        let later = later + Duration::from_millis(1);
        assert_eq!(took(&mut relays, from(1), &part(9, 2, 1, b"a"), later), (vec![], 4));
        let still = later + LIMIT;
        assert_eq!(
            took(&mut relays, from(1), &part(9, 2, 2, b"b"), still),
            (vec![b"ab".to_vec()], 0)
        );
        // The same reference again: it waits from now on.
        assert_eq!(took(&mut relays, from(1), &part(9, 2, 2, b"b"), still), (vec![], 0));
        assert_eq!(
            took(&mut relays, from(1), &part(9, 2, 1, b"c"), still + LIMIT),
            (vec![b"cb".to_vec()], 0)
        );
    }

    #[test]
    fn who_was_heard_longest_ago_is_forgotten() {
        let (mut relays, now) = (Relays::new(LIMIT), Instant::now());
        for port in 0..=MOST_RELAYS as u16 {
            let then = now + Duration::from_millis(port.into());
            took(&mut relays, from(port), &part(1, 2, 1, b"l"), then);
        }
        assert_eq!(relays.known.len(), MOST_RELAYS);
        assert!(relays.message(from(0).sender, b"x").is_none());
        assert!(relays.message(from(1).sender, b"x").is_some());
    }
}
