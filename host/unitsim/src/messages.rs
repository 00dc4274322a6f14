//! The short-message bearer: a datagram in up to eleven messages, and the gathering of them as the gateway must do it, the dropping
//! of what has waited for too long included.

use peer::short::{self, Answer, Gathering, Ports};
use std::collections::BTreeMap;
use std::thread;
use std::time::{Duration, Instant};

pub struct Messages {
    gathering: Gathering,
    /// Since when the references wait that are held.
    since: BTreeMap<u8, Instant>,
    gather_for: Duration,
    /// The ports of the messages that the gateway has taken.
    ports: Vec<(u16, u16)>,
    reference: u8,
}

/// The user data of a short message.
const MOST: usize = 140;
const OURS: u16 = 49_153;
const THEIRS: u16 = 9_202;
/// A header with ports, and one with a place among parts, too.
const ALONE: usize = 7;
const PART: usize = 12;
/// The gateway counts from when it took a message, we from when we sent it.
const APART: Duration = Duration::from_millis(400);

impl Messages {
    pub fn new(gather_for: Duration) -> Messages {
        Messages {
            gathering: Gathering::default(),
            since: BTreeMap::new(),
            gather_for,
            ports: Vec::new(),
            reference: 0,
        }
    }

    /// The messages of a datagram, each datagram under a reference of its own.
    pub fn split(&mut self, datagram: &[u8]) -> Vec<Vec<u8>> {
        let (to, from) = (THEIRS.to_be_bytes(), OURS.to_be_bytes());
        let ports = [&[5, 4], &to[..], &from[..]].concat();
        if datagram.len() <= MOST - ALONE {
            return vec![[&[6], &ports[..], datagram].concat()];
        }
        let parts: Vec<&[u8]> = datagram.chunks(MOST - PART).collect();
        self.reference = self.reference.wrapping_add(1);
        let head = |place: usize| [11, 0, 3, self.reference, parts.len() as u8, place as u8 + 1];
        let message = |(place, part): (usize, &&[u8])| [&head(place), &ports[..], part].concat();
        parts.iter().enumerate().map(message).collect()
    }

    /// Before a message goes out: where nobody can say whether the gateway finds a gathering too old, time passes until it must;
    /// and then it drops it.
    pub fn settle(&mut self) {
        for (reference, _, _) in self.gathering.waiting() {
            let since = *self.since.entry(reference).or_insert_with(Instant::now);
            if since.elapsed() + APART > self.gather_for {
                thread::sleep((self.gather_for + APART).saturating_sub(since.elapsed()));
                self.gathering.drop_reference(reference);
            }
        }
        self.note_held();
    }

    /// The datagram that a message shows.
    pub fn take(&mut self, message: &[u8]) -> Option<Vec<u8>> {
        let answer = self.gathering.message(message);
        self.note_held();
        let (ports, shown) = match answer {
            Answer::Refused(_) => return None,
            Answer::Waiting { ports, .. } => (ports, None),
            Answer::Received { ports, start } => (ports, Some(message[start..].to_vec())),
            Answer::Gathered { ports, datagram } => (ports, Some(datagram)),
        };
        self.ports.push((ports.destination, ports.originator));
        shown
    }

    /// The datagram of a message from the gateway: one message, with the ports of one of ours exchanged.
    pub fn hear(&self, message: &[u8]) -> Result<Vec<u8>, String> {
        let header = short::header(message).ok_or("the gateway's message has no sound header")?;
        let Ports { destination, originator } = header.ports;
        if header.concatenation.is_some() || message.len() > MOST {
            return Err("the gateway's answer is not one message".to_string());
        }
        if !self.ports.contains(&(originator, destination)) {
            return Err("the gateway's message has other ports".to_string());
        }
        Ok(message[header.start..].to_vec())
    }

    fn note_held(&mut self) {
        let held = self.gathering.waiting();
        self.since.retain(|reference, _| held.iter().any(|held| held.0 == *reference));
        for (reference, _, _) in held {
            self.since.entry(reference).or_insert_with(Instant::now);
        }
    }
}

#[cfg(test)]
mod tests {
    use super::*;

    #[test]
    fn what_is_split_is_gathered() {
        let mut messages = Messages::new(Duration::from_secs(9));
        for size in [1, 133, 134, 256, 1300, 1400] {
            let datagram: Vec<u8> = (0..size).map(|place| place as u8).collect();
            let mut parts = messages.split(&datagram);
            assert!(parts.len() <= 11 && parts.iter().all(|part| part.len() <= MOST));
            parts.reverse();
            let shown: Vec<_> = parts.iter().filter_map(|part| messages.take(part)).collect();
            assert_eq!(shown, [datagram]);
        }
        let answer = [&[6, 5, 4, 0xc0, 1, 0x23, 0xf2][..], b"x"].concat();
        assert_eq!(messages.hear(&answer), Ok(b"x".to_vec()));
        assert!(messages.hear(&[6, 5, 4, 0x23, 0xf2, 0xc0, 1, 9]).is_err());
    }
}
