//! Datagrams that come as short messages: cut into parts that the link loses, repeats, delays and
//! reorders, and messages of strangers between them.

use super::{word, Day};
use crate::damage;
use crate::parts;
use crate::short::{self, Answer, MOST_PARTS};

impl Day<'_> {
    /// The datagram goes out in parts; the link delivers what it likes.
    pub(super) fn by_messages(&mut self, datagram: &[u8]) {
        let parts = self.cut(datagram);
        self.messages.extend(parts);
        while !self.over && self.messages.len() > self.delay {
            self.deliver_message();
        }
    }

    /// Mostly in order; some are lost, some arrive twice, some late.
    fn deliver_message(&mut self) {
        let place = match self.rng.percent(75) {
            true => 0,
            false => self.rng.under(self.messages.len()),
        };
        let message = match self.rng.percent(8) {
            true => self.messages[place].clone(),
            false => self.messages.remove(place),
        };
        if self.rng.percent(95) {
            self.message(&message);
        }
    }

    /// The messages of a datagram: mostly few, the last one often short.
    fn cut(&mut self, datagram: &[u8]) -> Vec<Vec<u8>> {
        let most = usize::from(MOST_PARTS);
        let many = self.rng.between(4, most);
        let total = self.rng.weigh(&[(4, 1), (8, 2), (5, 3), (2, many)]);
        self.reference = self.reference.wrapping_add(1);
        let each = datagram.len().div_ceil(total).max(1);
        let mut cuts: Vec<usize> = (0..=total).map(|i| (i * each).min(datagram.len())).collect();
        if self.rng.percent(30) {
            (1..total).for_each(|i| cuts[i] = self.rng.under(datagram.len() + 1));
            cuts.sort_unstable();
        }
        let ports = self.rng.bytes(4);
        let mut messages = Vec::new();
        for place in 1..=total {
            let concatenated = total > 1 || self.rng.percent(30);
            let place_element = vec![0, 3, self.reference, total as u8, place as u8];
            let mut elements = vec![[vec![5, 4], ports.clone()].concat()];
            if concatenated {
                elements.push(place_element);
            }
            if self.rng.percent(10) {
                let other = self.rng.pick(&[
                    &[1, 2, 0, 0][..],
                    &[4, 2, 9, 9],
                    &[8, 4, 0, 1, 2, 1],
                    &[0x70, 0],
                ]);
                let at = self.rng.under(elements.len() + 1);
                elements.insert(at, other.to_vec());
            }
            let header = elements.concat();
            let part = &datagram[cuts[place - 1]..cuts[place]];
            messages.push([&[header.len() as u8], &header[..], part].concat());
        }
        messages
    }

    /// Lends a message to the shore; the unit hears the reply unless it is lost. Where a new
    /// reference finds no room, mostly one that waits is dropped.
    fn message(&mut self, message: &[u8]) {
        let random = self.random();
        let room = self.rng.weigh(&[(8, 128), (1, 129), (1, 2048)]);
        self.message_with(message, &random, room);
        let waiting = self.model.gathering().waiting();
        if waiting.len() == short::MOST_REFERENCES && self.rng.percent(50) {
            let reference = self.rng.pick(&waiting).0;
            self.call(format!("drop {reference}").into_bytes());
        }
    }

    fn message_with(&mut self, message: &[u8], random: &[u8], room: usize) {
        let shown = match random.len() == 16 && room >= 128 {
            true => self.model.gathering().clone().message(message),
            false => Answer::Refused(16),
        };
        let line = format!("message {} {} {room}", word(message), word(random));
        let out = self.call(line.into_bytes());
        self.came.push(message.to_vec());
        if self.came.len() > 40 {
            self.came.remove(0);
        }
        match shown {
            Answer::Received { start, .. } => self.took(&message[start..], out),
            Answer::Gathered { datagram, .. } => self.took(&datagram, out),
            Answer::Refused(_) | Answer::Waiting { .. } => {}
        }
    }

    /// A message that nobody would send, or a mistake of the caller.
    pub(super) fn odd_message(&mut self) {
        let datagram = self.some_datagram();
        let one = self.one_message(&datagram);
        let other = self.one_message(&datagram);
        match self.rng.under(12) {
            0 => {
                let reference = self.rng.byte();
                self.call(format!("drop {reference}").into_bytes());
            }
            1 => self.odd_lent(&one),
            2 => {
                let message = damage::damaged(&mut self.rng, &one, &other);
                self.message(&message);
            }
            3 | 4 => {
                let message = parts::in_header(&mut self.rng, one);
                self.message(&message);
            }
            5 => {
                let message = damage::garbage(&mut self.rng);
                self.message(&message);
            }
            6 | 7 if !self.came.is_empty() => {
                let message = self.rng.pick(&self.came);
                self.message(&message);
            }
            8 => self.other_bytes(),
            9 => self.long_part(),
            10 => self.strange_datagram(),
            _ => self.message(&one),
        }
    }

    /// One of the messages that a datagram is cut into.
    fn one_message(&mut self, datagram: &[u8]) -> Vec<u8> {
        let messages = self.cut(datagram);
        self.rng.pick(&messages)
    }

    /// A random or a room out of range.
    fn odd_lent(&mut self, message: &[u8]) {
        let random = self.rng.weigh(&[(4, 16), (1, 0), (1, 15), (1, 17)]);
        let random = self.rng.bytes(random);
        let room = self.rng.weigh(&[(2, 127), (1, 0), (1, 128)]);
        self.message_with(message, &random, room);
    }

    /// A reference that waits, with another total, or other bytes in any of its places.
    fn other_bytes(&mut self) {
        let waiting = self.model.gathering().waiting();
        if waiting.is_empty() {
            return;
        }
        let (reference, _, total) = self.rng.pick(&waiting);
        let total = if self.rng.percent(30) { self.rng.between(1, 11) as u8 } else { total };
        let place = self.rng.between(1, usize::from(total)) as u8;
        let length = self.rng.under(6);
        let part = self.rng.bytes(length);
        let header = [11, 5, 4, 0, 1, 0, 2, 0, 3, reference, total, place];
        self.message(&[&header[..], &part].concat());
    }

    /// Parts that together have about 1,400 bytes, or a part alone that has more.
    fn long_part(&mut self) {
        let (first, second) =
            self.rng.pick(&[(700, 700), (700, 701), (1400, 0), (1400, 1), (1401, 0), (1399, 1)]);
        self.reference = self.reference.wrapping_add(1);
        let reference = self.reference;
        for (place, length) in [(1, first), (2, second)] {
            let header = [11, 5, 4, 0, 1, 0, 2, 0, 3, reference, 2, place];
            self.message(&[&header[..], &vec![0x44; length]].concat());
        }
    }

    /// A datagram that is refused as a whole, in one message or gathered: the reference is free.
    fn strange_datagram(&mut self) {
        let datagram = damage::garbage(&mut self.rng);
        for message in self.cut(&datagram) {
            self.message(&message);
        }
    }
}
