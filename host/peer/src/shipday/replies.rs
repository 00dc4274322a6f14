//! What answers a hello on a random day: replies whole, in parts, out of order, repeated, forged and
//! left over from earlier hellos.

use super::Day;
use crate::hello::ServerHello;
use crate::keys::Kind;
use crate::wire::Content;

/// The whole of a HelloRequest, and what only begins like one.
const REQUESTS: [&[u8]; 6] = [&[0, 0, 0], &[0], &[0, 0], &[0, 0, 1], &[0, 0, 0, 0], &[0, 0, 1, 0]];

impl Day<'_> {
    /// An acceptable ServerHello to the last hello: a kind that was offered, a refresh of at most the
    /// offered.
    fn acceptable(&mut self) -> ServerHello {
        let (suites, most) = match self.coast.hello() {
            Some(hello) => (hello.suites.clone(), hello.refresh),
            None => (vec![[0, 2]], 3),
        };
        let suite = self.rng.pick(&suites);
        let kind = Kind::assigned(suite[1]).unwrap_or(Kind::Sha);
        let less = self.rng.between(0, usize::from(most)) as u8;
        let refresh = self.rng.weigh(&[(5, most), (1, less), (1, 0)]);
        let random = self.rng.bytes(16);
        self.coast.plain(&random, &self.session, kind, refresh)
    }

    fn remember(&mut self, message: &[u8]) {
        self.server_hellos.push(message.to_vec());
        if self.server_hellos.len() > 8 {
            self.server_hellos.remove(0);
        }
    }

    /// A new ServerHello, or again one that was said to this or to an earlier hello.
    fn some_server_hello(&mut self) -> Vec<u8> {
        if !self.server_hellos.is_empty() && self.rng.percent(15) {
            return self.rng.pick(&self.server_hellos);
        }
        let message = self.acceptable().message();
        self.remember(&message);
        message
    }

    /// The reply as the shore writes it.
    pub(super) fn reply(&mut self) {
        let message = self.some_server_hello();
        match self.coast.reply(&message) {
            Some(reply) => self.receive(&reply),
            None => self.server_hello(),
        }
    }

    /// The three records of a reply, each with a length, the clear ones under any number.
    fn parts(&mut self, message: &[u8]) -> Vec<Vec<u8>> {
        let (one, other) = (self.rng.draw() as u16, self.rng.draw() as u16);
        let number = self.rng.weigh(&[(4, 0), (1, 1), (1, one), (1, 65535)]);
        let server_hello = self.coast.clear(Content::Handshake, true, one, message);
        let change = self.coast.clear(Content::ChangeCipherSpec, true, other, &[1]);
        let mut parts = vec![server_hello, change];
        if let Some(connection) = self.coast.connection_of(message) {
            parts.push(connection.protect(Content::Handshake, true, number, &connection.finished));
        }
        parts
    }

    /// A reply otherwise than the shore writes it.
    pub(super) fn odd_reply(&mut self) {
        let message = self.some_server_hello();
        let mut parts = self.parts(&message);
        match self.rng.under(12) {
            0 => parts.swap(0, 1),
            1 => parts.rotate_left(1),
            2 => parts.reverse(),
            3 => parts.extend(self.parts(&message)),
            4 => parts.insert(1, self.coast.clear(Content::Handshake, true, 9, &[0, 0, 0])),
            5 => parts.insert(0, self.coast.clear(Content::Handshake, true, 9, &[0, 0, 0])),
            6 => {
                let extra = self.clear_record(true);
                let place = self.rng.under(parts.len() + 1);
                parts.insert(place, extra);
            }
            7 => {
                // The last bytes are the code of the Finished.
                if let Some(byte) = parts.last_mut().and_then(|last| last.last_mut()) {
                    *byte ^= 1;
                }
            }
            8 => self.wrong_finished_in(&message, &mut parts),
            9 => {
                parts.truncate(2);
                parts.extend(self.protected_request_of(&message));
            }
            10 => parts.extend(self.behind_finished(&message)),
            _ => {}
        }
        self.receive(&parts.concat());
    }

    /// Well formed and genuine, with one bit of its data wrong, or of the unit's label.
    fn wrong_finished_in(&mut self, message: &[u8], parts: &mut Vec<Vec<u8>>) {
        let Some(connection) = self.coast.connection_of(message) else { return };
        let mut finished = connection.finished.clone();
        finished[self.rng.between(3, 14)] ^= 1 << self.rng.under(8);
        if self.rng.percent(30) {
            finished = connection.mislabelled.clone();
        }
        parts.truncate(2);
        parts.push(connection.protect(Content::Handshake, true, 0, &finished));
    }

    /// A HelloRequest under the keys of this ServerHello, then its Finished.
    fn protected_request_of(&mut self, message: &[u8]) -> Vec<Vec<u8>> {
        let Some(connection) = self.coast.connection_of(message) else { return Vec::new() };
        let request = self.rng.pick(&REQUESTS);
        vec![
            connection.protect(Content::Handshake, true, 3, request),
            connection.protect(Content::Handshake, true, 4, &connection.finished),
        ]
    }

    /// Data, or an alert that ends all, in the datagram of the reply.
    fn behind_finished(&mut self, message: &[u8]) -> Vec<Vec<u8>> {
        let Some(connection) = self.coast.connection_of(message) else { return Vec::new() };
        let alert = |level: u8, description: u8| vec![level, description, 1, 2, 3, 4];
        let (content, bytes) = self.rng.pick(&[
            (Content::Data, vec![7; 5]),
            (Content::Data, vec![7; 50]),
            (Content::Data, Vec::new()),
            (Content::Alert, alert(1, 57)),
            (Content::Alert, alert(1, 90)),
            (Content::Alert, alert(2, 0)),
            (Content::Alert, alert(3, 80)),
        ]);
        let first = connection.protect(content, true, 1, &bytes);
        let second = connection.protect(Content::Data, true, 2, &[8; 4]);
        vec![first, second]
    }

    /// A ServerHello alone; what belongs to it may follow later.
    pub(super) fn server_hello(&mut self) {
        let message = self.some_server_hello();
        let (with_length, number) = (self.rng.percent(50), self.rng.draw() as u16);
        let datagram = self.coast.clear(Content::Handshake, with_length, number, &message);
        self.receive(&datagram);
    }

    /// Change cipher spec and Finished to the ServerHello that the ship goes by.
    pub(super) fn rest_of_the_reply(&mut self) {
        let Some(connection) = self.coast.connection() else { return self.server_hello() };
        let message = connection.server_hello.clone();
        let mut parts = self.parts(&message);
        parts.remove(0);
        self.receive(&parts.concat());
    }

    /// What answered an earlier hello, as it was.
    pub(super) fn old_reply(&mut self) {
        let old: Vec<Vec<u8>> =
            self.arrived.iter().filter(|datagram| datagram.starts_with(&[0xc3])).cloned().collect();
        match old.is_empty() {
            true => self.server_hello(),
            false => {
                let datagram = self.rng.pick(&old);
                self.receive(&datagram);
            }
        }
    }

    /// A ServerHello that is not acceptable, or malformed, or both; at times with the rest of a reply.
    pub(super) fn wrong_server_hello(&mut self) {
        let mut hello = self.acceptable();
        let message = match self.rng.weigh(&[(50, 0), (40, 1), (10, 2)]) {
            0 => {
                self.refuse(&mut hello);
                hello.message()
            }
            1 => self.malformed(hello),
            _ => {
                self.refuse(&mut hello);
                self.malformed(hello)
            }
        };
        let number = self.rng.draw() as u16;
        let with_length = self.rng.percent(50);
        let mut datagram = self.coast.clear(Content::Handshake, with_length, number, &message);
        if with_length && self.rng.percent(40) {
            let parts = self.parts(&message);
            datagram.extend(parts[1..].concat());
        }
        self.receive(&datagram);
    }

    /// Well formed, not acceptable.
    fn refuse(&mut self, hello: &mut ServerHello) {
        let offered: Vec<u8> = match self.coast.hello() {
            Some(hello) => hello.suites.iter().map(|suite| suite[1]).collect(),
            None => Vec::new(),
        };
        match self.rng.under(7) {
            0 => hello.version = self.rng.pick(&[0, 2, 3, 255]),
            1 => match self.rng.under(3) {
                0 => hello.session.clear(),
                1 => hello.session.truncate(self.rng.under(8)),
                _ => hello.session[self.rng.under(8)] ^= 1 << self.rng.under(8),
            },
            2 => hello.client_key = self.rng.pick(&[1, 2, 255]),
            3 => {
                let other: Vec<u8> = [2, 3].into_iter().filter(|m| !offered.contains(m)).collect();
                let any = self.rng.pick(&[0, 1, 4, 5, 7, 255]);
                hello.suite[1] = other.first().copied().unwrap_or(any);
                if self.rng.percent(30) {
                    hello.suite = [self.rng.pick(&[1, 3, 255]), self.rng.pick(&[2, 3])];
                }
            }
            4 => hello.compression = self.rng.pick(&[1, 2, 255]),
            5 => hello.numbering = self.rng.pick(&[0, 1, 3, 255]),
            _ => hello.refresh = self.rng.weigh(&[(2, hello.refresh.saturating_add(1)), (1, 255)]),
        }
    }

    /// Malformed in one way. Some ways only look malformed, which the model must see.
    fn malformed(&mut self, mut hello: ServerHello) -> Vec<u8> {
        let mut message = hello.message();
        match self.rng.under(6) {
            0 => {
                hello.session.extend(self.rng.bytes(1));
                message = hello.message();
            }
            1 => message.truncate(self.rng.between(1, message.len() - 1)),
            2 => {
                let extra = self.rng.between(1, 3);
                message.extend(self.rng.bytes(extra));
            }
            3 => {
                let place = self.rng.pick(&[1, 2, 20]);
                message[place] = message[place].wrapping_add(self.rng.pick(&[1, 255, 2, 254]));
            }
            4 => {
                let cut = self.rng.between(3, message.len() - 1);
                message.truncate(cut);
                message[2] = (cut - 3) as u8;
            }
            _ => {
                let place = self.rng.between(3, message.len() - 1);
                message[place] = message[place].wrapping_add(self.rng.pick(&[1, 255]));
            }
        }
        message
    }

    pub(super) fn change_cipher_spec(&mut self) {
        let bytes = self.rng.weigh(&[(16, vec![1]), (1, vec![2]), (1, vec![1, 1]), (1, vec![0])]);
        let (with_length, number) = (self.rng.percent(50), self.rng.draw() as u16);
        let record = self.coast.clear(Content::ChangeCipherSpec, with_length, number, &bytes);
        self.receive(&record);
    }

    /// The shore's Finished by itself, mostly under number 0.
    pub(super) fn finished(&mut self) {
        let next = self.next.min(65535) as u16;
        let any = self.rng.draw() as u16;
        let number = self.rng.weigh(&[(5, 0), (3, next), (1, any), (1, 65535)]);
        let with_length = self.rng.percent(30);
        let Some(connection) = self.coast.connection() else { return self.hello() };
        let message = connection.finished.clone();
        let record = connection.protect(Content::Handshake, with_length, number, &message);
        self.next = self.next.max(u32::from(number) + 1);
        self.receive(&record);
    }

    /// A HelloRequest, or what only begins like one; clear, or under protection where there is one.
    pub(super) fn hello_request(&mut self) {
        let wrong = self.rng.pick(&REQUESTS[1..]);
        let message = self.rng.weigh(&[(3, REQUESTS[0]), (1, wrong)]);
        let with_length = self.rng.percent(40);
        let number = self.number();
        let clear = self.coast.clear(Content::Handshake, with_length, number, message);
        let protected = self.coast.protect(Content::Handshake, with_length, number, message);
        let mut datagram = match (protected, self.rng.percent(50)) {
            (Some(record), true) => record,
            _ => clear,
        };
        if with_length && self.rng.percent(50) {
            datagram.extend(self.clear_record(true));
        }
        self.receive(&datagram);
    }
}
