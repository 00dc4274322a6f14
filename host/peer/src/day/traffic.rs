//! What the unit and the strangers send on a random day.

use super::{clamped, Day};
use crate::damage;
use crate::shapes;
use crate::shore::{Received, Tally};
use crate::wire::Content;

impl Day<'_> {
    pub(super) fn hello(&mut self) {
        let message = shapes::acceptable(&mut self.rng, &self.session).message();
        self.say(&message);
    }

    pub(super) fn wrong_hello(&mut self) {
        let message = shapes::wrong(&mut self.rng, &self.session);
        self.say(&message);
    }

    /// The last hello, or an older one, which then counts as another.
    pub(super) fn resend_hello(&mut self) {
        if self.hellos.is_empty() {
            return self.hello();
        }
        let older = self.rng.pick(&self.hellos);
        let last = self.hellos[self.hellos.len() - 1].clone();
        let message = self.rng.weigh(&[(4, last), (1, older)]);
        self.say(&message);
    }

    pub(super) fn say(&mut self, message: &[u8]) {
        let mut datagram = self.unit.say_hello(message);
        self.hellos.push(message.to_vec());
        if self.rng.percent(20) {
            let number = self.rng.draw() as u16;
            let with_length = self.rng.percent(50);
            datagram = self.unit.clear(Content::Handshake, with_length, number, message);
        }
        if self.rng.percent(4) {
            let front = self.clear_record(true);
            datagram = [front, datagram].concat();
        }
        self.receive(&datagram);
    }

    /// A hello that was heard, with an alert or anything else behind it.
    pub(super) fn resend_hello_and_more(&mut self) {
        let hello = self.unit.last_hello().to_vec();
        let mut datagram = self.unit.clear(Content::Handshake, true, 0, &hello);
        match self.rng.percent(60) {
            true => datagram.extend(self.clear_alert_record(true)),
            false => datagram.extend(self.records()),
        }
        self.receive(&datagram);
    }

    /// A whole handshake and data in one datagram, by a unit that knows the random to be lent.
    pub(super) fn all_at_once(&mut self) {
        let message = shapes::acceptable(&mut self.rng, &self.session).message();
        let random = self.rng.bytes(16);
        let alone = self.unit.say_hello(&message);
        let Some(mut shore) = self.model.shore().cloned() else { return };
        let received = shore.receive(&alone, &random, 128, &mut Tally::default());
        let Received::Records { out: Some(reply), .. } = received else { return };
        self.hear_reply(&alone, &reply);
        let mut datagram = self.unit.clear(Content::Handshake, true, 0, &message);
        datagram.extend(self.unit.clear(Content::ChangeCipherSpec, true, 1, &[1]));
        datagram.extend(self.unit.finished(true, 0).unwrap_or_default());
        self.next = 1;
        datagram.extend(self.records());
        datagram.truncate(1400);
        self.hellos.push(message);
        self.receive_with(&datagram, &random, 128);
    }

    /// Change cipher spec and Finished in one datagram, at times with records behind them.
    pub(super) fn flight(&mut self) {
        if self.rng.percent(70) {
            let Some(flight) = self.unit.flight() else { return self.hello() };
            self.next = self.next.max(1);
            return self.receive(&flight);
        }
        let mut flight = self.unit.clear(Content::ChangeCipherSpec, true, 1, &[1]);
        let number = self.number();
        flight.extend(self.unit.finished(true, number).unwrap_or_default());
        flight.extend(self.records());
        self.receive(&flight);
    }

    pub(super) fn change_cipher_spec(&mut self) {
        let bytes = self.rng.weigh(&[(16, vec![1]), (1, vec![2]), (1, vec![1, 1]), (1, vec![0])]);
        let with_length = self.rng.percent(50);
        let record = self.unit.clear(Content::ChangeCipherSpec, with_length, 1, &bytes);
        self.receive(&record);
    }

    pub(super) fn finished(&mut self) {
        let number = self.rng.weigh(&[(3, 0), (1, clamped(self.next))]);
        let with_length = self.rng.percent(30);
        match self.unit.finished(with_length, number) {
            Some(record) => self.receive(&record),
            None => self.hello(),
        }
    }

    pub(super) fn clear_alert(&mut self) {
        let with_length = self.rng.percent(30);
        let record = self.clear_alert_record(with_length);
        self.receive(&record);
    }

    /// The unit sends a few datagrams; the link delivers what it likes.
    pub(super) fn traffic(&mut self) {
        for _ in 0..self.rng.between(1, 3) {
            let datagram = self.records();
            self.link.push(datagram);
        }
        while !self.over && self.link.len() > self.delay {
            self.deliver();
        }
    }

    /// Mostly in order; some are lost, some arrive twice, some late.
    pub(super) fn deliver(&mut self) {
        if self.link.is_empty() {
            return;
        }
        let place = match self.rng.percent(75) {
            true => 0,
            false => self.rng.under(self.link.len()),
        };
        let datagram = match self.rng.percent(8) {
            true => self.link[place].clone(),
            false => self.link.remove(place),
        };
        if self.rng.percent(93) {
            self.receive(&datagram);
        }
    }

    pub(super) fn replay(&mut self) {
        let datagram = self.some_datagram();
        self.receive(&datagram);
    }

    pub(super) fn damage(&mut self) {
        let (one, other) = (self.some_datagram(), self.some_datagram());
        let datagram = damage::damaged(&mut self.rng, &one, &other);
        self.receive(&datagram);
    }

    pub(super) fn garbage(&mut self) {
        let datagram = damage::garbage(&mut self.rng);
        self.receive(&datagram);
    }

    /// A genuine data record that makes the datagram as large as one may be, or one more.
    pub(super) fn boundary(&mut self) {
        let size = self.rng.pick(&[1399, 1400, 1401]);
        let number = self.number();
        let content = vec![0x5a; size - 3 - self.code_size()];
        let datagram = match self.unit.protect(Content::Data, false, number, &content) {
            Some(record) => record,
            None => vec![0x44; size],
        };
        self.receive(&datagram);
    }

    /// One that arrived, or a new one.
    pub(super) fn some_datagram(&mut self) -> Vec<u8> {
        match self.arrived.is_empty() || self.rng.percent(30) {
            true => self.records(),
            false => self.rng.pick(&self.arrived),
        }
    }
}
