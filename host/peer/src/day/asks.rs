//! A caller who asks why, before it lends a datagram to a receive.

use super::{clamped, word, Day};
use crate::hello;
use crate::shapes;
use crate::shore::State;
use crate::wire::{self, Content};

impl Day<'_> {
    /// Why, for each record of the datagram, and at times for an index that it has not. A datagram
    /// that is refused as a whole has no records: the reason is the same at every index.
    pub(super) fn ask(&mut self, datagram: &[u8], random: &[u8]) {
        let count = wire::frame(datagram).map_or(1, |records| records.len());
        let edition = self.rng.weigh(&[(47, 1), (47, 2), (2, 0), (2, 3), (1, 255), (1, 256)]);
        for index in 0..count {
            self.why(edition, datagram, random, index);
        }
        if self.rng.percent(15) {
            let index = self.rng.pick(&[count, count + 1, 8, 255, 256, 65536, 999_999_999]);
            self.why(edition, datagram, random, index);
        }
    }

    fn why(&mut self, edition: usize, datagram: &[u8], random: &[u8], index: usize) {
        let line = format!("why {edition} {} {} {index}", word(datagram), word(random));
        self.call(line.into_bytes());
    }

    /// More often in the states that are soon left.
    pub(super) fn is_worth_asking(&mut self) -> bool {
        let chance = match (self.state(), self.started()) {
            (State::Spec | State::Barred, _) | (_, Some(_)) => 30,
            _ => 8,
        };
        self.rng.percent(chance)
    }

    /// What ordinary days seldom hold: hellos wrong in two ways, of any length or cut at any field,
    /// with no pair that would do; and content of every small size.
    pub(super) fn worth_asking(&mut self) {
        match self.rng.under(10) {
            0 => self.cut_hello(),
            1 => self.records_under_used_numbers(),
            2..=3 => self.two_conditions(),
            4 if self.rng.percent(20) => self.cut_records(),
            4 => self.wrong_pairs(),
            5 if self.state() == State::Spec => self.a_wrong_finished(),
            5..=7 => self.small_content(),
            _ => self.clear_small_content(),
        }
    }

    /// A hello whose body ends early; its length says so.
    fn cut_hello(&mut self) {
        let message = shapes::acceptable(&mut self.rng, &self.session).message();
        let end = self.rng.between(3, message.len());
        let mut body = message[3..end].to_vec();
        if self.rng.percent(10) {
            body.push(self.rng.byte());
        }
        self.say_strange(&hello::message(1, &body));
    }

    /// Two conditions that fail, or one: the first is the one that is named.
    fn two_conditions(&mut self) {
        let mut hello = shapes::acceptable(&mut self.rng, &self.session);
        for _ in 0..2 {
            match self.rng.under(5) {
                0 => hello.version = self.rng.byte(),
                1 => hello.session.truncate(self.rng.under(9)),
                2 => hello.suites = vec![0, self.rng.byte()],
                3 => hello.compressions = vec![self.rng.byte()],
                _ => hello.numbering = self.rng.byte(),
            }
        }
        self.say_strange(&hello.message());
    }

    /// Pairs of listed and unlisted MAC kinds, none of them with the null cipher and SHA_80 or SHA.
    fn wrong_pairs(&mut self) {
        let mut hello = shapes::acceptable(&mut self.rng, &self.session);
        let any = self.rng.byte();
        hello.suites = (0..self.rng.between(1, 12))
            .flat_map(|_| match self.rng.percent(50) {
                true => [0, self.rng.pick(&[0, 1, 4, 4, 5, 6, 7, 8, 255])],
                false => [self.rng.pick(&[1, 2, 3, 255, any.max(1)]), self.rng.under(10) as u8],
            })
            .collect();
        self.say_strange(&hello.message());
    }

    /// A Finished with wrong contents, under a number of its own.
    fn a_wrong_finished(&mut self) {
        let message = self.wrong_finished();
        let number = self.number();
        if let Some(record) = self.unit.protect(Content::Handshake, false, number, &message) {
            self.receive(&record);
        }
    }

    /// At times a record, then one that is empty or whose header is cut.
    fn cut_records(&mut self) {
        let mut datagram = match self.rng.percent(70) {
            true => self.clear_record(true),
            false => Vec::new(),
        };
        let second = [0xc4, 0, 1, 0, 0, 7];
        let end = self.rng.between(1, 6);
        datagram.extend(match self.rng.percent(50) {
            true => &second[..end],
            false => &[0x44, 0, 1][..end.min(3)],
        });
        self.receive(&datagram);
    }

    fn say_strange(&mut self, message: &[u8]) {
        let number = self.rng.draw() as u16;
        let with_length = self.rng.percent(30);
        let datagram = self.unit.clear(Content::Handshake, with_length, number, message);
        self.receive(&datagram);
    }

    /// Under protection, content of every small size.
    fn small_content(&mut self) {
        if self.rng.percent(50) {
            self.speak_as_started();
        }
        let (content, bytes) = self.any_small();
        let number = self.number();
        if let Some(record) = self.unit.protect(content, false, number, &bytes) {
            self.receive(&record);
        }
    }

    /// The next number, then the same again, and one that is too old then.
    fn records_under_used_numbers(&mut self) {
        use Content::*;
        if self.rng.percent(70) {
            self.speak_as_started();
        }
        let next = clamped(self.next.saturating_add(70));
        for number in [next, next, next.saturating_sub(64)] {
            let content = self.rng.pick(&[ChangeCipherSpec, Alert, Alert, Handshake, Handshake]);
            let bytes = match content {
                Handshake => self.wrong_message(),
                _ => self.unit.alert(1, 90),
            };
            if let Some(record) = self.unit.protect(content, false, number, &bytes) {
                self.receive(&record);
            }
        }
        self.next = u32::from(next) + 1;
    }

    fn clear_small_content(&mut self) {
        let (content, bytes) = self.any_small();
        if !bytes.is_empty() {
            let datagram = self.unit.clear(content, true, 5, &bytes);
            self.receive(&datagram);
        }
    }

    fn any_small(&mut self) -> (Content, Vec<u8>) {
        use Content::*;
        let content = self.rng.pick(&[ChangeCipherSpec, Alert, Alert, Handshake, Handshake]);
        let size = self.rng.weigh(&[(4, 6), (2, 1), (2, 0), (2, 2), (1, 3), (1, 7), (1, 15)]);
        let mut bytes = self.rng.bytes(size);
        if let Some(first) = bytes.first_mut() {
            *first = self.rng.pick(&[*first, 0, 1, 2, 3, 20]);
        }
        (content, bytes)
    }
}
