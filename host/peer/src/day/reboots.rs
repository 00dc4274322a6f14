//! A unit that lost its power says hello while its connection is open; strangers say hello too.

use super::{clamped, Day};
use crate::hello;
use crate::keys::{Keys, Kind};
use crate::shapes;
use crate::unit::{Hello, Identifier, KeyId, Parameters};
use crate::wire::Content;

impl Day<'_> {
    /// The random to be lent: mostly new, at times the one that the open keys are made of.
    pub(super) fn random(&mut self) -> Vec<u8> {
        match self.open_keys() {
            Some(keys) if self.rng.percent(3) => keys.server_random,
            _ => self.rng.bytes(16),
        }
    }

    fn open_keys(&self) -> Option<Keys> {
        self.model.shore()?.handshake().keys().cloned()
    }

    pub(super) fn reboot(&mut self) {
        match self.rng.under(10) {
            0..=5 => self.hello(),
            6 => self.all_at_once(),
            7 => self.equal_keys(),
            8 => self.stranger_hello(),
            _ => {
                self.hello();
                self.hello();
            }
        }
    }

    /// What happens while a handshake is started beside the open one.
    pub(super) fn ordinary_started(&mut self) {
        match self.rng.under(100) {
            0..=14 => {
                self.speak_as_started();
                self.flight();
            }
            15..=25 => self.change_cipher_spec(),
            26..=31 => {
                self.speak_as_started();
                self.finished();
            }
            32..=44 => self.handshake_records(),
            45..=51 => self.clear_alert(),
            52 => self.earlier_records(),
            53..=58 => self.resend_either(),
            59..=61 => self.hello(),
            62..=63 => self.stranger_hello(),
            64..=65 => self.wrong_hello(),
            66 => self.equal_keys(),
            67..=68 => self.resend_hello_and_more(),
            69 => self.all_at_once(),
            70..=83 => self.traffic(),
            84..=98 => self.call_shore(),
            _ => self.close(),
        }
    }

    /// Protected handshake records of either voice: right, wrong and malformed, and under numbers
    /// that were used or are too old then.
    fn handshake_records(&mut self) {
        for _ in 0..self.rng.between(1, 3) {
            if self.rng.percent(40) {
                self.turn();
            }
            let message = match self.rng.under(10) {
                0..=2 => self.finished_message(),
                3 => self.wrong_finished(),
                _ => self.wrong_message(),
            };
            let next = clamped(self.next);
            let any = self.number();
            let number = self.rng.pick(&[0, 0, 1, 2, 3, 90, 200, next, next, any]);
            let with_length = self.rng.percent(30);
            let record = self.unit.protect(Content::Handshake, with_length, number, &message);
            match record {
                Some(record) => self.receive(&record),
                None => return,
            }
        }
    }

    /// The hello of the open connection, or of the started one.
    fn resend_either(&mut self) {
        let Some(shore) = self.model.shore() else { return };
        let started = shore.started().map(|started| &started.handshake);
        let hellos = [Some(shore.handshake()), started];
        let hellos: Vec<Vec<u8>> = hellos
            .into_iter()
            .flatten()
            .filter_map(|one| one.hello())
            .map(<[u8]>::to_vec)
            .collect();
        if hellos.is_empty() {
            return;
        }
        let message = self.rng.pick(&hellos);
        match self.rng.percent(60) {
            true => self.say(&message),
            false => {
                let number = self.rng.draw() as u16;
                let datagram = self.unit.clear(Content::Handshake, true, number, &message);
                self.receive(&datagram);
            }
        }
    }

    /// Who has heard the session's identifier can say an acceptable hello. The unit does not mean it.
    fn stranger_hello(&mut self) {
        let message = shapes::acceptable(&mut self.rng, &self.session).message();
        self.hellos.push(message.clone());
        let datagram = self.unit.clear(Content::Handshake, false, 0, &message);
        self.receive(&datagram);
    }

    /// Another hello that gives the open connection's very keys, since the caller lends an old random.
    fn equal_keys(&mut self) {
        let Some(keys) = self.open_keys() else { return self.hello() };
        let Keys { server_random, client_random, kind, refresh, .. } = keys;
        let mut hello = Hello::plain(&client_random, &self.session, kind, refresh);
        match self.rng.under(3) {
            0 => hello.compressions.push(self.rng.byte()),
            1 => hello.suites.extend([0, self.rng.pick(&[Kind::Sha80, Kind::Sha]).number()]),
            _ => hello.trusted_key_ids.push(KeyId {
                suite: 5,
                parameters: Parameters::Index(self.rng.under(255) as u8),
                identifier: Identifier::Null,
            }),
        }
        let message = hello.message();
        debug_assert!(hello::read(&message).is_ok());
        self.hellos.push(message.clone());
        let datagram = self.unit.say_hello(&message);
        self.receive_with(&datagram, &server_random, 128);
    }
}
