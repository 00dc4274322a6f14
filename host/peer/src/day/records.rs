//! Records of a random day: genuine, forged and clear, one to a datagram or many.

use super::{clamped, Day};
use crate::alert;
use crate::keys::{Keys, Kind, Writer};
use crate::shore::State;
use crate::wire::{self, Content};

impl Day<'_> {
    /// Mostly one record, at times more than eight, at times with a few bytes too many.
    pub(super) fn records(&mut self) -> Vec<u8> {
        let few = self.rng.between(2, 4);
        let many = self.rng.between(5, 8);
        let count = self.rng.weigh(&[(60, 1), (24, few), (12, many), (3, 9), (1, 10)]);
        let mut datagram = Vec::new();
        let mut last = Vec::new();
        for place in 1..=count {
            let with_length = place < count || self.rng.percent(40);
            if last.is_empty() || self.rng.percent(94) || !with_length {
                last = self.record(with_length);
            }
            datagram.extend(&last);
        }
        if count >= 8 && self.rng.percent(20) || self.rng.percent(1) {
            let length = self.rng.between(1, 5);
            datagram.extend(self.rng.bytes(length));
        }
        datagram
    }

    fn record(&mut self, with_length: bool) -> Vec<u8> {
        if self.started().is_some() && self.rng.percent(20) {
            self.turn();
        }
        match self.rng.under(100) {
            0..=4 => self.clear_record(with_length),
            5..=10 => self.forged_record(with_length),
            _ => self.genuine_record(with_length),
        }
    }

    fn genuine_record(&mut self, with_length: bool) -> Vec<u8> {
        let number = self.number();
        let (content, bytes) = self.protected_content();
        match self.unit.protect(content, with_length, number, &bytes) {
            Some(record) => record,
            None => self.clear_record(with_length),
        }
    }

    /// Mostly the next number; at times a gap, a late one, the window's edge, or a leap.
    pub(super) fn number(&mut self) -> u16 {
        let window = self.window();
        let highest = usize::from(window.and_then(|window| window.highest()).unwrap_or(0));
        let width = usize::from(window.map_or(32, |window| window.width()));
        let next = self.next as usize;
        let number = match self.rng.under(100) {
            _ if self.rng.under(1000) >= self.disorder => next,
            0..=34 => next + self.rng.between(1, 70),
            35..=64 => highest.saturating_sub(self.rng.between(0, 70)),
            65..=84 => {
                let edges =
                    [0, width - 2, width - 1, width, width, width, width + 1, 31, 32, 63, 64];
                highest.saturating_sub(self.rng.pick(&edges))
            }
            85..=94 => highest + 1,
            95..=97 => next + self.rng.between(100, 5000),
            98 => usize::from(self.rng.draw() as u16),
            _ => 65535,
        };
        let number = number.min(65535);
        if number >= next {
            self.next = number as u32 + 1;
        }
        number as u16
    }

    /// What stands under protection: mostly data, seldom something that closes.
    fn protected_content(&mut self) -> (Content, Vec<u8>) {
        let data = self.state() != State::Spec || self.rng.percent(30);
        match self.rng.under(1000) {
            0..=19 => (Content::Data, Vec::new()),
            20..=699 if data => {
                let length = self.rng.weigh(&[(200, 12), (100, 60), (10, 150), (3, 1000)]);
                let length = self.rng.between(1, length);
                (Content::Data, self.rng.bytes(length))
            }
            20..=809 => (Content::Alert, self.unit.alert(1, 90)),
            810..=849 => (Content::Alert, self.alert_content(1)),
            850..=857 => (Content::Alert, self.alert_content(2)),
            858..=863 => (Content::Alert, self.alert_content(3)),
            864..=889 => (Content::Alert, self.wrong_alert()),
            890..=939 => (Content::Handshake, self.finished_message()),
            940..=949 => (Content::Handshake, self.wrong_finished()),
            950..=979 => (Content::Handshake, self.wrong_message()),
            _ => {
                (Content::ChangeCipherSpec, self.rng.pick(&[vec![1], vec![], vec![2], vec![1, 1]]))
            }
        }
    }

    fn alert_content(&mut self, level: u8) -> Vec<u8> {
        let description = self.description();
        let checksum = self.rng.draw().to_be_bytes();
        alert::write(level, description, [checksum[0], checksum[1], checksum[2], checksum[3]])
    }

    /// A level or a description that is not assigned, or another length.
    fn wrong_alert(&mut self) -> Vec<u8> {
        let mut content = self.unit.alert(1, 0);
        match self.rng.under(4) {
            0 => content[0] = self.rng.pick(&[0, 4, 255]),
            1 => {
                content[1] =
                    self.rng.pick(&[2, 4, 6, 9, 12, 19, 23, 29, 31, 39, 41, 58, 59, 61, 255])
            }
            2 => content.truncate(self.rng.under(6)),
            _ => content.push(0),
        }
        content
    }

    pub(super) fn finished_message(&self) -> Vec<u8> {
        self.unit.connection().map_or(Vec::new(), |connection| connection.finished.clone())
    }

    /// Well formed, with one bit of its data wrong.
    pub(super) fn wrong_finished(&mut self) -> Vec<u8> {
        let mut message = self.finished_message();
        if message.len() == 15 {
            message[self.rng.between(3, 14)] ^= 1 << self.rng.under(8);
        }
        message
    }

    /// No Finished at all, or one of another length.
    pub(super) fn wrong_message(&mut self) -> Vec<u8> {
        let mut message = self.finished_message();
        match self.rng.under(6) {
            0 => message.clear(),
            1 => message.push(0),
            2 => message.truncate(14),
            3 if message.len() == 15 => message[self.rng.under(3)] ^= 1,
            4 => message = self.unit.last_hello().to_vec(),
            _ => message = vec![self.rng.pick(&[0, 1, 2, 11, 20]), 0, 0],
        }
        message
    }

    /// A protected record whose code is not right, in many ways.
    fn forged_record(&mut self, with_length: bool) -> Vec<u8> {
        let (content, bytes) = self.protected_content();
        let number = self.rng.weigh(&[(3, clamped(self.next)), (1, 65535)]);
        let type_byte = wire::type_byte(content, true, with_length);
        let Some(connection) = self.unit.connection() else {
            return wire::write(type_byte, number, &self.rng.bytes(24));
        };
        let mut keys = connection.keys.clone();
        let fragment = match self.rng.under(9) {
            0 => [bytes.clone(), keys.code(Writer::Shore, type_byte, number, &bytes)].concat(),
            1 => {
                [bytes.clone(), keys.code(Writer::Unit, type_byte ^ 0x80, number, &bytes)].concat()
            }
            2 => {
                let short = self.rng.between(1, keys.kind.code_size() - 1);
                keys.code(Writer::Unit, type_byte, number, &bytes)[..short].to_vec()
            }
            3 => [bytes.clone(), keys.code(Writer::Unit, type_byte, number ^ 1, &bytes)].concat(),
            4 => self.rng.bytes(keys.kind.code_size() + 4),
            5 => {
                let mut code = keys.code(Writer::Unit, type_byte, number, &bytes);
                let place = self.rng.under(code.len());
                code[place] ^= 1 << self.rng.under(8);
                [bytes, code].concat()
            }
            _ => {
                self.other_keys(&mut keys);
                [bytes.clone(), keys.code(Writer::Unit, type_byte, number, &bytes)].concat()
            }
        };
        wire::write(type_byte, number, &fragment)
    }

    /// Keys that differ in one thing; for some numbers another refresh is no difference.
    fn other_keys(&mut self, keys: &mut Keys) {
        match self.rng.under(5) {
            0 => keys.secret[0] ^= 1,
            1 => keys.refresh = keys.refresh.wrapping_add(1),
            2 => keys.kind = if keys.kind == Kind::Sha { Kind::Sha80 } else { Kind::Sha },
            3 => std::mem::swap(&mut keys.server_random, &mut keys.client_random),
            _ => keys.server_random[15] ^= 1,
        }
    }

    pub(super) fn clear_record(&mut self, with_length: bool) -> Vec<u8> {
        let number = self.rng.draw() as u16;
        let hello = self.unit.last_hello().to_vec();
        let (content, bytes) = match self.rng.under(10) {
            0..=2 => return self.clear_alert_record(with_length),
            3..=4 => (Content::ChangeCipherSpec, vec![1]),
            5 => (Content::ChangeCipherSpec, self.rng.pick(&[vec![2], vec![1, 1]])),
            6 if !hello.is_empty() => (Content::Handshake, hello),
            7 => (Content::Handshake, vec![self.rng.pick(&[0, 1, 2, 20]), 0, 0]),
            8 => (Content::Handshake, vec![1]),
            _ => (Content::Data, vec![7; 9]),
        };
        self.unit.clear(content, with_length, number, &bytes)
    }

    /// A clear alert: mostly a warning, mostly with a checksum that the shore knows or once knew.
    pub(super) fn clear_alert_record(&mut self, with_length: bool) -> Vec<u8> {
        let level = self.rng.weigh(&[(6, 1), (2, 2), (2, 3)]);
        let description = self.description();
        let wanted = self.some_checksum();
        let mut content = match self.rng.under(10) {
            0..=5 => alert::write(level, description, wanted),
            6..=7 => self.unit.alert(level, description),
            8 => alert::write(level, description, [0; 4]),
            _ => self.wrong_alert(),
        };
        if content.is_empty() {
            content.push(1);
        }
        let number = self.rng.draw() as u16;
        self.unit.clear(Content::Alert, with_length, number, &content)
    }
}
