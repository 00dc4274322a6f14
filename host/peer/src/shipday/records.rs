//! Records that come to a ship on a random day: genuine, forged and clear, one to a datagram or many,
//! and what the link does to them.

use super::Day;
use crate::alert;
use crate::damage;
use crate::keys::{Keys, Kind, Writer};
use crate::ship::State;
use crate::shore::Checksum;
use crate::wire::{self, Content};

impl Day<'_> {
    /// Mostly one record, at times more than eight, at times with a few bytes too many.
    pub(super) fn records(&mut self) -> Vec<u8> {
        let few = self.rng.between(2, 4);
        let many = self.rng.between(5, 8);
        let count = self.rng.weigh(&[(60, 1), (24, few), (12, many), (3, 9), (1, 10)]);
        let mut datagram = Vec::new();
        let mut last = Vec::new();
        for place in 1..=count {
            let with_length = place < count || self.rng.percent(40);
            if last.is_empty() || self.rng.percent(94) || !with_length {
                last = self.record(with_length);
            }
            datagram.extend(&last);
        }
        if count >= 8 && self.rng.percent(20) || self.rng.percent(1) {
            let length = self.rng.between(1, 5);
            datagram.extend(self.rng.bytes(length));
        }
        datagram
    }

    fn record(&mut self, with_length: bool) -> Vec<u8> {
        match self.rng.under(100) {
            0..=4 => self.clear_record(with_length),
            5..=10 => self.forged_record(with_length),
            _ => self.genuine_record(with_length),
        }
    }

    fn genuine_record(&mut self, with_length: bool) -> Vec<u8> {
        let number = self.number();
        let (content, bytes) = self.protected_content();
        match self.coast.protect(content, with_length, number, &bytes) {
            Some(record) => record,
            None => self.forged_record(with_length),
        }
    }

    /// Mostly the next number; at times a gap, a late one, the window's edge, or a leap.
    pub(super) fn number(&mut self) -> u16 {
        let window = self.model.ship().map(|ship| ship.window());
        let highest = usize::from(window.and_then(|window| window.highest()).unwrap_or(0));
        let width = usize::from(window.map_or(32, |window| window.width()));
        let next = self.next as usize;
        let number = match self.rng.under(100) {
            _ if self.rng.under(1000) >= self.disorder => next,
            0..=34 => next + self.rng.between(1, 70),
            35..=64 => highest.saturating_sub(self.rng.between(0, 70)),
            65..=84 => {
                let edges =
                    [0, width - 2, width - 1, width, width, width, width + 1, 31, 32, 63, 64];
                highest.saturating_sub(self.rng.pick(&edges))
            }
            85..=93 => highest + 1,
            94..=96 => next + self.rng.between(100, 5000),
            97 => usize::from(self.rng.draw() as u16),
            98 => self.rng.between(65465, 65535),
            _ => 65535,
        };
        let number = number.min(65535);
        if number >= next {
            self.next = number as u32 + 1;
        }
        number as u16
    }

    /// What stands under protection: mostly data, seldom something that closes. While the ship is not
    /// yet open there is less data, so that it stays so for a while.
    fn protected_content(&mut self) -> (Content, Vec<u8>) {
        let data = match self.state() {
            State::Open => true,
            State::Opening => self.rng.percent(40),
            _ => self.rng.percent(30),
        };
        let repeated = if self.rng.percent(15) { 57 } else { 90 };
        match self.rng.under(1000) {
            0..=19 => (Content::Data, Vec::new()),
            20..=679 if data => {
                let length = self.rng.weigh(&[(200, 12), (100, 60), (10, 150), (3, 1000)]);
                let length = self.rng.between(1, length);
                (Content::Data, self.rng.bytes(length))
            }
            20..=759 => (Content::Alert, alert::write(1, repeated, [0; 4])),
            760..=809 => {
                let request =
                    self.rng.pick(&[vec![0, 0, 0], vec![0], vec![0, 0, 1], vec![0, 0, 0, 0]]);
                (Content::Handshake, request)
            }
            810..=849 => (Content::Alert, self.alert_content(1)),
            850..=859 => (Content::Alert, self.alert_content(2)),
            860..=867 => (Content::Alert, self.alert_content(3)),
            868..=889 => (Content::Alert, self.wrong_alert()),
            890..=939 => (Content::Handshake, self.finished_message()),
            940..=949 => (Content::Handshake, self.wrong_finished()),
            950..=979 => (Content::Handshake, self.wrong_message()),
            _ => {
                (Content::ChangeCipherSpec, self.rng.pick(&[vec![1], vec![], vec![2], vec![1, 1]]))
            }
        }
    }

    fn alert_content(&mut self, level: u8) -> Vec<u8> {
        let description = self.description();
        let checksum = self.rng.draw().to_be_bytes();
        alert::write(level, description, [checksum[0], checksum[1], checksum[2], checksum[3]])
    }

    /// A level or a description that is not assigned, or another length.
    fn wrong_alert(&mut self) -> Vec<u8> {
        let mut content = alert::write(1, 0, self.some_checksum());
        match self.rng.under(4) {
            0 => content[0] = self.rng.pick(&[0, 4, 255]),
            1 => {
                content[1] =
                    self.rng.pick(&[2, 4, 6, 9, 12, 19, 23, 29, 31, 39, 41, 58, 59, 61, 255])
            }
            2 => content.truncate(self.rng.under(6)),
            _ => content.push(0),
        }
        content
    }

    fn finished_message(&self) -> Vec<u8> {
        self.coast.connection().map_or(Vec::new(), |connection| connection.finished.clone())
    }

    /// Well formed, with one bit of its data wrong, or of the unit's label.
    fn wrong_finished(&mut self) -> Vec<u8> {
        let mut message = self.finished_message();
        if let (Some(connection), true) = (self.coast.connection(), self.rng.percent(30)) {
            return connection.mislabelled.clone();
        }
        if message.len() == 15 {
            message[self.rng.between(3, 14)] ^= 1 << self.rng.under(8);
        }
        message
    }

    /// No Finished at all, or one of another length.
    fn wrong_message(&mut self) -> Vec<u8> {
        let mut message = self.finished_message();
        match self.rng.under(6) {
            0 => message.clear(),
            1 => message.push(0),
            2 => message.truncate(14),
            3 if message.len() == 15 => message[self.rng.under(3)] ^= 1,
            4 => {
                let connection = self.coast.connection();
                message =
                    connection.map_or(Vec::new(), |connection| connection.server_hello.clone())
            }
            _ => message = vec![self.rng.pick(&[1, 2, 11, 14, 20]), 0, 0],
        }
        message
    }

    /// A protected record whose code is not right, in many ways; the ship's own records are of them.
    fn forged_record(&mut self, with_length: bool) -> Vec<u8> {
        let (content, bytes) = self.protected_content();
        let next = self.next.min(65535) as u16;
        let number = self.rng.weigh(&[(3, next), (1, 65535)]);
        let type_byte = wire::type_byte(content, true, with_length);
        let Some(connection) = self.coast.connection() else {
            return wire::write(type_byte, number, &self.rng.bytes(24));
        };
        let mut keys = connection.keys.clone();
        let code =
            |keys: &Keys, writer, type_byte, number| keys.code(writer, type_byte, number, &bytes);
        let right = code(&keys, Writer::Shore, type_byte, number);
        let wrong = match self.rng.under(9) {
            0 => code(&keys, Writer::Unit, type_byte, number),
            1 => code(&keys, Writer::Shore, type_byte ^ 0x80, number),
            2 => {
                let short = self.rng.between(1, right.len() - 1);
                return wire::write(type_byte, number, &right[..short]);
            }
            3 => code(&keys, Writer::Shore, type_byte, number ^ 1),
            4 => self.rng.bytes(right.len() + 4),
            5 => {
                let mut wrong = right;
                let place = self.rng.under(wrong.len());
                wrong[place] ^= 1 << self.rng.under(8);
                wrong
            }
            _ => {
                self.other_keys(&mut keys);
                code(&keys, Writer::Shore, type_byte, number)
            }
        };
        wire::write(type_byte, number, &[bytes, wrong].concat())
    }

    /// Keys that differ in one thing; for some numbers another refresh is no difference.
    fn other_keys(&mut self, keys: &mut Keys) {
        match self.rng.under(5) {
            0 => keys.secret[0] ^= 1,
            1 => keys.refresh = keys.refresh.wrapping_add(1),
            2 => keys.kind = if keys.kind == Kind::Sha { Kind::Sha80 } else { Kind::Sha },
            3 => std::mem::swap(&mut keys.server_random, &mut keys.client_random),
            _ => keys.server_random[15] ^= 1,
        }
    }

    pub(super) fn clear_record(&mut self, with_length: bool) -> Vec<u8> {
        let number = self.rng.draw() as u16;
        let hello = self.coast.hello_message().to_vec();
        let (content, bytes) = match self.rng.under(11) {
            0..=2 => return self.clear_alert_record(with_length),
            3..=4 => (Content::ChangeCipherSpec, vec![1]),
            5 => (Content::ChangeCipherSpec, self.rng.pick(&[vec![2], vec![1, 1]])),
            6 if !hello.is_empty() => (Content::Handshake, hello),
            7 => (Content::Handshake, vec![self.rng.pick(&[1, 2, 11, 14, 20]), 0, 0]),
            8 => (Content::Handshake, vec![0, 0, 0]),
            9 => (Content::Handshake, self.rng.pick(&[vec![0], vec![2], vec![0, 0, 0, 0]])),
            _ => (Content::Data, vec![7; 9]),
        };
        self.coast.clear(content, with_length, number, &bytes)
    }

    /// A clear alert: mostly a warning, mostly with a checksum that the ship knows or once knew.
    fn clear_alert_record(&mut self, with_length: bool) -> Vec<u8> {
        let level = self.rng.weigh(&[(6, 1), (2, 2), (2, 3)]);
        let description = self.description();
        let mut content = match self.rng.under(10) {
            0..=6 => alert::write(level, description, self.some_checksum()),
            7 => alert::write(level, description, [0; 4]),
            8 => self.alert_content(level),
            _ => self.wrong_alert(),
        };
        if content.is_empty() {
            content.push(1);
        }
        let number = self.rng.draw() as u16;
        self.coast.clear(Content::Alert, with_length, number, &content)
    }

    pub(super) fn clear_alert(&mut self) {
        let with_length = self.rng.percent(30);
        let record = self.clear_alert_record(with_length);
        self.receive(&record);
    }

    /// The newest checksum, any that is kept, or one that is forgotten; that of a change cipher spec,
    /// too, which everybody knows.
    fn some_checksum(&mut self) -> Checksum {
        let kept = self.records_sent();
        let newest = kept.first().copied().unwrap_or([0; 4]);
        match self.rng.under(10) {
            0..=3 => newest,
            4..=7 if !kept.is_empty() => self.rng.pick(&kept),
            8 if !self.forgotten.is_empty() => self.rng.pick(&self.forgotten),
            9 => alert::checksum(&[0xc1, 0, 1, 0, 1, 1]),
            _ => newest,
        }
    }

    /// Some alerts of the ship, then a clear warning about each record that is kept, and about each
    /// of those that were forgotten last.
    pub(super) fn earlier_records(&mut self) {
        for _ in 0..self.rng.under(10) {
            self.alert();
        }
        let mut sums = self.records_sent();
        sums.extend(self.forgotten.iter().rev());
        for sum in sums {
            let content = alert::write(1, 90, sum);
            let number = self.rng.draw() as u16;
            let datagram = self.coast.clear(Content::Alert, false, number, &content);
            self.receive(&datagram);
        }
    }

    /// The shore sends a few datagrams; the link delivers what it likes.
    pub(super) fn traffic(&mut self) {
        for _ in 0..self.rng.between(1, 3) {
            let datagram = self.records();
            self.link.push(datagram);
        }
        while !self.over && self.link.len() > self.delay {
            self.deliver();
        }
    }

    /// Mostly in order; some are lost, some arrive twice, some late.
    pub(super) fn deliver(&mut self) {
        if self.link.is_empty() {
            return;
        }
        let place = match self.rng.percent(75) {
            true => 0,
            false => self.rng.under(self.link.len()),
        };
        let datagram = match self.rng.percent(8) {
            true => self.link[place].clone(),
            false => self.link.remove(place),
        };
        if self.rng.percent(93) {
            self.receive(&datagram);
        }
    }

    pub(super) fn replay(&mut self) {
        let datagram = self.some_datagram();
        self.receive(&datagram);
    }

    /// What the ship itself put out comes back to it.
    pub(super) fn reflect(&mut self) {
        if self.put_out.is_empty() {
            return self.replay();
        }
        let datagram = self.rng.pick(&self.put_out);
        self.receive(&datagram);
    }

    pub(super) fn damage(&mut self) {
        let (one, other) = (self.some_datagram(), self.some_datagram());
        let datagram = damage::damaged(&mut self.rng, &one, &other);
        self.receive(&datagram);
    }

    pub(super) fn garbage(&mut self) {
        let datagram = damage::garbage(&mut self.rng);
        self.receive(&datagram);
    }

    /// A genuine data record that makes the datagram as large as one may be, or one more.
    pub(super) fn boundary(&mut self) {
        let size = self.rng.pick(&[1399, 1400, 1401]);
        let number = self.number();
        let content = vec![0x5a; size - 3 - self.code_size()];
        let datagram = match self.coast.protect(Content::Data, false, number, &content) {
            Some(record) => record,
            None => vec![0x44; size],
        };
        self.receive(&datagram);
    }

    /// One that arrived, or a new one.
    pub(super) fn some_datagram(&mut self) -> Vec<u8> {
        match self.arrived.is_empty() || self.rng.percent(30) {
            true => self.records(),
            false => self.rng.pick(&self.arrived),
        }
    }
}
