//! The ship's calls on a random day, with arguments at their limits and past them.

use super::Day;
use crate::alert;
use crate::day::word;

impl Day<'_> {
    pub(super) fn fresh(&mut self) {
        let any = self.rng.between(32, 64);
        let width = self.rng.weigh(&[(1, 32), (1, 64), (4, any)]);
        let line = format!("fresh {} {} {width}", word(&self.session), word(&self.secret));
        self.call(line.into_bytes());
    }

    /// A fresh that is refused, by its width or by its sizes: the ship goes on.
    pub(super) fn wrong_fresh(&mut self) {
        let (identifier, secret, width) = match self.rng.percent(50) {
            true => {
                let far = self.rng.pick(&[0, 1, 16, 66, 128, 255, 256, 288, 65568, 999_999_999]);
                (8, 20, self.rng.weigh(&[(1, 31), (1, 65), (2, far)]))
            }
            false => {
                let sizes = [(8, 19), (8, 21), (7, 20), (9, 20), (0, 0), (20, 8)];
                let (identifier, secret) = self.rng.pick(&sizes);
                (identifier, secret, self.rng.pick(&[32, 64, 45, 31]))
            }
        };
        let (identifier, secret) = (vec![1; identifier], vec![2; secret]);
        let line = format!("fresh {} {} {width}", word(&identifier), word(&secret));
        self.call(line.into_bytes());
    }

    pub(super) fn close(&mut self) {
        self.call(b"close".to_vec());
    }

    pub(super) fn start(&mut self) {
        self.call(b"start".to_vec());
    }

    /// A hello with arguments as listed.
    pub(super) fn hello(&mut self) {
        let random = self.rng.bytes(16);
        let macs = self.rng.pick(&[&[2][..], &[3], &[2, 3], &[3, 2]]);
        let any = usize::from(self.rng.byte());
        let refresh = self.rng.pick(&[0, 1, 2, 3, 4, 5, 6, 8, 10, 14, 15, 16, 17, 255, any]);
        let room = self.room(41 + 2 * macs.len());
        self.say(&random, macs, refresh, room);
    }

    /// A hello with an argument out of range, or with none and no room.
    pub(super) fn wrong_hello(&mut self) {
        let size = self.rng.weigh(&[(4, 16), (1, 0), (1, 15), (1, 17), (1, 32)]);
        let random = self.rng.bytes(size);
        let macs = self.rng.pick(&[
            &[2][..],
            &[3, 2],
            &[],
            &[0],
            &[1],
            &[4],
            &[2, 2],
            &[3, 3],
            &[2, 4],
            &[2, 3, 2],
            &[0, 2],
        ]);
        let refresh = self.rng.pick(&[0, 3, 255, 256, 257, 511, 65536, 999_999_999]);
        let room = self.rng.pick(&[42, 43, 44, 45, 100, 0, 2048]);
        self.say(&random, macs, refresh, room);
    }

    fn say(&mut self, random: &[u8], macs: &[u8], refresh: usize, room: usize) {
        let line = format!("hello {} {} {refresh} {room}", word(random), word(macs));
        self.call(line.into_bytes());
    }

    pub(super) fn again(&mut self) {
        let sizes = [33, 34, 43, 44, 45, 42];
        let exact = self.model.ship().and_then(|ship| ship.again(2048).ok());
        let exact = exact.map_or(43, |datagram| datagram.len());
        let other = self.rng.pick(&sizes);
        let room = self.rng.weigh(&[(6, exact), (3, exact - 1), (2, other), (1, 0), (1, 2048)]);
        self.call(format!("again {room}").into_bytes());
    }

    /// A receive with a room that is too small, or just not.
    pub(super) fn odd_receive(&mut self) {
        let datagram = self.some_datagram();
        let room = self.rng.weigh(&[(3, 127), (1, 0), (1, 128), (1, 1)]);
        self.receive_with(&datagram, room);
    }

    pub(super) fn call_ship(&mut self) {
        match self.rng.under(40) {
            0..=1 => self.close(),
            2..=3 => self.start(),
            4 => self.hello(),
            5..=20 => self.send(),
            _ => self.alert(),
        }
    }

    pub(super) fn send(&mut self) {
        let length = match self.rng.under(10) {
            0 => self.rng.pick(&[0, 1, 1299, 1300, 1301, 1400]),
            1 => self.rng.between(1, 1300),
            _ => self.rng.between(1, 60),
        };
        let data = self.rng.bytes(length);
        let room = self.room(3 + length + self.code_size());
        self.call(format!("send {} {room}", word(&data)).into_bytes());
    }

    pub(super) fn alert(&mut self) {
        let protected = self.rng.percent(50);
        let how = if protected { "protected" } else { "clear" };
        let level = self.rng.weigh(&[(6, 1), (5, 2), (5, 3), (1, 0), (1, 4), (1, 255)]);
        let description = self.description();
        let record = match self.rng.under(8) {
            0 => {
                let length = self.rng.pick(&[0, 1, 3, 4, 5, 1399, 1400, 1401, 2000]);
                self.rng.bytes(length)
            }
            1 => Vec::new(),
            _ => self.some_datagram(),
        };
        let room = self.room(9 + if protected { self.code_size() } else { 0 });
        let line = format!("alert {how} {level} {description} {} {room}", word(&record));
        self.call(line.into_bytes());
    }

    /// Exactly what is needed, one less, or something else.
    fn room(&mut self, needed: usize) -> usize {
        let any = self.rng.under(2049);
        let room =
            self.rng.weigh(&[(12, needed), (3, needed - 1), (2, needed + 1), (1, any), (1, 0)]);
        room.min(2048)
    }

    pub(super) fn code_size(&self) -> usize {
        self.coast.connection().map_or(10, |connection| connection.keys.kind.code_size())
    }

    /// Mostly assigned.
    pub(super) fn description(&mut self) -> u8 {
        let any = self.rng.byte();
        match self.rng.percent(88) {
            true => (any..=255).chain(0..any).find(|d| alert::is_assigned(*d)).unwrap_or(0),
            false => any,
        }
    }

    pub(super) fn is_spent(&self, protected: bool) -> bool {
        match self.model.ship().and_then(|ship| ship.next_numbers()) {
            Some((next_protected, next_clear)) => match protected {
                true => next_protected == Some(65536),
                false => next_clear == 65536,
            },
            None => true,
        }
    }

    pub(super) fn spend(&mut self, protected: bool) {
        let line = match protected {
            false => "alert clear 1 0 - 9",
            true if self.next % 50 == 49 => "alert protected 1 90 - 2048",
            true => "send 2a 24",
        };
        self.next += 1;
        self.call(line.into());
    }
}
