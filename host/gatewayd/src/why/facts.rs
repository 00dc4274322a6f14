//! The facts of a reason as the library lends them: 24 numbers of four bytes, the most significant byte first (crates/lent/specs/Facts.antt).

use super::reason::{Condition, Content, Key, Reason, Record, Under, Why};

pub const SIZE: usize = 96;

/// The reason that the facts are of. Some of them are places in the datagram, and what stands there is shown. None if they are not the
/// library's.
pub fn read(facts: &[u8; SIZE], datagram: &[u8]) -> Option<Why> {
    let numbers = Numbers::of(facts);
    let place = numbers.at(6) as usize;
    let record = Record { state: numbers.state()?, kind: numbers.kind(), place };
    Some(Why { reason: numbers.reason(datagram)?, record })
}

struct Numbers([u32; SIZE / 4]);

impl Numbers {
    fn of(facts: &[u8; SIZE]) -> Numbers {
        let mut numbers = [0; SIZE / 4];
        for (number, four) in numbers.iter_mut().zip(facts.chunks_exact(4)) {
            *number = u32::from_be_bytes([four[0], four[1], four[2], four[3]]);
        }
        Numbers(numbers)
    }

    fn at(&self, place: usize) -> u32 {
        self.0[place]
    }

    fn size(&self, place: usize) -> usize {
        self.0[place] as usize
    }

    fn short(&self, place: usize) -> u16 {
        self.0[place] as u16
    }

    fn byte(&self, place: usize) -> u8 {
        self.0[place] as u8
    }

    /// The open one's, and behind it that of a handshake started beside it.
    fn state(&self) -> Option<String> {
        const STATES: [&str; 6] = ["Idle", "Replied", "Spec", "Open", "Closed", "Barred"];
        let state = *STATES.get(self.size(1))?;
        Some(match self.size(2) {
            0 => state.to_string(),
            started => format!("{state}+{}", STATES.get(started)?),
        })
    }

    fn kind(&self) -> String {
        let sense = if self.at(4) == 1 { "protected" } else { "clear" };
        let content = match self.at(3) {
            _ if self.is_hello() => "hello",
            1 => "ccs",
            2 => "alert",
            3 => "handshake",
            _ => "data",
        };
        format!("{sense}-{content}")
    }

    fn is_hello(&self) -> bool {
        self.at(5) == 1
    }

    fn under(&self) -> Option<Under> {
        match self.at(8) {
            1 => Some(Under::Open),
            2 => Some(Under::Started),
            _ => None,
        }
    }

    fn reason(&self, datagram: &[u8]) -> Option<Reason> {
        let (at, number) = (self.size(10), self.short(10));
        Some(match self.at(0) {
            0 => Reason::None,
            1 => Reason::Size { size: at },
            2 => Reason::Header { at, left: self.size(11), needs: self.size(12) },
            3 => Reason::Type { at, byte: self.byte(11) },
            4 => Reason::Fragment { at, stated: self.size(11), left: self.size(12) },
            5 => Reason::Ninth { at },
            7 => Reason::Ended,
            8 => Reason::NotAllowed,
            9 => {
                let key = |at: usize| Key { number: self.short(at), code: self.size(at + 1) };
                let keys = [12, 14].map(key).into_iter().take(self.size(8)).collect();
                Reason::Forged { number, fragment: self.size(11), keys }
            }
            10 => {
                let (highest, limit) = (self.short(11), self.short(12));
                Reason::TooOld { under: self.under()?, number, highest, limit }
            }
            11 => {
                let (highest, mark) = (self.short(11), self.short(12));
                Reason::Repeated { under: self.under()?, number, highest, mark }
            }
            12 if self.is_hello() => Reason::BadHello { field: self.field()? },
            12 => {
                let protected = self.under().map(|under| (under, number));
                Reason::BadContent { protected, size: self.size(11), content: self.content() }
            }
            13 => Reason::Unacceptable { first: self.condition(datagram)? },
            14 => {
                let sent = (16..24).take(self.size(7)).map(|at| self.at(at).to_be_bytes());
                Reason::Checksum { checksum: self.at(10).to_be_bytes(), sent: sent.collect() }
            }
            16 => Reason::Argument,
            17 => {
                let from = self.size(11);
                let found = datagram.get(from..from + FINISHED)?.to_vec();
                Reason::WrongFinished { under: self.under()?, number, found }
            }
            _ => return None,
        })
    }

    /// The first field at fault of a hello, in the words of the rules.
    fn field(&self) -> Option<&'static str> {
        const FIELDS: [&str; 12] = [
            "size (over 256 bytes)",
            "header",
            "version",
            "random",
            "session identifier",
            "client key identifiers",
            "trusted key identifiers",
            "cipher suites",
            "compression methods",
            "numbering",
            "key refresh",
            "end (bytes are left over)",
        ];
        FIELDS.get(self.size(9).checked_sub(1)?).copied()
    }

    fn content(&self) -> Content {
        let size = self.size(11);
        match self.at(3) {
            1 => Content::Change { value: (size == 1).then(|| self.byte(12)) },
            2 => Content::Alert { told: (size == 6).then(|| (self.byte(12), self.byte(13))) },
            3 => Content::Handshake { told: (size >= 3).then(|| (self.byte(12), self.short(13))) },
            _ => Content::Data,
        }
    }

    /// What the hello had.
    fn condition(&self, datagram: &[u8]) -> Option<Condition> {
        let (from, size) = (self.size(10), self.size(11));
        let had = datagram.get(from..from.checked_add(size)?)?;
        Some(match self.at(9) {
            1 => Condition::Version(*had.first()?),
            2 => Condition::Session(had.to_vec()),
            3 => Condition::Pairs(had.chunks_exact(2).map(|pair| (pair[0], pair[1])).collect()),
            4 => Condition::Compression(had.to_vec()),
            5 => Condition::Numbering(*had.first()?),
            _ => return None,
        })
    }
}

/// The contents of a Finished.
const FINISHED: usize = 12;

#[cfg(test)]
mod tests {
    use super::*;

    /// Facts with these numbers at these places.
    fn facts(numbers: &[(usize, u32)]) -> [u8; SIZE] {
        let mut facts = [0; SIZE];
        for (place, number) in numbers {
            facts[4 * place..4 * place + 4].copy_from_slice(&number.to_be_bytes());
        }
        facts
    }

    fn reason(numbers: &[(usize, u32)]) -> Option<Reason> {
        let datagram: Vec<u8> = (0..40).collect();
        read(&facts(numbers), &datagram).map(|why| why.reason)
    }

    #[test]
    fn each_reason_by_its_numbers() {
        use Under::{Open, Started};
        let at = |n: usize| 10 + n;
        let key = |number, code| Key { number, code };
        let cases: Vec<(Vec<(usize, u32)>, Reason)> = vec![
            (vec![], Reason::None),
            (vec![(0, 16)], Reason::Argument),
            (vec![(0, 1), (at(0), 1401)], Reason::Size { size: 1401 }),
            (
                vec![(0, 2), (at(0), 7), (at(1), 2), (at(2), 5)],
                Reason::Header { at: 7, left: 2, needs: 5 },
            ),
            (vec![(0, 3), (at(0), 6), (at(1), 0x13)], Reason::Type { at: 6, byte: 0x13 }),
            (
                vec![(0, 4), (at(0), 3), (at(1), 9), (at(2), 4)],
                Reason::Fragment { at: 3, stated: 9, left: 4 },
            ),
            (vec![(0, 5), (at(0), 99)], Reason::Ninth { at: 99 }),
            (vec![(0, 7)], Reason::Ended),
            (vec![(0, 8)], Reason::NotAllowed),
            (
                vec![(0, 9), (8, 1), (at(0), 5), (at(1), 30), (at(2), 3), (at(3), 10)],
                Reason::Forged { number: 5, fragment: 30, keys: vec![key(3, 10)] },
            ),
            (
                vec![
                    (0, 9),
                    (8, 2),
                    (at(0), 5),
                    (at(1), 30),
                    (at(2), 3),
                    (at(3), 10),
                    (at(4), 1),
                    (at(5), 20),
                ],
                Reason::Forged { number: 5, fragment: 30, keys: vec![key(3, 10), key(1, 20)] },
            ),
            (
                vec![(0, 10), (8, 1), (at(0), 17), (at(1), 60), (at(2), 28)],
                Reason::TooOld { under: Open, number: 17, highest: 60, limit: 28 },
            ),
            (
                vec![(0, 11), (8, 2), (at(0), 17), (at(1), 20), (at(2), 3)],
                Reason::Repeated { under: Started, number: 17, highest: 20, mark: 3 },
            ),
            (vec![(0, 12), (3, 3), (5, 1), (9, 8)], Reason::BadHello { field: "cipher suites" }),
            (
                vec![(0, 12), (3, 2), (8, 1), (at(0), 4), (at(1), 6), (at(2), 9), (at(3), 40)],
                Reason::BadContent {
                    protected: Some((Open, 4)),
                    size: 6,
                    content: Content::Alert { told: Some((9, 40)) },
                },
            ),
            (
                vec![(0, 12), (3, 1), (at(1), 1), (at(2), 2)],
                Reason::BadContent {
                    protected: None,
                    size: 1,
                    content: Content::Change { value: Some(2) },
                },
            ),
            (
                vec![(0, 12), (3, 3), (at(1), 2)],
                Reason::BadContent {
                    protected: None,
                    size: 2,
                    content: Content::Handshake { told: None },
                },
            ),
            (
                vec![(0, 13), (9, 1), (at(0), 6), (at(1), 1)],
                Reason::Unacceptable { first: Condition::Version(6) },
            ),
            (
                vec![(0, 13), (9, 2), (at(0), 24), (at(1), 3)],
                Reason::Unacceptable { first: Condition::Session(vec![24, 25, 26]) },
            ),
            (
                vec![(0, 13), (9, 3), (at(0), 2), (at(1), 4)],
                Reason::Unacceptable { first: Condition::Pairs(vec![(2, 3), (4, 5)]) },
            ),
            (
                vec![(0, 13), (9, 4), (at(0), 8), (at(1), 2)],
                Reason::Unacceptable { first: Condition::Compression(vec![8, 9]) },
            ),
            (
                vec![(0, 13), (9, 5), (at(0), 8), (at(1), 1)],
                Reason::Unacceptable { first: Condition::Numbering(8) },
            ),
            (
                vec![(0, 14), (7, 2), (at(0), 0xc001_0100), (16, 1), (17, 2), (18, 3)],
                Reason::Checksum {
                    checksum: [0xc0, 1, 1, 0],
                    sent: vec![[0, 0, 0, 1], [0, 0, 0, 2]],
                },
            ),
            (
                vec![(0, 17), (8, 1), (at(0), 3), (at(1), 28)],
                Reason::WrongFinished { under: Open, number: 3, found: (28..40).collect() },
            ),
        ];
        for (numbers, expected) in cases {
            assert_eq!(reason(&numbers), Some(expected.clone()));
            assert_eq!(expected.number(), facts(&numbers)[3]);
        }
        // What the library does not say, and places that are not in the datagram.
        for wrong in [
            vec![(0, 6)],
            vec![(0, 10)],
            vec![(0, 12), (5, 1), (9, 13)],
            vec![(0, 13), (9, 6)],
            vec![(0, 13), (9, 2), (10, 39), (11, 2)],
            vec![(0, 17), (8, 1), (11, 29)],
            vec![(1, 6)],
        ] {
            assert_eq!(reason(&wrong), None);
        }
    }

    #[test]
    fn states_and_kinds() {
        let record = |numbers: &[(usize, u32)]| read(&facts(numbers), &[]).map(|why| why.record);
        let expected = |state: &str, kind: &str, place| {
            Some(Record { state: state.to_string(), kind: kind.to_string(), place })
        };
        assert_eq!(
            record(&[(1, 3), (3, 4), (4, 1), (6, 2)]),
            expected("Open", "protected-data", 2)
        );
        assert_eq!(
            record(&[(1, 3), (2, 1), (3, 3), (5, 1)]),
            expected("Open+Replied", "clear-hello", 0)
        );
        assert_eq!(
            record(&[(1, 3), (2, 2), (3, 3), (4, 1)]),
            expected("Open+Spec", "protected-handshake", 0)
        );
        assert_eq!(record(&[(1, 5), (3, 1)]), expected("Barred", "clear-ccs", 0));
        assert_eq!(record(&[(3, 2), (4, 1)]), expected("Idle", "protected-alert", 0));
    }
}
