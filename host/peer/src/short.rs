//! Short messages: the user data header of GSM 03.40 (9.2.3.24), and the gathering of parts.

use std::collections::BTreeMap;

pub const MOST_PARTS: u8 = 11;
pub const MOST_REFERENCES: usize = 4;
pub const MOST_BYTES: usize = 1400;

/// An information element: its identifier and its data.
type Element<'a> = (u8, &'a [u8]);

#[derive(Clone, Copy, Debug, PartialEq, Eq)]
pub struct Ports {
    pub destination: u16,
    pub originator: u16,
}

/// Reference, total and place.
#[derive(Clone, Copy, Debug, PartialEq, Eq)]
pub struct Concatenation {
    pub reference: u8,
    pub total: u8,
    pub place: u8,
}

/// A sound header, and the part behind it.
#[derive(Clone, Debug, PartialEq, Eq)]
pub struct Header {
    pub ports: Ports,
    /// Nothing for a message that is a datagram by itself.
    pub concatenation: Option<Concatenation>,
    pub start: usize,
}

/// The header, or nothing for refusal 19.
pub fn header(message: &[u8]) -> Option<Header> {
    let (&length, rest) = message.split_first()?;
    let elements = elements(rest.get(..usize::from(length))?)?;
    let wrong = |&(number, data): &Element| match number {
        0x05 => data.len() != 4,
        0x00 => data.len() != 3,
        _ => false,
    };
    if elements.iter().any(wrong) {
        return None;
    }
    let last = |wanted: u8| {
        elements.iter().rev().find(|element| element.0 == wanted).map(|element| element.1)
    };
    let ports = last(0x05)?;
    let ports = Ports {
        destination: u16::from_be_bytes([ports[0], ports[1]]),
        originator: u16::from_be_bytes([ports[2], ports[3]]),
    };
    let concatenation = match last(0x00) {
        None => None,
        Some(data) => {
            let (reference, total, place) = (data[0], data[1], data[2]);
            if total > MOST_PARTS || !(1..=total).contains(&place) {
                return None;
            }
            (total > 1).then_some(Concatenation { reference, total, place })
        }
    };
    Some(Header { ports, concatenation, start: 1 + usize::from(length) })
}

/// The elements that fill a header, or nothing where one passes its end.
fn elements(mut header: &[u8]) -> Option<Vec<Element<'_>>> {
    let mut found = Vec::new();
    while !header.is_empty() {
        let length = usize::from(*header.get(1)?);
        found.push((header[0], header.get(2..2 + length)?));
        header = &header[2 + length..];
    }
    Some(found)
}

/// What one message does to the gathering.
#[derive(Clone, Debug, PartialEq, Eq)]
pub enum Answer {
    Refused(u8),
    Waiting {
        ports: Ports,
        reference: u8,
        have: usize,
        total: u8,
    },
    /// The datagram is the message from `start` on.
    Received {
        ports: Ports,
        start: usize,
    },
    Gathered {
        ports: Ports,
        datagram: Vec<u8>,
    },
}

#[derive(Clone, Debug, Default, PartialEq, Eq)]
struct Held {
    total: u8,
    parts: BTreeMap<u8, Vec<u8>>,
}

/// The references that are being gathered, with the parts that have come.
#[derive(Clone, Debug, Default, PartialEq, Eq)]
pub struct Gathering {
    held: BTreeMap<u8, Held>,
}

impl Gathering {
    pub fn message(&mut self, message: &[u8]) -> Answer {
        let Some(Header { ports, concatenation, start }) = header(message) else {
            return Answer::Refused(19);
        };
        let Some(Concatenation { reference, total, place }) = concatenation else {
            return Answer::Received { ports, start };
        };
        let part = &message[start..];
        let known = self.held.get(&reference);
        if known.is_some_and(|held| held.total != total) {
            return Answer::Refused(20);
        }
        if let Some(same) = known.and_then(|held| held.parts.get(&place)) {
            let have = known.map_or(0, |held| held.parts.len());
            return match same == part {
                true => Answer::Waiting { ports, reference, have, total },
                false => Answer::Refused(20),
            };
        }
        if known.is_none() && self.held.len() == MOST_REFERENCES {
            return Answer::Refused(21);
        }
        let held = self.held.entry(reference).or_insert(Held { total, parts: BTreeMap::new() });
        held.parts.insert(place, part.to_vec());
        let have = held.parts.len();
        let bytes: Vec<u8> = held.parts.values().flatten().copied().collect();
        if bytes.len() > MOST_BYTES {
            self.held.remove(&reference);
            return Answer::Refused(22);
        }
        if have < usize::from(total) {
            return Answer::Waiting { ports, reference, have, total };
        }
        self.held.remove(&reference);
        Answer::Gathered { ports, datagram: bytes }
    }

    pub fn drop_reference(&mut self, reference: u8) {
        self.held.remove(&reference);
    }

    /// Reference, parts that have come, and total, by rising reference.
    pub fn waiting(&self) -> Vec<(u8, usize, u8)> {
        self.held
            .iter()
            .map(|(&reference, held)| (reference, held.parts.len(), held.total))
            .collect()
    }
}

#[cfg(test)]
mod tests {
    use super::*;

    fn part(reference: u8, total: u8, place: u8, bytes: &[u8]) -> Vec<u8> {
        [&[11, 5, 4, 0x23, 0xf2, 0xc0, 1, 0, 3, reference, total, place], bytes].concat()
    }

    fn refused(message: &[u8]) -> bool {
        Gathering::default().message(message) == Answer::Refused(19)
    }

    #[test]
    fn headers() {
        assert!(header(&[6, 5, 4, 0, 1, 0, 2]).is_some());
        assert!(
            refused(&[]) && refused(&[0]) && refused(&[1]) && refused(&[7, 5, 4, 0, 1, 0, 2, 9])
        );
        assert!(refused(&[6, 5, 4, 0, 1, 0]) && refused(&[6, 5, 5, 0, 1, 0, 2, 3]));
        // a wrong length counts also where a later element overrides it; a bad total that is overridden does not
        assert!(refused(&[10, 0, 2, 1, 1, 5, 4, 0, 1, 0, 2]));
        assert!(header(&[16, 0, 3, 1, 12, 0, 0, 3, 1, 2, 1, 5, 4, 0, 1, 0, 2]).is_some());
        assert!(
            refused(&part(1, 12, 1, &[]))
                && refused(&part(1, 0, 0, &[]))
                && refused(&part(1, 2, 3, &[]))
        );
    }

    #[test]
    fn parts_by_place() {
        let mut gathering = Gathering::default();
        gathering.message(&part(7, 3, 3, b"c"));
        gathering.message(&part(7, 3, 1, b"a"));
        assert_eq!(gathering.message(&part(7, 3, 1, b"x")), Answer::Refused(20));
        assert_eq!(gathering.message(&part(7, 2, 2, b"b")), Answer::Refused(20));
        assert_eq!(gathering.waiting(), [(7, 2, 3)]);
        let Answer::Gathered { datagram, .. } = gathering.message(&part(7, 3, 2, b"b")) else {
            panic!()
        };
        assert_eq!(datagram, b"abc");
        assert!(gathering.waiting().is_empty());
    }

    #[test]
    fn full_and_long() {
        let mut gathering = Gathering::default();
        for reference in 0..4 {
            gathering.message(&part(reference, 2, 1, &[0; 1400]));
        }
        assert_eq!(gathering.message(&part(9, 2, 1, &[])), Answer::Refused(21));
        assert_eq!(gathering.message(&part(2, 2, 2, &[1])), Answer::Refused(22));
        assert_eq!(gathering.waiting().len(), 3);
        gathering.drop_reference(0);
        gathering.drop_reference(77);
        assert_eq!(gathering.waiting().len(), 2);
        assert_eq!(gathering.message(&part(9, 2, 1, &[0; 1401])), Answer::Refused(22));
        assert_eq!(gathering.waiting().len(), 2);
    }
}
