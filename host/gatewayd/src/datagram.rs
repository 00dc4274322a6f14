//! What routing must know of a datagram. Nothing here judges one: that is the library's.

use crate::sessions::Identifier;

const LENGTH: u8 = 0x80;
const HANDSHAKE: u8 = 3;
const PROTECTED: u8 = 0x20;
const PROTECTED_HANDSHAKE: u8 = 0x63;

/// A hello at the front of a datagram: the session that it names, the whole message, and its record.
pub struct Hello<'a> {
    pub session: Identifier,
    pub message: &'a [u8],
    pub record: &'a [u8],
}

/// The hello of a datagram: first, a clear handshake record that begins with byte 1 and, behind its
/// header, version and random, has an identifier of 8 bytes.
pub fn hello(datagram: &[u8]) -> Option<Hello<'_>> {
    let record = first_record(datagram);
    let message = hello_message(record)?;
    if *message.get(20)? != 8 {
        return None;
    }
    let session = message.get(21..29)?.try_into().ok()?;
    Some(Hello { session, message, record })
}

/// Whether a record is a hello, whatever stands in it.
pub fn is_hello(record: &[u8]) -> bool {
    hello_message(record).is_some()
}

fn hello_message(record: &[u8]) -> Option<&[u8]> {
    let type_byte = *record.first()?;
    if type_byte & !LENGTH != 0x40 + HANDSHAKE {
        return None;
    }
    record.get(header_size(type_byte)..).filter(|message| message.first() == Some(&1))
}

/// The records of a datagram that the library found soundly framed, each from its type byte to its
/// end.
pub fn records(datagram: &[u8]) -> impl Iterator<Item = &[u8]> {
    let mut left = datagram;
    std::iter::from_fn(move || {
        let record = first_record(left);
        left = &left[record.len()..];
        (!record.is_empty()).then_some(record)
    })
}

fn first_record(left: &[u8]) -> &[u8] {
    let Some(type_byte) = left.first() else { return left };
    let size = match left.get(3..5) {
        Some(length) if type_byte & LENGTH != 0 => {
            header_size(*type_byte) + usize::from(u16::from_be_bytes([length[0], length[1]]))
        }
        _ => left.len(),
    };
    &left[..size.min(left.len())]
}

/// One clear change cipher spec and nothing else: but for its number the same for everybody.
pub fn is_change_alone(datagram: &[u8]) -> bool {
    matches!(datagram, [0x41, _, _, 1] | [0xc1, _, _, 0, 1, 1])
}

pub fn is_protected(record: &[u8]) -> bool {
    record.first().is_some_and(|type_byte| type_byte & PROTECTED != 0)
}

/// A record's number.
pub fn number(record: &[u8]) -> Option<u16> {
    Some(u16::from_be_bytes([*record.get(1)?, *record.get(2)?]))
}

pub fn is_protected_handshake(record: &[u8]) -> bool {
    record.first().is_some_and(|type_byte| type_byte & !LENGTH == PROTECTED_HANDSHAKE)
}

fn header_size(type_byte: u8) -> usize {
    if type_byte & LENGTH != 0 {
        5
    } else {
        3
    }
}

#[cfg(test)]
mod tests {
    use super::*;
    use peer::keys::Kind;
    use peer::unit::{Hello, Unit};

    #[test]
    fn a_hello_names_its_session() {
        let id = [1, 2, 3, 4, 5, 6, 7, 8];
        let message = Hello::plain(&[9; 16], &id, Kind::Sha, 0).message();
        let datagram = Unit::new(&id, &[0; 20]).say_hello(&message);
        let named = |datagram: &[u8]| {
            let hello = hello(datagram)?;
            assert_eq!(hello.message, message);
            Some(hello.session)
        };
        assert_eq!(named(&datagram), Some(id));
        let long = peer::wire::write(0xc3, 0, &message);
        assert_eq!(named(&long), Some(id));
        assert_eq!(named(&[&long[..], &[0x41, 0, 1, 1]].concat()), Some(id));
        for cut in 0..3 + 29 {
            assert!(hello(&datagram[..cut]).is_none());
        }
        for (place, byte) in [(0, 0x63), (0, 0x44), (3, 2), (23, 7)] {
            let mut other = datagram.clone();
            other[place] = byte;
            assert!(hello(&other).is_none());
        }
    }

    #[test]
    fn records_of_a_datagram() {
        let datagram = [0xc1, 0, 1, 0, 1, 1, 0x63, 0, 0, 7, 7];
        let found: Vec<&[u8]> = records(&datagram).collect();
        assert_eq!(found, [&datagram[..6], &datagram[6..]]);
        assert!(!is_protected_handshake(found[0]));
        assert!(is_protected_handshake(found[1]));
        assert!(is_protected_handshake(&[0xe3]));
        assert!(is_protected(found[1]) && !is_protected(found[0]));
        assert_eq!((number(found[0]), number(found[1]), number(&[1, 2])), (Some(1), Some(0), None));
        assert!(is_change_alone(&datagram[..6]) && is_change_alone(&[0x41, 0, 1, 1]));
        assert!(!is_change_alone(&datagram) && !is_change_alone(&[]) && !is_change_alone(found[1]));
        assert_eq!(records(&[]).count(), 0);
        // No bytes make it pass an end.
        for length in 0..6 {
            assert_eq!(records(&[0xff; 6][..length]).flatten().count(), length);
        }
    }
}
