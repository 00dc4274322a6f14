//! The record on the wire and the framing of a datagram (WTLS 9.2.1).

use std::ops::Range;

/// Bits 0 to 3 of the type byte; bit 0 is the most significant.
pub const LENGTH: u8 = 0x80;
pub const NUMBER: u8 = 0x40;
pub const PROTECTED: u8 = 0x20;
pub const RESERVED: u8 = 0x10;

pub const LARGEST_DATAGRAM: usize = 1400;
pub const MOST_RECORDS: usize = 8;

#[derive(Clone, Copy, PartialEq, Eq, Debug)]
pub enum Content {
    ChangeCipherSpec = 1,
    Alert = 2,
    Handshake = 3,
    Data = 4,
}

/// A record as found in its datagram; places count from the datagram's front.
#[derive(Clone, PartialEq, Eq, Debug)]
pub struct Record {
    pub start: usize,
    pub type_byte: u8,
    pub content: Content,
    pub protected: bool,
    pub number: u16,
    pub fragment: Range<usize>,
}

/// A datagram refused as a whole: refusal 1 to 5, and where the record at fault begins.
#[derive(Clone, Copy, PartialEq, Eq, Debug)]
pub struct Fault {
    pub refusal: u8,
    pub offset: usize,
}

/// All records of a datagram, or the first fault from the front.
pub fn frame(datagram: &[u8]) -> Result<Vec<Record>, Fault> {
    if datagram.is_empty() || datagram.len() > LARGEST_DATAGRAM {
        return Err(Fault { refusal: 1, offset: 0 });
    }
    let mut records = Vec::new();
    let mut offset = 0;
    while offset < datagram.len() {
        if records.len() == MOST_RECORDS {
            return Err(Fault { refusal: 5, offset });
        }
        let record = read(datagram, offset).map_err(|refusal| Fault { refusal, offset })?;
        offset = record.fragment.end;
        records.push(record);
    }
    Ok(records)
}

/// The record that begins at `start`, or 3, 2, 4 in this order.
fn read(datagram: &[u8], start: usize) -> Result<Record, u8> {
    let type_byte = datagram[start];
    let content = content(type_byte).ok_or(3)?;
    let with_length = type_byte & LENGTH != 0;
    let header = if with_length { 5 } else { 3 };
    let rest = &datagram[start..];
    if rest.len() < header {
        return Err(2);
    }
    let number = u16::from_be_bytes([rest[1], rest[2]]);
    let length = if with_length {
        usize::from(u16::from_be_bytes([rest[3], rest[4]]))
    } else {
        rest.len() - header
    };
    if length == 0 || length > rest.len() - header {
        return Err(4);
    }
    let fragment = start + header..start + header + length;
    let protected = type_byte & PROTECTED != 0;
    Ok(Record { start, type_byte, content, protected, number, fragment })
}

/// The content of a type byte with a sequence number and a clear reserved bit.
fn content(type_byte: u8) -> Option<Content> {
    if type_byte & RESERVED != 0 || type_byte & NUMBER == 0 {
        return None;
    }
    match type_byte % 16 {
        1 => Some(Content::ChangeCipherSpec),
        2 => Some(Content::Alert),
        3 => Some(Content::Handshake),
        4 => Some(Content::Data),
        _ => None,
    }
}

pub fn type_byte(content: Content, protected: bool, with_length: bool) -> u8 {
    let protected = if protected { PROTECTED } else { 0 };
    let length = if with_length { LENGTH } else { 0 };
    length + NUMBER + protected + content as u8
}

/// A record of the given type byte; it has a length field if the type byte says so.
pub fn write(type_byte: u8, number: u16, fragment: &[u8]) -> Vec<u8> {
    let mut bytes = vec![type_byte];
    bytes.extend(number.to_be_bytes());
    if type_byte & LENGTH != 0 {
        bytes.extend((fragment.len() as u16).to_be_bytes());
    }
    bytes.extend(fragment);
    bytes
}

/// What the frame lister prints for a datagram.
pub fn list(datagram: &[u8]) -> String {
    let records = match frame(datagram) {
        Ok(records) => records,
        Err(fault) => return format!("refused {} at {}\n", fault.refusal, fault.offset),
    };
    let mut text = format!("records {}\n", records.len());
    for (index, record) in records.iter().enumerate() {
        text += &format!(
            "{index} {} {} {} {} {} {}\n",
            record.start,
            record.content as u8,
            u8::from(record.protected),
            record.number,
            record.fragment.start,
            record.fragment.len()
        );
    }
    text
}

#[cfg(test)]
mod tests {
    use super::*;
    use crate::hex;

    fn listed(text: &str) -> String {
        list(&hex::read(text.as_bytes()).unwrap())
    }

    /// Cases K and L.
    #[test]
    fn lister() {
        assert_eq!(
            listed("c300000002aabb6400011122"),
            "records 2\n0 0 3 0 0 5 2\n1 7 4 1 1 10 2\n"
        );
        assert_eq!(listed("640001"), "refused 4 at 0\n");
        assert_eq!(listed("6400"), "refused 2 at 0\n");
    }

    #[test]
    fn order_of_faults() {
        assert_eq!(listed(""), "refused 1 at 0\n");
        assert_eq!(list(&[0x44; 1401]), "refused 1 at 0\n");
        assert_eq!(list(&[0x44; 1400]), "records 1\n0 0 4 0 17476 3 1397\n");
        assert_eq!(listed("00"), "refused 3 at 0\n");
        assert_eq!(listed("54000101"), "refused 3 at 0\n");
        assert_eq!(listed("45000101"), "refused 3 at 0\n");
        assert_eq!(listed("40000101"), "refused 3 at 0\n");
        assert_eq!(listed("c400000001aac4000100"), "refused 2 at 6\n");
        assert_eq!(listed("c400000001aac400010000aa"), "refused 4 at 6\n");
        assert_eq!(listed("c400000002aa"), "refused 4 at 0\n");
        let eight = "c400000001aa".repeat(8);
        assert!(listed(&eight).starts_with("records 8\n"));
        assert_eq!(listed(&(eight + "00")), "refused 5 at 48\n");
    }
}
