//! The reasons of the rules with their facts, as the library shows them. Neither a secret nor a key nor an expected Finished is in them.

/// Why a record, or a datagram as a whole, is refused.
#[derive(Clone, PartialEq, Eq, Debug)]
pub struct Why {
    pub reason: Reason,
    pub record: Record,
}

/// The record that was asked about, and what it came to.
#[derive(Clone, PartialEq, Eq, Debug)]
pub struct Record {
    /// As the console names it: `Open`, `Open+Replied`, ..
    pub state: String,
    /// `clear-hello`, `protected-data`, ..
    pub kind: String,
    pub place: usize,
}

/// Whose keys: those of the open connection, or of a handshake whose Finished has not come.
#[derive(Clone, Copy, PartialEq, Eq, Debug)]
pub enum Under {
    Open,
    Started,
}

/// A key that was tried: its number, and the size of its codes.
#[derive(Clone, Copy, PartialEq, Eq, Debug)]
pub struct Key {
    pub number: u16,
    pub code: usize,
}

/// What stands in a content that is malformed.
#[derive(Clone, Copy, PartialEq, Eq, Debug)]
pub enum Content {
    Change { value: Option<u8> },
    Alert { told: Option<(u8, u8)> },
    Handshake { told: Option<(u8, u16)> },
    Data,
}

/// What a hello had where it must have something else.
#[derive(Clone, PartialEq, Eq, Debug)]
pub enum Condition {
    Version(u8),
    Session(Vec<u8>),
    /// Cipher and code, as the hello numbers them.
    Pairs(Vec<(u8, u8)>),
    Compression(Vec<u8>),
    Numbering(u8),
}

#[derive(Clone, PartialEq, Eq, Debug)]
pub enum Reason {
    None,
    Argument,
    Size { size: usize },
    Header { at: usize, left: usize, needs: usize },
    Type { at: usize, byte: u8 },
    Fragment { at: usize, stated: usize, left: usize },
    Ninth { at: usize },
    Ended,
    NotAllowed,
    Forged { number: u16, fragment: usize, keys: Vec<Key> },
    TooOld { under: Under, number: u16, highest: u16, limit: u16 },
    Repeated { under: Under, number: u16, highest: u16, mark: u16 },
    BadHello { field: &'static str },
    BadContent { protected: Option<(Under, u16)>, size: usize, content: Content },
    Unacceptable { first: Condition },
    Checksum { checksum: [u8; 4], sent: Vec<[u8; 4]> },
    WrongFinished { under: Under, number: u16, found: Vec<u8> },
}

impl Reason {
    /// The number of the refusal; 0 if there is none.
    pub fn number(&self) -> u8 {
        match self {
            Reason::None => 0,
            Reason::Size { .. } => 1,
            Reason::Header { .. } => 2,
            Reason::Type { .. } => 3,
            Reason::Fragment { .. } => 4,
            Reason::Ninth { .. } => 5,
            Reason::Ended => 7,
            Reason::NotAllowed => 8,
            Reason::Forged { .. } => 9,
            Reason::TooOld { .. } => 10,
            Reason::Repeated { .. } => 11,
            Reason::BadHello { .. } | Reason::BadContent { .. } => 12,
            Reason::Unacceptable { .. } => 13,
            Reason::Checksum { .. } => 14,
            Reason::Argument => 16,
            Reason::WrongFinished { .. } => 17,
        }
    }

    /// Whether it is of one record; else of the datagram, or of the question.
    pub fn is_of_a_record(&self) -> bool {
        !matches!(self.number(), 1..=5 | 16)
    }
}
