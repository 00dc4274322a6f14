//! The refusals of the rules, by name; each prints its number and its meaning.

use std::error::Error;
use std::fmt;

/// Why a call or a record was refused.
#[derive(Clone, Copy, PartialEq, Eq, Debug)]
pub enum Refusal {
    Size = 1,
    Header = 2,
    Type = 3,
    Length = 4,
    Ninth = 5,
    Room = 6,
    Ended = 7,
    NotAllowed = 8,
    Forged = 9,
    TooOld = 10,
    Repeated = 11,
    Malformed = 12,
    Unacceptable = 13,
    Checksum = 14,
    Spent = 15,
    Argument = 16,
    WrongFinished = 17,
}

use Refusal::*;

const ALL: [Refusal; 17] = [
    Size,
    Header,
    Type,
    Length,
    Ninth,
    Room,
    Ended,
    NotAllowed,
    Forged,
    TooOld,
    Repeated,
    Malformed,
    Unacceptable,
    Checksum,
    Spent,
    Argument,
    WrongFinished,
];

impl Refusal {
    /// The number in the list of the rules, 1 to 17.
    pub fn number(self) -> u8 {
        self as u8
    }

    /// The refusal with a number.
    pub fn numbered(number: u32) -> Option<Refusal> {
        ALL.into_iter().find(|refusal| u32::from(refusal.number()) == number)
    }

    /// The meaning, in the words of the list and of `include/unit.h`.
    pub fn meaning(self) -> &'static str {
        match self {
            Size => "datagram of 0 or over 1,400 bytes",
            Header => "a record header's fields pass the end",
            Type => "reserved bit set, no sequence number, content not 1 to 4",
            Length => "length past the end, or empty fragment",
            Ninth => "a ninth record begins",
            Room => "output buffer too short",
            Ended => "Barred, or Closed except for start again and close",
            NotAllowed => "record or call not allowed in this state or place",
            Forged => "code not right",
            TooOld => "number too old",
            Repeated => "number repeated",
            Malformed => "malformed content",
            Unacceptable => "ServerHello well formed, no answer to what was offered",
            Checksum => "clear alert with the checksum of none of the last eight records sent",
            Spent => "sending number spent",
            Argument => "argument out of range; also: the bytes lent are no saved unit",
            WrongFinished => "genuine Finished with wrong contents",
        }
    }
}

impl fmt::Display for Refusal {
    fn fmt(&self, to: &mut fmt::Formatter) -> fmt::Result {
        write!(to, "refused {}: {}", self.number(), self.meaning())
    }
}

impl Error for Refusal {}
