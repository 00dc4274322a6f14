//! Why a call was refused.

use std::error::Error;
use std::fmt;

#[derive(Clone, Copy, PartialEq, Eq, Debug)]
pub enum Refusal {
    Room = 6,
    Argument = 16,
    Limit = 24,
    NoFile = 25,
}

impl Refusal {
    /// The number in the list of the rules.
    pub fn number(self) -> u8 {
        self as u8
    }

    /// The refusal with a number; none for 0.
    pub fn numbered(number: u32) -> Option<Refusal> {
        use Refusal::*;
        [Room, Argument, Limit, NoFile].into_iter().find(|refusal| *refusal as u32 == number)
    }

    pub fn meaning(self) -> &'static str {
        match self {
            Refusal::Room => "too little room",
            Refusal::Argument => "a report is not 1 to 1,400 bytes",
            Refusal::Limit => "over 4,096 reports or 65,536 bytes",
            Refusal::NoFile => "the bytes are not the file of any list",
        }
    }
}

impl fmt::Display for Refusal {
    fn fmt(&self, to: &mut fmt::Formatter) -> fmt::Result {
        write!(to, "refused {}: {}", self.number(), self.meaning())
    }
}

impl Error for Refusal {}
