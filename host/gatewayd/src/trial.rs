//! A datagram tried on a copy of a connection: what would come of it, and whether the keys of that
//! connection made any of it.

use crate::datagram;
use gateway::{Answer, Connection, Refusal, Refused, Tally, REPLY_ROOM};

pub struct Trial<'d> {
    /// Connection and tally as they are afterwards.
    pub connection: Connection,
    pub tally: Tally,
    pub answers: Vec<Answer<'d>>,
    /// What is to be sent; empty if nothing is.
    pub reply: Vec<u8>,
    pub worth: Worth,
}

/// What a datagram shows about its sender.
#[derive(Clone, Copy, PartialEq, Eq, PartialOrd, Ord, Debug)]
pub enum Worth {
    /// No record in it has a right code.
    Nothing,
    /// Only records that came before, or may have: anybody can send them again.
    Old,
    /// A genuine record that is new; the highest number of such.
    New(u16),
}

/// Tries it; a datagram that is refused as a whole is refused by every connection.
pub fn on<'d>(
    connection: &Connection,
    tally: Tally,
    datagram: &'d [u8],
    random: &[u8; 16],
) -> Result<Trial<'d>, Refused> {
    let (mut connection, mut tally) = (connection.clone(), tally);
    let mut out = [0; REPLY_ROOM];
    let received = connection.receive(&mut tally, datagram, random, &mut out)?;
    let answers: Vec<Answer> = received.answers().collect();
    let reply = received.to_send().to_vec();
    let records = datagram::records(datagram);
    let worths = answers.iter().zip(records).map(|(answer, record)| worth(answer, record));
    let worth = worths.max().unwrap_or(Worth::Nothing);
    Ok(Trial { connection, tally, answers, reply, worth })
}

/// A protected record is judged by state, code, window, content, in this order: whatever is said of
/// the content is said of a genuine new record.
fn worth(answer: &Answer, record: &[u8]) -> Worth {
    if !datagram::is_protected(record) {
        return Worth::Nothing;
    }
    match answer {
        Answer::Refused(Refusal::Ended | Refusal::NotAllowed | Refusal::Forged) => Worth::Nothing,
        Answer::Refused(Refusal::TooOld | Refusal::Repeated) => Worth::Old,
        _ => datagram::number(record).map_or(Worth::Nothing, Worth::New),
    }
}

impl Trial<'_> {
    /// Whether a hello was answered in it.
    pub fn has_reply(&self) -> bool {
        matches!(self.answers.first(), Some(Answer::Reply(_) | Answer::Resent(_)))
    }

    /// Whether a Finished opened the connection in it.
    pub fn opens(&self) -> bool {
        self.answers.contains(&Answer::Open)
    }
}
