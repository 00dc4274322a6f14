//! What a receive gave: an answer for each record, read out of its 24 bytes.

use crate::{Refusal, ANSWERS_SIZE, ANSWER_SIZE};

/// What one record gave.
#[derive(Clone, Copy, PartialEq, Eq, Debug)]
pub enum Answer<'d> {
    /// A new reply of so many bytes is to be sent.
    Reply(usize),
    /// The kept reply of so many bytes is to be sent again.
    Resent(usize),
    /// Change cipher spec.
    Spec,
    /// Finished verified: the connection is open; in Open, the handshake started beside it has replaced it.
    Open,
    /// Finished verified once more.
    Again,
    /// Data handed out: a part of the datagram, which begins at `start`.
    Data {
        number: u16,
        start: usize,
        bytes: &'d [u8],
    },
    /// Alerts, by level, with their description's number. A fatal alert that was clear, and one that was protected. In Open a clear
    /// critical or fatal one ends only the handshake that was started beside it: `Connection::state` tells.
    Warning(u8),
    Critical(u8),
    Fatal(u8),
    Barred(u8),
    Refused(Refusal),
}

/// A datagram that was taken.
#[derive(Clone, Debug)]
pub struct Received<'d, 'o> {
    pub(crate) datagram: &'d [u8],
    pub(crate) answers: [u8; ANSWERS_SIZE],
    pub(crate) count: usize,
    pub(crate) to_send: &'o [u8],
}

impl<'d, 'o> Received<'d, 'o> {
    /// An answer for each record, in their order.
    pub fn answers(&self) -> Answers<'_, 'd> {
        Answers { bytes: &self.answers[..self.count * ANSWER_SIZE], datagram: self.datagram }
    }

    /// The reply to send, at the front of the output lent; empty where there is none.
    pub fn to_send(&self) -> &'o [u8] {
        self.to_send
    }

    /// The data handed out, in order.
    pub fn reports(&self) -> impl Iterator<Item = &'d [u8]> + '_ {
        self.answers().filter_map(|answer| match answer {
            Answer::Data { bytes, .. } => Some(bytes),
            _ => None,
        })
    }
}

/// The answers of a receive, one after the other.
#[derive(Clone, Debug)]
pub struct Answers<'a, 'd> {
    bytes: &'a [u8],
    datagram: &'d [u8],
}

impl<'d> Iterator for Answers<'_, 'd> {
    type Item = Answer<'d>;

    fn next(&mut self) -> Option<Answer<'d>> {
        if self.bytes.is_empty() {
            return None;
        }
        let (first, rest) = self.bytes.split_at(ANSWER_SIZE);
        self.bytes = rest;
        Some(read(first, self.datagram))
    }

    fn size_hint(&self) -> (usize, Option<usize>) {
        let left = self.bytes.len() / ANSWER_SIZE;
        (left, Some(left))
    }
}

impl ExactSizeIterator for Answers<'_, '_> {}

/// The answer in 24 bytes. The places are those of `crates/gateway/specs/Report.antt`.
fn read<'d>(bytes: &[u8], datagram: &'d [u8]) -> Answer<'d> {
    let (start, size) = (number(&bytes[8..16]), number(&bytes[16..24]));
    match bytes[0] {
        1 => Answer::Reply(size),
        2 => Answer::Resent(size),
        3 => Answer::Spec,
        4 => Answer::Open,
        5 => Answer::Again,
        6 => {
            let number = number(&bytes[4..8]) as u16;
            Answer::Data { number, start, bytes: &datagram[start..start + size] }
        }
        7 => Answer::Warning(bytes[2]),
        8 => Answer::Critical(bytes[2]),
        9 => Answer::Fatal(bytes[2]),
        10 => Answer::Barred(bytes[2]),
        _ => Answer::Refused(Refusal::numbered(bytes[1].into()).expect("a refusal has its number")),
    }
}

fn number(bytes: &[u8]) -> usize {
    bytes.iter().fold(0, |sum, byte| sum * 256 + usize::from(*byte))
}
