//! What a receive gave: an answer for each record, read out of its 24 bytes.

use crate::{Refusal, ANSWERS_SIZE, ANSWER_SIZE};

/// What one record gave.
#[derive(Clone, Copy, PartialEq, Eq, Debug)]
pub enum Answer<'d> {
    /// A ServerHello that answers the offer.
    Hello,
    /// Change cipher spec.
    Spec,
    /// The shore's Finished verified: our flight of so many bytes is to be sent.
    Open(usize),
    /// Finished verified once more.
    Again,
    /// Data handed out: a part of the datagram, which begins at `start`.
    Data {
        number: u16,
        start: usize,
        bytes: &'d [u8],
    },
    /// Alerts, by level, with their description's number. A fatal alert that was clear, and one that was protected.
    Warning(u8),
    Critical(u8),
    Fatal(u8),
    Barred(u8),
    Refused(Refusal),
    /// A HelloRequest: the shore asks for a hello.
    Request,
    /// A HelloRequest in the middle of a handshake.
    Ignored,
}

/// A datagram that was taken.
#[derive(Clone, Debug)]
pub struct Received<'d, 'o> {
    pub(crate) datagram: &'d [u8],
    pub(crate) answers: [u8; ANSWERS_SIZE],
    pub(crate) count: usize,
    pub(crate) to_send: &'o [u8],
}

impl<'d, 'o> Received<'d, 'o> {
    /// An answer for each record, in their order.
    pub fn answers(&self) -> Answers<'_, 'd> {
        Answers { bytes: &self.answers[..self.count * ANSWER_SIZE], datagram: self.datagram }
    }

    /// The flight to send, at the front of the output lent; empty where there is none.
    pub fn to_send(&self) -> &'o [u8] {
        self.to_send
    }

    /// The data handed out, in order.
    pub fn reports(&self) -> impl Iterator<Item = &'d [u8]> + '_ {
        self.answers().filter_map(|answer| match answer {
            Answer::Data { bytes, .. } => Some(bytes),
            _ => None,
        })
    }
}

/// The answers of a receive, one after the other.
#[derive(Clone, Debug)]
pub struct Answers<'a, 'd> {
    bytes: &'a [u8],
    datagram: &'d [u8],
}

impl<'d> Iterator for Answers<'_, 'd> {
    type Item = Answer<'d>;

    fn next(&mut self) -> Option<Answer<'d>> {
        if self.bytes.is_empty() {
            return None;
        }
        let (first, rest) = self.bytes.split_at(ANSWER_SIZE);
        self.bytes = rest;
        Some(read(first, self.datagram))
    }

    fn size_hint(&self) -> (usize, Option<usize>) {
        let left = self.bytes.len() / ANSWER_SIZE;
        (left, Some(left))
    }
}

impl ExactSizeIterator for Answers<'_, '_> {}

/// The answer in 24 bytes. The places are those of `crates/lentunit/specs/Report.antt`.
fn read<'d>(bytes: &[u8], datagram: &'d [u8]) -> Answer<'d> {
    let (start, size) = (number(&bytes[8..16]), number(&bytes[16..24]));
    match bytes[0] {
        1 => Answer::Hello,
        3 => Answer::Spec,
        4 => Answer::Open(size),
        5 => Answer::Again,
        6 => {
            let number = number(&bytes[4..8]) as u16;
            Answer::Data { number, start, bytes: &datagram[start..start + size] }
        }
        7 => Answer::Warning(bytes[2]),
        8 => Answer::Critical(bytes[2]),
        9 => Answer::Fatal(bytes[2]),
        10 => Answer::Barred(bytes[2]),
        12 => Answer::Request,
        13 => Answer::Ignored,
        _ => Answer::Refused(Refusal::numbered(bytes[1].into()).expect("a refusal has its number")),
    }
}

fn number(bytes: &[u8]) -> usize {
    bytes.iter().fold(0, |sum, byte| sum * 256 + usize::from(*byte))
}
