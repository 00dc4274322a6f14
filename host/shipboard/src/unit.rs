//! A ship's unit, in its 180 bytes.

use std::error::Error;
use std::fmt;

use crate::raw::{self, Result as Raw};
use crate::{Received, Refusal, Tally, ANSWERS_SIZE, STATE_SIZE};

/// A ship's unit, at its end of one connection with the shore. It holds the session's master secret.
#[derive(Clone, PartialEq, Eq)]
pub struct Unit {
    state: [u8; STATE_SIZE],
}

#[derive(Clone, Copy, PartialEq, Eq, Debug)]
pub enum State {
    Idle,
    /// The hello is written.
    Sent,
    Replied,
    Spec,
    /// The shore's Finished is verified and our flight written: data may be sent and comes.
    Opening,
    /// The shore has our flight.
    Open,
    Closed,
    Barred,
}

/// How an alert goes out.
#[derive(Clone, Copy, PartialEq, Eq, Debug)]
pub enum Sense {
    Clear = 0,
    Protected = 1,
}

/// A datagram refused as a whole. For a framing fault, 1 to 5, `offset` is where the record at fault begins.
#[derive(Clone, Copy, PartialEq, Eq, Debug)]
pub struct Refused {
    pub refusal: Refusal,
    pub offset: usize,
}

impl Unit {
    /// A fresh unit of a planted session: an identifier of 8 bytes, a master secret of 20, and the width of its window,
    /// 32 to 64, which stays.
    pub fn fresh(id: &[u8], secret: &[u8], width: u32) -> Result<Unit, Refusal> {
        let mut state = [0; STATE_SIZE];
        done(raw::fresh(id, secret, width, &mut state))?;
        Ok(Unit { state })
    }

    /// The unit that was saved; bytes that are no saved unit are refused with 16.
    pub fn load(bytes: &[u8]) -> Result<Unit, Refusal> {
        done(raw::state(bytes))?;
        let mut state = [0; STATE_SIZE];
        state.copy_from_slice(bytes);
        Ok(Unit { state })
    }

    /// The bytes to store. They hold the session's master secret.
    pub fn save(&self) -> &[u8; STATE_SIZE] {
        &self.state
    }

    pub fn state(&self) -> State {
        match raw::state(&self.state).count {
            0 => State::Idle,
            1 => State::Sent,
            2 => State::Replied,
            3 => State::Spec,
            4 => State::Opening,
            5 => State::Open,
            6 => State::Closed,
            _ => State::Barred,
        }
    }

    /// How many of the newest numbers have arrived, as many of them as the width says.
    pub fn arrived(&self) -> usize {
        raw::arrived(&self.state).count
    }

    /// The width of the window.
    pub fn width(&self) -> usize {
        raw::width(&self.state).count
    }

    /// Writes the hello as a datagram, in Idle, and gives it: `random` is 16 fresh bytes, `macs` the kinds offered in the order of
    /// preference, one or both of 2 and 3, `refresh` the key refresh suggested.
    pub fn hello<'o>(
        &mut self,
        random: &[u8],
        macs: &[u8],
        refresh: u32,
        out: &'o mut [u8],
    ) -> Result<&'o [u8], Refusal> {
        let given = done(raw::hello(&mut self.state, random, macs, refresh, out))?;
        Ok(&out[..given.written])
    }

    /// The datagram to send once more: the hello, or in Opening the flight.
    pub fn again<'o>(&self, out: &'o mut [u8]) -> Result<&'o [u8], Refusal> {
        let given = done(raw::again(&self.state, out))?;
        Ok(&out[..given.written])
    }

    /// Takes a datagram. `out` has room of at least 128 bytes for our flight.
    pub fn receive<'d, 'o>(
        &mut self,
        tally: &mut Tally,
        datagram: &'d [u8],
        out: &'o mut [u8],
    ) -> Result<Received<'d, 'o>, Refused> {
        let mut answers = [0; ANSWERS_SIZE];
        let given = raw::receive(&mut self.state, tally.lent(), datagram, out, &mut answers);
        match refusal(given) {
            Some(refusal) => Err(Refused { refusal, offset: given.count }),
            None => {
                let to_send = &out[..given.written];
                Ok(Received { datagram, answers, count: given.count, to_send })
            }
        }
    }

    /// Writes 1 to 1,300 bytes of data as a record, in Opening and in Open, and gives it.
    pub fn send_data<'o>(&mut self, data: &[u8], out: &'o mut [u8]) -> Result<&'o [u8], Refusal> {
        let given = done(raw::send_data(&mut self.state, data, out))?;
        Ok(&out[..given.written])
    }

    /// Writes an alert as a record, with the checksum of the record that it answers, and gives it.
    pub fn send_alert<'o>(
        &mut self,
        sense: Sense,
        level: u32,
        description: u32,
        answered: &[u8],
        out: &'o mut [u8],
    ) -> Result<&'o [u8], Refusal> {
        let given =
            raw::send_alert(&mut self.state, sense as u32, level, description, answered, out);
        let given = done(given)?;
        Ok(&out[..given.written])
    }

    /// Leads anywhere but Barred to Closed.
    pub fn close(&mut self) -> Result<(), Refusal> {
        done(raw::close(&mut self.state)).map(|_| ())
    }

    /// Start again: leads from Closed to Idle.
    pub fn start(&mut self) -> Result<(), Refusal> {
        done(raw::start(&mut self.state)).map(|_| ())
    }
}

/// Shows no secret.
impl fmt::Debug for Unit {
    fn fmt(&self, to: &mut fmt::Formatter) -> fmt::Result {
        write!(to, "Unit({:?})", self.state())
    }
}

pub(crate) fn refusal(given: Raw) -> Option<Refusal> {
    match given.refusal {
        0 => None,
        number => Some(Refusal::numbered(number).expect("a refusal has its number")),
    }
}

pub(crate) fn done(given: Raw) -> Result<Raw, Refusal> {
    match refusal(given) {
        None => Ok(given),
        Some(refusal) => Err(refusal),
    }
}

impl fmt::Display for Refused {
    fn fmt(&self, to: &mut fmt::Formatter) -> fmt::Result {
        match self.refusal.number() {
            1..=5 => write!(
                to,
                "refused {} at {}: {}",
                self.refusal.number(),
                self.offset,
                self.refusal.meaning()
            ),
            _ => self.refusal.fmt(to),
        }
    }
}

impl Error for Refused {}
