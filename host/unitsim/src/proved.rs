//! The proved unit as the ship of a day.

use crate::ship::{Heard, Ship};
use peer::ship;
use shipboard::{Answer, Refusal, Sense, Tally, Unit, SEND_ROOM};

pub struct Proved {
    unit: Unit,
    tally: Tally,
}

impl Proved {
    pub fn fresh(session: &[u8], secret: &[u8], width: u32) -> Result<Proved, String> {
        let unit = Unit::fresh(session, secret, width).map_err(|refusal| refusal.to_string())?;
        Ok(Proved { unit, tally: Tally::default() })
    }
}

fn number(refusal: Refusal) -> u8 {
    refusal.number()
}

impl Ship for Proved {
    fn hello(&mut self, random: &[u8], macs: &[u8], refresh: u8) -> Result<Vec<u8>, u8> {
        let mut out = [0; SEND_ROOM];
        let hello = self.unit.hello(random, macs, refresh.into(), &mut out);
        hello.map(<[u8]>::to_vec).map_err(number)
    }

    fn again(&mut self) -> Result<Vec<u8>, u8> {
        let mut out = [0; SEND_ROOM];
        self.unit.again(&mut out).map(<[u8]>::to_vec).map_err(number)
    }

    fn receive(&mut self, datagram: &[u8]) -> Heard {
        let mut out = [0; SEND_ROOM];
        match self.unit.receive(&mut self.tally, datagram, &mut out) {
            Err(whole) => {
                let refusal = number(whole.refusal);
                Heard::Refused(refusal, (refusal <= 5).then_some(whole.offset))
            }
            Ok(received) => {
                let out = received.to_send().to_vec();
                Heard::Records {
                    answers: received.answers().map(answer).collect(),
                    out: (!out.is_empty()).then_some(out),
                }
            }
        }
    }

    fn send(&mut self, data: &[u8]) -> Result<Vec<u8>, u8> {
        let mut out = [0; SEND_ROOM];
        self.unit.send_data(data, &mut out).map(<[u8]>::to_vec).map_err(number)
    }

    fn alert(&mut self, level: u8, description: u8, record: &[u8]) -> Result<Vec<u8>, u8> {
        let mut out = [0; SEND_ROOM];
        let (level, description) = (level.into(), description.into());
        let alert = self.unit.send_alert(Sense::Protected, level, description, record, &mut out);
        alert.map(<[u8]>::to_vec).map_err(number)
    }
}

/// An answer in the second implementation's words.
fn answer(given: Answer) -> Result<ship::Answer, u8> {
    Ok(match given {
        Answer::Hello => ship::Answer::Hello,
        Answer::Spec => ship::Answer::Spec,
        Answer::Open(size) => ship::Answer::Open(size),
        Answer::Again => ship::Answer::Again,
        Answer::Request => ship::Answer::Request,
        Answer::Ignored => ship::Answer::Ignored,
        Answer::Data { start, bytes, .. } => ship::Answer::Data { start, length: bytes.len() },
        Answer::Warning(description) => ship::Answer::Warning(description),
        Answer::Critical(description) => ship::Answer::Critical(description),
        Answer::Fatal(description) => ship::Answer::Fatal(description),
        Answer::Barred(description) => ship::Answer::Barred(description),
        Answer::Refused(refusal) => return Err(number(refusal)),
    })
}
