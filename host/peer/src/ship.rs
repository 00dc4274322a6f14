//! The ship's end by the rules: one unit with one shore. Each call is one function here, and the
//! order of its tests is the order of its refusals in the rules. What a caller repeats, and when,
//! is the caller's: a call gives the same datagram again.

mod judge;

use crate::alert;
use crate::handshake::unspent;
use crate::keys::{Keys, Kind, Writer};
use crate::shore::{remember, Checksum, Refusal, Tally, LARGEST_DATA, ROOM_OF_RECEIVE};
use crate::unit::Hello;
use crate::window::Window;
use crate::wire::{self, Content, Fault};

#[derive(Clone, Copy, PartialEq, Eq, PartialOrd, Ord, Debug)]
pub enum State {
    Idle,
    /// The hello is written.
    Sent,
    /// The ServerHello is read.
    Replied,
    /// The shore's change cipher spec is read.
    Spec,
    /// The shore's Finished is verified, and our flight written.
    Opening,
    /// The first data, or the warning on a repeated Finished, has come.
    Open,
    Closed,
    Barred,
}

/// What one record of a datagram gave.
#[derive(Clone, PartialEq, Eq, Debug)]
pub enum Answer {
    Hello,
    Spec,
    Open(usize),
    Again,
    Request,
    Ignored,
    Data { start: usize, length: usize },
    Warning(u8),
    Critical(u8),
    Fatal(u8),
    Barred(u8),
}

pub type Judged = Result<Answer, Refusal>;

/// What a receive gave.
#[derive(Clone, PartialEq, Eq, Debug)]
pub enum Received {
    Refused(Refusal),
    Unframed(Fault),
    Records { answers: Vec<Judged>, out: Option<Vec<u8>> },
}

#[derive(Clone, PartialEq, Eq, Debug)]
pub struct Ship {
    state: State,
    identifier: Vec<u8>,
    secret: Vec<u8>,
    window: Window,
    said: Option<Said>,
    agreed: Option<Agreed>,
    sending: Option<Sending>,
    records_sent: Vec<Checksum>,
}

/// The hello that was said, and what it offers.
#[derive(Clone, PartialEq, Eq, Debug)]
struct Said {
    datagram: Vec<u8>,
    message: Vec<u8>,
    random: Vec<u8>,
    kinds: Vec<Kind>,
    refresh: u8,
}

/// What a ServerHello leaves behind.
#[derive(Clone, PartialEq, Eq, Debug)]
struct Agreed {
    keys: Keys,
    server_hello: Vec<u8>,
    shore_verify_data: Vec<u8>,
    /// Our change cipher spec and Finished, once the shore's Finished is verified.
    flight: Vec<u8>,
}

/// Our next numbers (65,536 once spent); none under protection before the flight.
#[derive(Clone, PartialEq, Eq, Debug)]
struct Sending {
    protected: Option<u32>,
    clear: u32,
}

impl Ship {
    /// Fresh: 16 only. The width of the unit's window is its own, 32 to 64.
    pub fn fresh(identifier: &[u8], secret: &[u8], width: u32) -> Result<Ship, Refusal> {
        if identifier.len() != 8 || secret.len() != 20 {
            return Err(Refusal::Argument);
        }
        let window = Window::fresh(width).ok_or(Refusal::Argument)?;
        Ok(Ship {
            state: State::Idle,
            identifier: identifier.to_vec(),
            secret: secret.to_vec(),
            window,
            said: None,
            agreed: None,
            sending: None,
            records_sent: Vec::new(),
        })
    }

    /// Hello: 16, 7, 8, 6. Only in Idle. A clear record without a length, number 0.
    pub fn hello(
        &mut self,
        random: &[u8],
        macs: &[u8],
        refresh: u32,
        room: usize,
    ) -> Result<Vec<u8>, Refusal> {
        let kinds = offered(macs).ok_or(Refusal::Argument)?;
        if random.len() != 16 || refresh > 255 {
            return Err(Refusal::Argument);
        }
        self.allow(&[State::Idle])?;
        let refresh = refresh as u8;
        let mut hello = Hello::plain(random, &self.identifier, kinds[0], refresh);
        hello.suites = kinds.iter().flat_map(|kind| [0, kind.number()]).collect();
        let message = hello.message();
        let datagram = wire::write(wire::type_byte(Content::Handshake, false, false), 0, &message);
        if room < datagram.len() {
            return Err(Refusal::Room);
        }
        remember(&mut self.records_sent, &datagram);
        let random = random.to_vec();
        self.said = Some(Said { datagram: datagram.clone(), message, random, kinds, refresh });
        self.sending = Some(Sending { protected: None, clear: 2 });
        self.state = State::Sent;
        Ok(datagram)
    }

    /// Again: 7, 8, 6. The hello as long as there is no flight, then the flight, until the shore is
    /// known to have it. It changes nothing.
    pub fn again(&self, room: usize) -> Result<Vec<u8>, Refusal> {
        use State::*;
        self.allow(&[Sent, Replied, Spec, Opening])?;
        let datagram = match (self.state, &self.said, &self.agreed) {
            (Opening, _, Some(agreed)) => &agreed.flight,
            (_, Some(said), _) => &said.datagram,
            _ => return Err(Refusal::NotAllowed),
        };
        if room < datagram.len() {
            return Err(Refusal::Room);
        }
        Ok(datagram.clone())
    }

    /// Receive: 6, 1 to 5, then one answer for each record, each judged in the state that the
    /// records before it left. The flight is put out by the record that opens.
    pub fn receive(&mut self, datagram: &[u8], room: usize, tally: &mut Tally) -> Received {
        if room < ROOM_OF_RECEIVE {
            return Received::Refused(Refusal::Room);
        }
        let records = match wire::frame(datagram) {
            Ok(records) => records,
            Err(fault) => return Received::Unframed(fault),
        };
        let mut answers = Vec::new();
        let mut out = None;
        for (place, record) in records.iter().enumerate() {
            let answer = self.judge(datagram, place, record);
            if let Ok(Answer::Open(_)) = answer {
                out = self.agreed.as_ref().map(|agreed| agreed.flight.clone());
            }
            count(tally, &answer);
            answers.push(answer);
        }
        Received::Records { answers, out }
    }

    /// Send data: 16, 7, 8, 15, 6. In Opening and Open.
    pub fn send(&mut self, data: &[u8], room: usize) -> Result<Vec<u8>, Refusal> {
        if data.is_empty() || data.len() > LARGEST_DATA {
            return Err(Refusal::Argument);
        }
        self.allow(&[State::Opening, State::Open])?;
        self.send_protected(Content::Data, data, room)
    }

    /// Send alert: 16, 7, 8, 15, 6. Protected in Opening and Open, clear in Sent, Replied and Spec.
    /// The checksum is over exactly the bytes lent.
    pub fn alert(
        &mut self,
        protected: bool,
        level: u8,
        description: u8,
        record: &[u8],
        room: usize,
    ) -> Result<Vec<u8>, Refusal> {
        let known = alert::level(level).is_some() && alert::is_assigned(description);
        if !known || record.len() > wire::LARGEST_DATAGRAM {
            return Err(Refusal::Argument);
        }
        let content = alert::write(level, description, alert::checksum(record));
        if protected {
            self.allow(&[State::Opening, State::Open])?;
            self.send_protected(Content::Alert, &content, room)
        } else {
            self.allow(&[State::Sent, State::Replied, State::Spec])?;
            self.send_clear_alert(&content, room)
        }
    }

    /// Close: 7 in Barred, else to Closed.
    pub fn close(&mut self) -> Result<(), Refusal> {
        if self.state == State::Barred {
            return Err(Refusal::Closed);
        }
        self.state = State::Closed;
        Ok(())
    }

    /// Start again: 7 in Barred, 8 anywhere but in Closed. It forgets the numbers of the window, the
    /// hello with all that came of it, and the records sent; the sending numbers stay until the next
    /// hello.
    pub fn start(&mut self) -> Result<(), Refusal> {
        match self.state {
            State::Barred => Err(Refusal::Closed),
            State::Closed => {
                self.state = State::Idle;
                self.window = self.window.emptied();
                self.said = None;
                self.agreed = None;
                self.records_sent.clear();
                Ok(())
            }
            _ => Err(Refusal::NotAllowed),
        }
    }

    pub fn state(&self) -> State {
        self.state
    }

    pub fn window(&self) -> &Window {
        &self.window
    }

    /// The next protected number, none before the first flight of a hello, and the next clear one;
    /// nothing before the first hello.
    pub fn next_numbers(&self) -> Option<(Option<u32>, u32)> {
        self.sending.as_ref().map(|sending| (sending.protected, sending.clear))
    }

    /// The checksums of the last eight records that we sent since the last start, the newest first.
    pub fn records_sent(&self) -> &[Checksum] {
        &self.records_sent
    }

    /// The newest of them; of nothing where there is none.
    pub fn last_checksum(&self) -> Checksum {
        self.records_sent.first().copied().unwrap_or(alert::checksum(&[]))
    }

    /// The keys that the last ServerHello gave.
    pub fn keys(&self) -> Option<&Keys> {
        self.agreed.as_ref().map(|agreed| &agreed.keys)
    }
}

/// One or both of the profile's kinds, in order and without repetition.
fn offered(macs: &[u8]) -> Option<Vec<Kind>> {
    let kinds: Vec<Kind> = macs.iter().map(|mac| Kind::assigned(*mac)).collect::<Option<_>>()?;
    match kinds[..] {
        [_] => Some(kinds),
        [one, other] if one != other => Some(kinds),
        _ => None,
    }
}

/// Sending: 7 and 8, then 15, then 6.
impl Ship {
    fn allow(&self, states: &[State]) -> Result<(), Refusal> {
        match self.state {
            State::Closed | State::Barred => Err(Refusal::Closed),
            state if states.contains(&state) => Ok(()),
            _ => Err(Refusal::NotAllowed),
        }
    }

    fn send_protected(
        &mut self,
        content: Content,
        bytes: &[u8],
        room: usize,
    ) -> Result<Vec<u8>, Refusal> {
        let (Some(agreed), Some(Sending { protected: Some(next), .. })) =
            (&self.agreed, &mut self.sending)
        else {
            return Err(Refusal::NotAllowed);
        };
        let number = unspent(*next)?;
        let record = agreed.keys.protect(Writer::Unit, content, false, number, bytes);
        if room < record.len() {
            return Err(Refusal::Room);
        }
        *next += 1;
        remember(&mut self.records_sent, &record);
        Ok(record)
    }

    fn send_clear_alert(&mut self, content: &[u8], room: usize) -> Result<Vec<u8>, Refusal> {
        let Some(sending) = &mut self.sending else { return Err(Refusal::NotAllowed) };
        let number = unspent(sending.clear)?;
        let record = wire::write(wire::type_byte(Content::Alert, false, false), number, content);
        if room < record.len() {
            return Err(Refusal::Room);
        }
        sending.clear += 1;
        remember(&mut self.records_sent, &record);
        Ok(record)
    }
}

/// Data handed out, and answers 9, 10 and 11; each count stops at 2^32 - 1.
fn count(tally: &mut Tally, answer: &Judged) {
    let count = match answer {
        Ok(Answer::Data { .. }) => &mut tally.handed_out,
        Err(Refusal::Forged) => &mut tally.forged,
        Err(Refusal::TooOld) => &mut tally.too_old,
        Err(Refusal::Repeated) => &mut tally.repeated,
        _ => return,
    };
    *count = count.saturating_add(1);
}
