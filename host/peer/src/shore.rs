//! The shore's rules: one connection with one ship's unit. Each call is one function here, and
//! the order of its tests is the order of its refusals in the rules.
//!
//! A unit that rebooted says hello while its connection is open. Its handshake is then held beside
//! the open one, by the rows of Idle, Replied and Spec, and takes its place once the unit's new
//! Finished is verified. Until then the open one goes on.

use crate::alert::{self, Alert, Level};
use crate::handshake::Handshake;
use crate::hello;
use crate::keys::Keys;
use crate::window::Window;
use crate::wire::{self, Content, Fault, Record};

/// The refusal numbers that the calls and the records give; 1 to 5 are those of the framing. 18 is
/// not given any more.
#[derive(Clone, Copy, PartialEq, Eq, Debug)]
pub enum Refusal {
    Room = 6,
    Closed = 7,
    NotAllowed = 8,
    Forged = 9,
    TooOld = 10,
    Repeated = 11,
    Malformed = 12,
    NotAcceptable = 13,
    Checksum = 14,
    Spent = 15,
    Argument = 16,
    WrongFinished = 17,
}

#[derive(Clone, Copy, PartialEq, Eq, Debug)]
pub enum State {
    Idle,
    Replied,
    Spec,
    Open,
    Closed,
    Barred,
}

/// What one record of a datagram gave.
#[derive(Clone, PartialEq, Eq, Debug)]
pub enum Answer {
    Reply(usize),
    Resent(usize),
    Spec,
    Open,
    Again,
    Data { start: usize, length: usize },
    Warning(u8),
    Critical(u8),
    Fatal(u8),
    Barred(u8),
}

pub type Judged = Result<Answer, Refusal>;

/// What a receive gave.
#[derive(Clone, PartialEq, Eq, Debug)]
pub enum Received {
    Refused(Refusal),
    Unframed(Fault),
    Records { answers: Vec<Judged>, out: Option<Vec<u8>> },
}

#[derive(Clone, Copy, PartialEq, Eq, Default, Debug)]
pub struct Tally {
    pub handed_out: u32,
    pub forged: u32,
    pub too_old: u32,
    pub repeated: u32,
}

#[derive(Clone, PartialEq, Eq, Debug)]
pub struct Shore {
    state: State,
    identifier: Vec<u8>,
    secret: Vec<u8>,
    /// The only handshake, or in Open the open one.
    handshake: Handshake,
    /// Only in Open.
    started: Option<Started>,
    records_sent: Vec<Checksum>,
}

/// A handshake that the unit started beside the open one.
#[derive(Clone, PartialEq, Eq, Debug)]
pub struct Started {
    pub phase: Phase,
    pub handshake: Handshake,
}

#[derive(Clone, Copy, PartialEq, Eq, Debug)]
pub enum Phase {
    Replied,
    Spec,
}

/// The checksum of a record that we sent.
pub type Checksum = [u8; 4];

pub(crate) const ROOM_OF_RECEIVE: usize = 128;
pub(crate) const LARGEST_DATA: usize = 1300;
/// How many of the records that we sent an alert may be about.
const RECORDS_SENT: usize = 8;

impl Shore {
    /// Fresh connection: 16 only. The width of its window is fixed here, 32 to 64.
    pub fn fresh(identifier: &[u8], secret: &[u8], width: u32) -> Result<Shore, Refusal> {
        if identifier.len() != 8 || secret.len() != 20 {
            return Err(Refusal::Argument);
        }
        let window = Window::fresh(width).ok_or(Refusal::Argument)?;
        Ok(Shore {
            state: State::Idle,
            identifier: identifier.to_vec(),
            secret: secret.to_vec(),
            handshake: Handshake::none(window),
            started: None,
            records_sent: Vec::new(),
        })
    }

    /// Receive: 16, 6, 1 to 5, then one answer for each record, each judged in the state that
    /// the records before it left.
    pub fn receive(
        &mut self,
        datagram: &[u8],
        random: &[u8],
        room: usize,
        tally: &mut Tally,
    ) -> Received {
        if random.len() != 16 {
            return Received::Refused(Refusal::Argument);
        }
        if room < ROOM_OF_RECEIVE {
            return Received::Refused(Refusal::Room);
        }
        let records = match wire::frame(datagram) {
            Ok(records) => records,
            Err(fault) => return Received::Unframed(fault),
        };
        let mut answers = Vec::new();
        let mut out = None;
        for (place, record) in records.iter().enumerate() {
            let hello = &datagram[record.fragment.clone()];
            let answer = self.judge(datagram, place, record, random);
            if let Ok(Answer::Reply(_) | Answer::Resent(_)) = answer {
                out = self.reply_to(hello).map(<[u8]>::to_vec);
            }
            tally.count(&answer);
            answers.push(answer);
        }
        Received::Records { answers, out }
    }

    /// Send data: 16, 7, 8, 15, 6. Only in Open.
    pub fn send(&mut self, data: &[u8], room: usize) -> Result<Vec<u8>, Refusal> {
        if data.is_empty() || data.len() > LARGEST_DATA {
            return Err(Refusal::Argument);
        }
        allow_sending(self.state, &[State::Open])?;
        let record = self.handshake.protect(Content::Data, data, room)?;
        Ok(self.sent(record))
    }

    /// Send alert: 16, 7, 8, 15, 6. Protected in Replied, Spec and Open, on the open handshake where
    /// there is one; clear in Replied and Spec, in Open on the one that is started. The checksum is
    /// over exactly the bytes lent.
    pub fn alert(
        &mut self,
        protected: bool,
        level: u8,
        description: u8,
        record: &[u8],
        room: usize,
    ) -> Result<Vec<u8>, Refusal> {
        let known = alert::level(level).is_some() && alert::is_assigned(description);
        if !known || record.len() > wire::LARGEST_DATAGRAM {
            return Err(Refusal::Argument);
        }
        let content = alert::write(level, description, alert::checksum(record));
        let record = if protected {
            allow_sending(self.state, &[State::Replied, State::Spec, State::Open])?;
            self.handshake.protect(Content::Alert, &content, room)?
        } else {
            allow_sending(self.unfinished(), &[State::Replied, State::Spec])?;
            self.unfinished_handshake().clear_alert(&content, room)?
        };
        Ok(self.sent(record))
    }

    /// Close: 7 in Barred, else to Closed.
    pub fn close(&mut self) -> Result<(), Refusal> {
        if self.state == State::Barred {
            return Err(Refusal::Closed);
        }
        self.end(State::Closed);
        Ok(())
    }

    /// Start again: 7 in Barred, 8 anywhere but in Closed. It forgets the numbers of the window,
    /// the kept hello and the records sent; the sending numbers stay until the next reply.
    pub fn start(&mut self) -> Result<(), Refusal> {
        match self.state {
            State::Barred => Err(Refusal::Closed),
            State::Closed => {
                self.state = State::Idle;
                self.handshake.forget();
                self.records_sent.clear();
                Ok(())
            }
            _ => Err(Refusal::NotAllowed),
        }
    }

    pub fn state(&self) -> State {
        self.state
    }

    /// The planted session's identifier.
    pub fn identifier(&self) -> &[u8] {
        &self.identifier
    }

    /// The only handshake, or in Open the open one.
    pub fn handshake(&self) -> &Handshake {
        &self.handshake
    }

    /// The one that is started beside the open one.
    pub fn started(&self) -> Option<&Started> {
        self.started.as_ref()
    }

    /// The checksums of the last eight records that we sent since the last start, fewer if fewer
    /// were sent, the newest first.
    pub fn records_sent(&self) -> &[Checksum] {
        &self.records_sent
    }

    /// The newest of them; of nothing where there is none.
    pub fn last_checksum(&self) -> Checksum {
        self.records_sent.first().copied().unwrap_or(alert::checksum(&[]))
    }
}

/// The handshake that is not finished: beside an open one the started one, else the only one.
impl Shore {
    /// Where it stands. Beside an open one there may be none: then as in Idle.
    fn unfinished(&self) -> State {
        match (self.state, &self.started) {
            (State::Open, None) => State::Idle,
            (State::Open, Some(Started { phase: Phase::Replied, .. })) => State::Replied,
            (State::Open, Some(Started { phase: Phase::Spec, .. })) => State::Spec,
            (state, _) => state,
        }
    }

    fn unfinished_handshake(&mut self) -> &mut Handshake {
        match &mut self.started {
            Some(started) => &mut started.handshake,
            None => &mut self.handshake,
        }
    }

    /// An alert in the clear closes it, and nothing else.
    fn end_unfinished(&mut self) {
        match self.state {
            State::Open => self.started = None,
            _ => self.state = State::Closed,
        }
    }

    /// What closes or bars the open one drops the started one too.
    fn end(&mut self, state: State) {
        self.state = state;
        self.started = None;
    }

    /// The kept reply to a hello: of the started one, or of the only or the open one.
    fn reply_to(&self, message: &[u8]) -> Option<&[u8]> {
        let of_started = self.started.as_ref().and_then(|one| one.handshake.reply_to(message));
        of_started.or(self.handshake.reply_to(message))
    }
}

/// Judging a received record: 7; place and state (8); code and window; content.
impl Shore {
    pub(crate) fn judge(
        &mut self,
        datagram: &[u8],
        place: usize,
        record: &Record,
        random: &[u8],
    ) -> Judged {
        if matches!(self.state, State::Closed | State::Barred) {
            return Err(Refusal::Closed);
        }
        let fragment = &datagram[record.fragment.clone()];
        if record.protected {
            self.judge_protected(record, fragment)
        } else {
            self.judge_clear(place, record, fragment, random)
        }
    }

    /// The clear rows of the state table; they touch only the handshake that is not finished. A
    /// clear handshake record that begins with byte 1 counts as a ClientHello, whatever follows.
    fn judge_clear(
        &mut self,
        place: usize,
        record: &Record,
        fragment: &[u8],
        random: &[u8],
    ) -> Judged {
        use State::*;
        let is_hello = record.content == Content::Handshake && fragment[0] == 1;
        match (self.unfinished(), record.content) {
            (Idle | Replied | Spec, _) if is_hello && place == 0 => {
                self.judge_hello(fragment, random)
            }
            (Replied, Content::ChangeCipherSpec) => self.judge_change_cipher_spec(fragment),
            (Replied | Spec, Content::Alert) => self.judge_clear_alert(fragment),
            _ => Err(Refusal::NotAllowed),
        }
    }

    /// The same message gets the same reply and changes nothing, that of the open connection too;
    /// another acceptable one gets a new reply.
    fn judge_hello(&mut self, message: &[u8], random: &[u8]) -> Judged {
        if let Some(reply) = self.reply_to(message) {
            return Ok(Answer::Resent(reply.len()));
        }
        let hello = hello::read(message).map_err(|_| Refusal::Malformed)?;
        let kind = hello::choose(&hello, &self.identifier).map_err(|_| Refusal::NotAcceptable)?;
        let keys = Keys {
            secret: self.secret.clone(),
            server_random: random.to_vec(),
            client_random: hello.random,
            kind,
            refresh: hello.refresh,
        };
        Ok(Answer::Reply(self.reply(message, keys)))
    }

    /// A new reply. In Open it makes the started handshake, in place of any earlier; else the only
    /// one is answered anew.
    fn reply(&mut self, message: &[u8], keys: Keys) -> usize {
        let records = match self.state {
            State::Open => {
                let mut handshake = Handshake::none(self.handshake.window().emptied());
                let records = handshake.reply(message, &self.identifier, keys);
                self.started = Some(Started { phase: Phase::Replied, handshake });
                records
            }
            _ => {
                self.state = State::Replied;
                self.handshake.reply(message, &self.identifier, keys)
            }
        };
        records.iter().for_each(|record| self.remember(record));
        records.concat().len()
    }

    fn judge_change_cipher_spec(&mut self, fragment: &[u8]) -> Judged {
        if fragment != [1] {
            return Err(Refusal::Malformed);
        }
        self.unfinished_handshake().empty_window();
        match &mut self.started {
            Some(started) => started.phase = Phase::Spec,
            None => self.state = State::Spec,
        }
        Ok(Answer::Spec)
    }

    /// A clear alert must match one of the last eight records that we sent since the last start. A
    /// clear fatal one closes only (house rule).
    fn judge_clear_alert(&mut self, fragment: &[u8]) -> Judged {
        let alert = alert::read(fragment).ok_or(Refusal::Malformed)?;
        if !self.records_sent.contains(&alert.checksum) {
            return Err(Refusal::Checksum);
        }
        match alert.level {
            Level::Warning => Ok(Answer::Warning(alert.description)),
            Level::Critical => {
                self.end_unfinished();
                Ok(Answer::Critical(alert.description))
            }
            Level::Fatal => {
                self.end_unfinished();
                Ok(Answer::Fatal(alert.description))
            }
        }
    }

    /// Protected records: allowed kind, code, too old, repeated, content. A handshake record is
    /// tried under the started one first, once its change cipher spec has come, and is that one's
    /// alone if its code is right there; all else goes to the open one, or to the only one. A
    /// genuine new record marks its number even if its content is then refused.
    fn judge_protected(&mut self, record: &Record, fragment: &[u8]) -> Judged {
        let allowed = match self.state {
            State::Spec => matches!(record.content, Content::Handshake | Content::Alert),
            State::Open => true,
            _ => false,
        };
        if !allowed {
            return Err(Refusal::NotAllowed);
        }
        if let Some(length) = self.length_under_started(record, fragment) {
            return self.judge_started_finished(record.number, &fragment[..length]);
        }
        let length = self.handshake.content_length(record, fragment).ok_or(Refusal::Forged)?;
        self.handshake.mark(record.number)?;
        let content = &fragment[..length];
        match record.content {
            Content::ChangeCipherSpec => Err(Refusal::Malformed),
            Content::Alert => self.judge_protected_alert(content),
            Content::Handshake => self.judge_finished(content),
            Content::Data if content.is_empty() => Err(Refusal::Malformed),
            Content::Data => Ok(Answer::Data { start: record.fragment.start, length }),
        }
    }

    /// Of a handshake record whose code is right under the keys of a started one in Spec.
    fn length_under_started(&self, record: &Record, fragment: &[u8]) -> Option<usize> {
        match &self.started {
            Some(Started { phase: Phase::Spec, handshake })
                if record.content == Content::Handshake =>
            {
                handshake.content_length(record, fragment)
            }
            _ => None,
        }
    }

    /// The right contents put the started one in the place of the open one; a well-formed Finished
    /// with wrong ones drops it, and nothing else.
    fn judge_started_finished(&mut self, number: u16, content: &[u8]) -> Judged {
        let started = self.unfinished_handshake();
        started.mark(number)?;
        let is_right = started.is_right(content)?;
        match self.started.take() {
            Some(started) if is_right => {
                self.handshake = started.handshake;
                Ok(Answer::Open)
            }
            _ => Err(Refusal::WrongFinished),
        }
    }

    /// Trusted by its code; the checksum is not compared. A fatal one bars the session, and all
    /// that could resume it is forgotten (10.2.2).
    fn judge_protected_alert(&mut self, content: &[u8]) -> Judged {
        let Alert { level, description, .. } = alert::read(content).ok_or(Refusal::Malformed)?;
        match level {
            Level::Warning => Ok(Answer::Warning(description)),
            Level::Critical => {
                self.end(State::Closed);
                Ok(Answer::Critical(description))
            }
            Level::Fatal => {
                self.end(State::Barred);
                self.identifier.clear();
                self.secret.clear();
                self.handshake.blank();
                Ok(Answer::Barred(description))
            }
        }
    }

    /// The right contents open, or are heard again; a well-formed Finished with wrong ones
    /// closes.
    fn judge_finished(&mut self, content: &[u8]) -> Judged {
        if !self.handshake.is_right(content)? {
            self.end(State::Closed);
            return Err(Refusal::WrongFinished);
        }
        if self.state == State::Open {
            return Ok(Answer::Again);
        }
        self.state = State::Open;
        Ok(Answer::Open)
    }
}

/// The records that we sent.
impl Shore {
    fn sent(&mut self, record: Vec<u8>) -> Vec<u8> {
        self.remember(&record);
        record
    }

    fn remember(&mut self, record: &[u8]) {
        remember(&mut self.records_sent, record);
    }
}

/// One record more that we sent; of nine the oldest is forgotten.
pub(crate) fn remember(records_sent: &mut Vec<Checksum>, record: &[u8]) {
    records_sent.insert(0, alert::checksum(record));
    records_sent.truncate(RECORDS_SENT);
}

/// Sending: 7 and 8.
fn allow_sending(state: State, states: &[State]) -> Result<(), Refusal> {
    match state {
        State::Closed | State::Barred => Err(Refusal::Closed),
        state if states.contains(&state) => Ok(()),
        _ => Err(Refusal::NotAllowed),
    }
}

impl Tally {
    /// Data handed out, and answers 9, 10 and 11; each count stops at 2^32 - 1.
    fn count(&mut self, answer: &Judged) {
        let count = match answer {
            Ok(Answer::Data { .. }) => &mut self.handed_out,
            Err(Refusal::Forged) => &mut self.forged,
            Err(Refusal::TooOld) => &mut self.too_old,
            Err(Refusal::Repeated) => &mut self.repeated,
            _ => return,
        };
        *count = count.saturating_add(1);
    }
}
