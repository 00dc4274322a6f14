//! Judging a record that the ship received: 7; place and state (8); code and window; content (12),
//! then 13, 14 or 17. The reply's records are checked from the front like all others.

use super::{Agreed, Answer, Judged, Said, Sending, Ship, State};
use crate::alert::{self, Alert, Level};
use crate::finished;
use crate::hello::{self, ServerHello};
use crate::keys::{Keys, Kind, Writer};
use crate::shore::{remember, Refusal};
use crate::window::Verdict;
use crate::wire::{self, Content, Record};

/// The warning on a repeated Finished: duplicate_finished_received (10.2, 10.4).
const DUPLICATE_FINISHED: u8 = 57;
/// The whole of a HelloRequest (10.5.1.1).
const HELLO_REQUEST: [u8; 3] = [0, 0, 0];

impl Ship {
    pub(super) fn judge(&mut self, datagram: &[u8], place: usize, record: &Record) -> Judged {
        if matches!(self.state, State::Closed | State::Barred) {
            return Err(Refusal::Closed);
        }
        let fragment = &datagram[record.fragment.clone()];
        if record.protected {
            self.judge_protected(record, fragment)
        } else {
            self.judge_clear(place, record, fragment)
        }
    }

    /// A clear handshake record that begins with byte 0 counts as a HelloRequest, in any place; one
    /// that begins with byte 2 as a ServerHello, which may stand only first in its datagram.
    fn judge_clear(&mut self, place: usize, record: &Record, fragment: &[u8]) -> Judged {
        use State::*;
        match (record.content, fragment[0], self.state) {
            (Content::Handshake, 0, _) => self.judge_hello_request(fragment),
            (Content::Handshake, 2, Sent | Replied | Spec) if place == 0 => {
                self.judge_server_hello(fragment)
            }
            (Content::ChangeCipherSpec, _, Replied) => self.judge_change_cipher_spec(fragment),
            (Content::Alert, _, Sent | Replied | Spec) => self.judge_clear_alert(fragment),
            _ => Err(Refusal::NotAllowed),
        }
    }

    /// In the middle of a handshake it is ignored; otherwise it is reported. Either way nothing
    /// changes.
    fn judge_hello_request(&self, message: &[u8]) -> Judged {
        if message != HELLO_REQUEST {
            return Err(Refusal::Malformed);
        }
        match self.state {
            State::Sent | State::Replied | State::Spec => Ok(Answer::Ignored),
            _ => Ok(Answer::Request),
        }
    }

    /// Each acceptable one starts the reading of the reply anew.
    fn judge_server_hello(&mut self, message: &[u8]) -> Judged {
        let Some(said) = &self.said else { return Err(Refusal::NotAllowed) };
        let hello = hello::read_server(message).ok_or(Refusal::Malformed)?;
        let kind = accepted(&hello, &self.identifier, said).ok_or(Refusal::NotAcceptable)?;
        let shore_verify_data =
            finished::verify_data(&self.secret, Writer::Shore, &[&said.message, message]);
        let keys = Keys {
            secret: self.secret.clone(),
            server_random: hello.random,
            client_random: said.random.clone(),
            kind,
            refresh: hello.refresh,
        };
        let server_hello = message.to_vec();
        self.agreed = Some(Agreed { keys, server_hello, shore_verify_data, flight: Vec::new() });
        self.state = State::Replied;
        Ok(Answer::Hello)
    }

    fn judge_change_cipher_spec(&mut self, fragment: &[u8]) -> Judged {
        if fragment != [1] {
            return Err(Refusal::Malformed);
        }
        self.state = State::Spec;
        self.window = self.window.emptied();
        Ok(Answer::Spec)
    }

    /// A clear alert must match one of the last eight records that we sent since the last start. A
    /// clear fatal one closes only (house rule).
    fn judge_clear_alert(&mut self, fragment: &[u8]) -> Judged {
        let alert = alert::read(fragment).ok_or(Refusal::Malformed)?;
        if !self.records_sent.contains(&alert.checksum) {
            return Err(Refusal::Checksum);
        }
        match alert.level {
            Level::Warning => Ok(Answer::Warning(alert.description)),
            Level::Critical => {
                self.state = State::Closed;
                Ok(Answer::Critical(alert.description))
            }
            Level::Fatal => {
                self.state = State::Closed;
                Ok(Answer::Fatal(alert.description))
            }
        }
    }

    /// Protected records: allowed kind, code, too old, repeated, content. A genuine new record
    /// marks its number even if its content is then refused.
    fn judge_protected(&mut self, record: &Record, fragment: &[u8]) -> Judged {
        let allowed = match self.state {
            State::Spec => matches!(record.content, Content::Handshake | Content::Alert),
            State::Opening | State::Open => true,
            _ => false,
        };
        let keys = match &self.agreed {
            Some(agreed) if allowed => &agreed.keys,
            _ => return Err(Refusal::NotAllowed),
        };
        let length = keys
            .verify(Writer::Shore, record.type_byte, record.number, fragment)
            .ok_or(Refusal::Forged)?;
        match self.window.verdict(record.number) {
            Verdict::TooOld => return Err(Refusal::TooOld),
            Verdict::Repeated => return Err(Refusal::Repeated),
            Verdict::New => self.window.accept(record.number),
        }
        let content = &fragment[..length];
        match record.content {
            Content::ChangeCipherSpec => Err(Refusal::Malformed),
            Content::Alert => self.judge_protected_alert(content),
            Content::Handshake if content.first() == Some(&0) => self.judge_hello_request(content),
            Content::Handshake => self.judge_finished(content),
            Content::Data if content.is_empty() => Err(Refusal::Malformed),
            Content::Data => {
                self.state = State::Open;
                Ok(Answer::Data { start: record.fragment.start, length })
            }
        }
    }

    /// Trusted by its code; the checksum is not compared. The warning on a repeated Finished says
    /// that the shore has ours. A fatal one bars the session, and all that could resume it is
    /// forgotten (10.2.2).
    fn judge_protected_alert(&mut self, content: &[u8]) -> Judged {
        let Alert { level, description, .. } = alert::read(content).ok_or(Refusal::Malformed)?;
        match level {
            Level::Warning => {
                if self.state == State::Opening && description == DUPLICATE_FINISHED {
                    self.state = State::Open;
                }
                Ok(Answer::Warning(description))
            }
            Level::Critical => {
                self.state = State::Closed;
                Ok(Answer::Critical(description))
            }
            Level::Fatal => {
                self.state = State::Barred;
                self.identifier.clear();
                self.secret.clear();
                self.said = None;
                self.agreed = None;
                Ok(Answer::Barred(description))
            }
        }
    }

    /// The right contents let the flight be written, or are heard again; a well-formed Finished with
    /// wrong ones closes.
    fn judge_finished(&mut self, content: &[u8]) -> Judged {
        let data = finished::read(content).ok_or(Refusal::Malformed)?;
        let right = matches!(&self.agreed, Some(agreed) if agreed.shore_verify_data == data);
        if !right {
            self.state = State::Closed;
            return Err(Refusal::WrongFinished);
        }
        if self.state != State::Spec {
            return Ok(Answer::Again);
        }
        let length = self.write_flight(content).ok_or(Refusal::NotAllowed)?;
        self.state = State::Opening;
        Ok(Answer::Open(length))
    }

    /// Change cipher spec, clear number 1, with its length; Finished, protected number 0, without.
    /// Afterwards our protected records count on from 1, the clear ones from 2.
    fn write_flight(&mut self, theirs: &[u8]) -> Option<usize> {
        let (said, agreed) = (self.said.as_ref()?, self.agreed.as_mut()?);
        let messages = [&said.message[..], &agreed.server_hello, theirs];
        let ours = finished::verify_data(&self.secret, Writer::Unit, &messages);
        let change = wire::type_byte(Content::ChangeCipherSpec, false, true);
        let records = [
            wire::write(change, 1, &[1]),
            agreed.keys.protect(
                Writer::Unit,
                Content::Handshake,
                false,
                0,
                &finished::write(&ours),
            ),
        ];
        agreed.flight = records.concat();
        records.iter().for_each(|record| remember(&mut self.records_sent, record));
        self.sending = Some(Sending { protected: Some(1), clear: 2 });
        Some(agreed.flight.len())
    }
}

/// The kind of an acceptable ServerHello: version 1, the session named, client key number 0, null
/// cipher with a kind that was offered, null compression, explicit numbering, and a key refresh of at
/// most what was offered.
fn accepted(hello: &ServerHello, planted: &[u8], said: &Said) -> Option<Kind> {
    let kind = match hello.suite {
        [0, mac] => Kind::assigned(mac).filter(|kind| said.kinds.contains(kind))?,
        _ => return None,
    };
    let acceptable = hello.version == 1
        && hello.session == planted
        && hello.client_key == 0
        && hello.compression == 0
        && hello.numbering == 2
        && hello.refresh <= said.refresh;
    acceptable.then_some(kind)
}
