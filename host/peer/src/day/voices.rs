//! Who speaks on a random day: the unit as it is now, and as it was before it lost its power. What
//! it wrote then may come late, and what a stranger kept of it may come at any time.

use super::Day;
use crate::shore::{Shore, Started, State};
use crate::unit::Connection;
use crate::window::Window;
use crate::wire;

/// A connection that the unit has, or had, and its next protected number.
#[derive(Clone)]
pub(super) struct Voice {
    connection: Connection,
    next: u32,
}

/// Which of the shore's handshakes a connection is.
#[derive(Clone, Copy, PartialEq, Eq, Debug)]
enum Role {
    /// The open one, or the only one.
    First,
    Started,
    Neither,
}

impl Day<'_> {
    pub(super) fn started(&self) -> Option<&Started> {
        self.model.shore().and_then(Shore::started)
    }

    pub(super) fn voice(&self) -> Option<Voice> {
        let connection = self.unit.connection()?.clone();
        Some(Voice { connection, next: self.next })
    }

    /// The other voice speaks from now on.
    pub(super) fn turn(&mut self) {
        let Some(other) = self.other.take() else { return };
        let next = std::mem::replace(&mut self.next, other.next);
        let connection = self.unit.exchange(other.connection);
        self.other = connection.map(|connection| Voice { connection, next });
    }

    /// Beside a started handshake either; else mostly the one that the shore knows.
    pub(super) fn choose_voice(&mut self) {
        let Some(other) = &self.other else { return };
        let known = self.role(Some(&other.connection)) == Role::First
            && self.role(self.unit.connection()) != Role::First;
        let chance = match self.started() {
            Some(_) => 50,
            None if known => 95,
            None => 3,
        };
        if self.rng.percent(chance) {
            self.turn();
        }
    }

    /// The unit as the shore's started handshake knows it, if it heard that reply.
    pub(super) fn speak_as_started(&mut self) {
        let other = self.other.as_ref().map(|voice| &voice.connection);
        if self.role(self.unit.connection()) != Role::Started && self.role(other) == Role::Started {
            self.turn();
        }
    }

    fn role(&self, connection: Option<&Connection>) -> Role {
        let (Some(shore), Some(connection)) = (self.model.shore(), connection) else {
            return Role::Neither;
        };
        let is = |handshake: &crate::handshake::Handshake| {
            handshake.hello() == Some(&connection.hello)
                && handshake.keys() == Some(&connection.keys)
        };
        match shore.started() {
            Some(started) if is(&started.handshake) => Role::Started,
            _ if is(shore.handshake()) => Role::First,
            _ => Role::Neither,
        }
    }

    /// The window that the unit's records come into.
    pub(super) fn window(&self) -> Option<&Window> {
        let shore = self.model.shore()?;
        match (self.role(self.unit.connection()), shore.started()) {
            (Role::Started, Some(started)) => Some(started.handshake.window()),
            _ => Some(shore.handshake().window()),
        }
    }

    /// The unit goes by a reply from now on; before, it had this connection. One that it knew it
    /// goes on with, and the open one is not forgotten.
    pub(super) fn go_by(&mut self, before: Option<Voice>) {
        if self.state() != State::Open {
            self.next = 0;
            let left = self.rng.under(2);
            return self.link.truncate(left);
        }
        let is_now = |voice: &Voice| match self.unit.connection() {
            Some(now) => now.hello == voice.connection.hello && now.keys == voice.connection.keys,
            None => false,
        };
        match (&before, &self.other) {
            (Some(before), _) if is_now(before) => {}
            (_, Some(other)) if is_now(other) => {
                self.next = other.next;
                self.other = before;
            }
            (Some(known), _) if self.role(Some(&known.connection)) == Role::First => {
                self.next = 0;
                self.other = before;
            }
            _ => self.next = 0,
        }
    }

    /// What the shore sent must satisfy the unit that it is meant for, unless it is lost.
    pub(super) fn hear(&mut self, out: Option<Vec<u8>>) {
        let (Some(record), Some(shore)) = (out, self.model.shore()) else { return };
        let keys = match shore.started() {
            Some(started) if record[0] & wire::PROTECTED == 0 => started.handshake.keys(),
            _ => shore.handshake().keys(),
        };
        let keys = keys.cloned();
        if !self.rng.percent(90) {
            return;
        }
        let other = self.other.as_mut().map(|voice| &mut voice.connection);
        for connection in [self.unit.connection_mut(), other].into_iter().flatten() {
            if Some(&connection.keys) == keys.as_ref() {
                connection.hear(&record).expect("the unit reads what the model sends");
            }
        }
    }
}
