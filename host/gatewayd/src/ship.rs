//! One ship: its planted session and the connections that go with it.

use crate::budget::Budget;
use crate::sessions::Session;
use crate::way;
use gateway::{Connection, State, Tally};
use peer::sha1::sha1;
use std::net::{IpAddr, SocketAddr};
use std::time::Instant;

pub struct Ship {
    pub session: Session,
    /// Which planting this is: another secret under the same identifier is another one.
    pub planting: [u8; 20],
    /// Open or Idle; or Barred. Handshakes are beside it until a Finished is verified.
    pub connection: Connection,
    /// The hello from which the open connection came.
    pub hello: Vec<u8>,
    /// Handshakes under way, the oldest first; and how often one began, went on or ended.
    pub started: Vec<Handshake>,
    pub turns: u64,
    pub tally: Tally,
    /// The tally as the store has it.
    pub saved: Tally,
    /// Of the row in the store from which this ship was made.
    pub version: i64,
    /// What that row has beside the connection, if this gateway has written it.
    pub settled: Option<Settled>,
    /// How often a Finished has opened a connection: numbers begin anew with each.
    pub opening: i64,
    /// No number of ours is spent before the next opening: the store is of an earlier time, and some may be spent already.
    pub mute: bool,
    /// The sender of the last genuine new record.
    pub route: Option<SocketAddr>,
    /// Where such records came from before, the last first.
    pub recent: Vec<SocketAddr>,
    /// Which of our addresses that record came to.
    pub ours: Option<IpAddr>,
    /// The highest number of the open connection.
    pub newest: u16,
    /// Barred sessions never come back; the library says so of its own, the gateway of those that
    /// were barred in an earlier life.
    pub barred: bool,
    /// When the last genuine new record came, or the gateway started.
    pub heard: Instant,
    /// Hellos from the host of the route are answered out of this.
    pub hellos: Budget,
}

/// What of a ship changes seldom. (Its name, planting and hello change with these, or at a start.)
#[derive(Clone, Copy, PartialEq, Eq)]
pub struct Settled {
    turns: u64,
    opening: i64,
    mute: bool,
    barred: bool,
    route: Option<SocketAddr>,
}

/// A hello that was answered, and the connection that waits for the Finished to it.
pub struct Handshake {
    /// In the order of their start.
    pub serial: u64,
    /// The message; said again, it gets the same reply.
    pub hello: Vec<u8>,
    /// Who said it: the first, and the last few of the others, of as many hosts as there is room for.
    pub senders: Vec<SocketAddr>,
    pub connection: Connection,
    pub at: Instant,
}

const SENDERS: usize = 8;
const RECENT: usize = 8;
const HELLOS_FROM_ITS_HOST: u32 = 10;

impl Ship {
    pub fn fresh(session: Session, now: Instant) -> Result<Ship, String> {
        let connection = Connection::fresh(&session.id, &session.secret, session.width)
            .map_err(|refusal| format!("{session:?}: {refusal}"))?;
        Ok(Ship {
            planting: planting(&session),
            session,
            connection,
            hello: Vec::new(),
            started: Vec::new(),
            turns: 0,
            tally: Tally::default(),
            saved: Tally::default(),
            version: 0,
            settled: None,
            opening: 0,
            mute: false,
            route: None,
            recent: Vec::new(),
            ours: None,
            newest: 0,
            barred: false,
            heard: now,
            hellos: Budget::new(HELLOS_FROM_ITS_HOST),
        })
    }

    pub fn is_open(&self) -> bool {
        !self.barred && self.connection.state() == State::Open
    }

    pub fn settled(&self) -> Settled {
        let Ship { turns, opening, mute, barred, route, .. } = *self;
        Settled { turns, opening, mute, barred, route }
    }

    /// A handshake goes on.
    pub fn replace_started(&mut self, place: usize, by: &Connection) {
        self.turns += u64::from(self.started[place].connection != *by);
        self.started[place].connection = by.clone();
    }

    /// Nothing more is sent before the next opening, which is a new one.
    pub fn fall_silent(&mut self) {
        self.mute = true;
        self.started.clear();
        self.turns += 1;
    }

    /// Moves the route. Where it was stays known for a while: who relays a record before the ship's
    /// own copy arrives has the route, and the ship is still where it was.
    pub fn move_route(&mut self, to: SocketAddr) {
        self.recent.splice(..0, self.route.replace(to));
        self.recent.retain(|before| *before != to);
        self.recent.truncate(RECENT);
    }

    /// The connection on which a new handshake starts: the one that is there, if it is Idle and of
    /// the width that the sessions file says, or another one of the same session beside it.
    pub fn base(&self) -> Option<Connection> {
        let Session { id, secret, width, .. } = &self.session;
        match self.connection.state() {
            State::Idle if self.connection.width() == *width as usize => {
                Some(self.connection.clone())
            }
            _ => Connection::fresh(id, secret, *width).ok(),
        }
    }
}

impl Handshake {
    /// The first sender stays, so that no stranger who says the same hello can push it out, and so
    /// does one from the ship's own host. Of the others one whose host is there twice goes first.
    pub fn add_sender(&mut self, sender: SocketAddr, home: Option<IpAddr>) -> Option<SocketAddr> {
        if self.senders.contains(&sender) {
            return None;
        }
        self.senders.push(sender);
        if self.senders.len() <= SENDERS {
            return None;
        }
        let count = |host| self.senders.iter().filter(|one| way::host(**one) == host).count();
        let host = |place: &usize| way::host(self.senders[*place]);
        let others = || (1..SENDERS).filter(|place| Some(host(place)) != home);
        let twice = others().find(|place| count(host(place)) > 1);
        let place = twice.or_else(|| others().next()).unwrap_or(1);
        Some(self.senders.remove(place))
    }
}

fn planting(session: &Session) -> [u8; 20] {
    sha1(&[b"planting", &session.id, &session.secret])
}

#[cfg(test)]
mod tests {
    use super::*;

    /// The open connection keeps its width; a new handshake has the one that the file says now.
    #[test]
    fn another_width_comes_with_the_next_handshake() {
        let session = Session { id: [1; 8], secret: [2; 20], width: 32, ship: "A".to_string() };
        let mut ship = Ship::fresh(session, Instant::now()).unwrap();
        assert_eq!(ship.base().unwrap().width(), 32);
        ship.session.width = 64;
        assert_eq!((ship.connection.width(), ship.base().unwrap().width()), (32, 64));
        ship.connection.close().unwrap();
        assert_eq!((ship.connection.width(), ship.base().unwrap().width()), (32, 64));
    }
}
