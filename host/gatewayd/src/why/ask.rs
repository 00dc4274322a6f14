//! The question itself: the saved connection of a ship, a copy of it asked, and the answer told.

use super::options::Options;
use super::{facts, input, words};
use crate::sessions;
use crate::ship::Ship;
use crate::store::row::{Clocks, Saved, COLUMNS};
use crate::store::{open_to_read, Where};
use gateway::Connection;
use std::time::Instant;

/// What was not answered, and the exit status that stands for it.
#[derive(Debug, PartialEq, Eq)]
pub struct Failure {
    pub status: u8,
    pub what: String,
}

/// The library's call: a connection, an edition, a datagram, a random and an index; the facts, if it takes the connection.
pub type Call<'a> =
    dyn Fn(&Connection, u32, &[u8], &[u8; 16], usize) -> Option<[u8; facts::SIZE]> + 'a;

/// The answer to what the words ask, as one line.
pub fn answer(options: &Options, given: &[u8], call: &Call) -> Result<String, Failure> {
    let failure = |status: u8| move |what: String| Failure { status, what };
    let datagram = input::read(given, options.packet, options.raw).map_err(failure(2))?;
    let sessions = sessions::load(&options.sessions).map_err(failure(3))?;
    let session = sessions.into_iter().find(|session| session.ship == options.ship);
    let unknown = || Failure { status: 2, what: format!("no session of {}", options.ship) };
    let mut ship = Ship::fresh(session.ok_or_else(unknown)?, Instant::now()).map_err(failure(4))?;
    load(&options.store, &mut ship).map_err(failure(4))?;
    // Of the first record the random bears on no reason; behind a hello in the same datagram it may.
    let asked = call(asked(&ship), options.edition, &datagram, &[0; 16], options.index);
    let why = asked.and_then(|facts| facts::read(&facts, &datagram));
    let why = why.ok_or_else(|| failure(4)("the library gives no answer".to_string()))?;
    Ok(match options.json {
        true => words::json(&why).to_string(),
        false => words::paragraph(&why),
    })
}

/// Makes a ship what the store has of it, which is only read.
fn load(store: &Where, ship: &mut Ship) -> Result<(), String> {
    let mut engine = open_to_read(store)?;
    let sql = format!("SELECT {COLUMNS} FROM ships WHERE identifier = $1");
    let rows = engine.query(&sql, &[ship.session.id[..].into()]);
    let rows = rows.map_err(|fault| fault.what().to_string())?;
    let Some(row) = rows.first() else { return Ok(()) };
    let clocks = Clocks { time: crate::clock::Moment::now(), now: Instant::now() };
    Saved::read(row)?.restore(ship, clocks)
}

/// The connection that is asked: the open one, or else the newest handshake under way.
fn asked(ship: &Ship) -> &Connection {
    match ship.started.last() {
        Some(newest) if !ship.is_open() => &newest.connection,
        _ => &ship.connection,
    }
}
