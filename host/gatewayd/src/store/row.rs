//! A ship as a row of the table, and the row as a ship.

use super::engine::{Row, Value};
use super::secret;
use crate::clock::Moment;
use crate::hex;
use crate::sessions::Identifier;
use crate::ship::{Handshake, Ship};
use crate::way;
use gateway::{Tally, TALLY_SIZE};
use serde_json::json;
use std::net::SocketAddr;
use std::time::Instant;

pub const COLUMNS: &str =
    "identifier, name, planting, connection, hello, handshakes, tally, route, \
                           newest, opening, mute, heard, barred, version, writer, changed";

/// What a write changes of a row that is there. Once barred is barred for good.
pub const CHANGED: &str = "\
    name = excluded.name, planting = excluded.planting, connection = excluded.connection, \
    hello = excluded.hello, handshakes = excluded.handshakes, tally = excluded.tally, \
    route = excluded.route, newest = excluded.newest, opening = excluded.opening, \
    mute = excluded.mute, heard = excluded.heard, \
    barred = COALESCE(ships.barred, excluded.barred), version = excluded.version, \
    writer = excluded.writer";

/// The same of one row, by the places of the columns.
pub const UPDATE: &str = "\
    UPDATE ships SET name = ?2, planting = ?3, connection = ?4, hello = ?5, handshakes = ?6, \
    tally = ?7, route = ?8, newest = ?9, opening = ?10, mute = ?11, heard = ?12, \
    barred = COALESCE(barred, ?13), version = ?14, writer = ?15, changed = ?16 \
    WHERE identifier = ?1";

/// What a report changes of it.
pub const UPDATE_CONNECTION: &str = "\
    UPDATE ships SET connection = ?2, tally = ?3, newest = ?4, heard = ?5, version = ?6 \
    WHERE identifier = ?1";

/// A row as it was read.
pub struct Saved {
    pub identifier: Identifier,
    pub name: String,
    pub version: i64,
    planting: Vec<u8>,
    connection: Vec<u8>,
    hello: Vec<u8>,
    handshakes: Vec<Started>,
    tally: Vec<u8>,
    route: Option<SocketAddr>,
    newest: u16,
    opening: i64,
    mute: bool,
    heard: Moment,
    barred: bool,
}

struct Started {
    hello: Vec<u8>,
    connection: Vec<u8>,
    senders: Vec<SocketAddr>,
}

/// The clocks of the wall and of the machine, at one moment.
#[derive(Clone, Copy)]
pub struct Clocks {
    pub time: Moment,
    pub now: Instant,
}

impl Clocks {
    /// When a ship was last heard, by the clock of the wall.
    fn heard(&self, ship: &Ship) -> i64 {
        let silent = self.now.saturating_duration_since(ship.heard).as_millis() as u64;
        self.time.0.saturating_sub(silent) as i64
    }
}

/// The row of a ship, one version on; of one whose row has the rest already, the connection and what goes with it.
pub fn changed(ship: &Ship, writer: i64, clocks: Clocks) -> Row {
    if ship.settled != Some(ship.settled()) {
        return of(ship, writer, clocks);
    }
    vec![
        ship.session.id[..].into(),
        secret::blanked(&ship.connection)[..].into(),
        ship.tally.save()[..].into(),
        i64::from(ship.newest).into(),
        clocks.heard(ship).into(),
        (ship.version + 1).into(),
    ]
}

/// The row of a ship, one version on.
pub fn of(ship: &Ship, writer: i64, clocks: Clocks) -> Row {
    vec![
        ship.session.id[..].into(),
        ship.session.ship[..].into(),
        ship.planting[..].into(),
        secret::blanked(&ship.connection)[..].into(),
        ship.hello[..].into(),
        Value::Text(handshakes(ship)),
        ship.tally.save()[..].into(),
        ship.route.map(|route| Value::Text(route.to_string())).unwrap_or(Value::Null),
        i64::from(ship.newest).into(),
        ship.opening.into(),
        i64::from(ship.mute).into(),
        clocks.heard(ship).into(),
        ship.barred.then_some(clocks.time.0 as i64).into(),
        (ship.version + 1).into(),
        writer.into(),
        0.into(),
    ]
}

fn handshakes(ship: &Ship) -> String {
    let started = |handshake: &Handshake| {
        json!({
            "hello": hex::write(&handshake.hello),
            "connection": hex::write(&secret::blanked(&handshake.connection)),
            "senders": handshake.senders.iter().map(SocketAddr::to_string).collect::<Vec<_>>(),
        })
    };
    match ship.started.is_empty() {
        true => "[]".to_string(),
        false => ship.started.iter().map(started).collect::<serde_json::Value>().to_string(),
    }
}

impl Saved {
    pub fn read(row: &[Value]) -> Result<Saved, String> {
        let name = row.get(1).and_then(Value::text).unwrap_or("a ship").to_string();
        Saved::fields(row).ok_or_else(|| format!("the row of {name} is damaged"))
    }

    fn fields(row: &[Value]) -> Option<Saved> {
        let bytes = |column: usize| row.get(column)?.bytes().map(<[u8]>::to_vec);
        let int = |column: usize| row.get(column)?.int();
        let route = match row.get(7)? {
            Value::Null => None,
            text => Some(text.text()?.parse().ok()?),
        };
        Some(Saved {
            identifier: bytes(0)?.try_into().ok()?,
            name: row.get(1)?.text()?.to_string(),
            planting: bytes(2)?,
            connection: bytes(3)?,
            hello: bytes(4)?,
            handshakes: read_handshakes(row.get(5)?.text()?)?,
            tally: bytes(6)?,
            route,
            newest: int(8)?.try_into().ok()?,
            opening: int(9)?,
            mute: int(10)? != 0,
            heard: Moment(int(11)?.try_into().ok()?),
            barred: *row.get(12)? != Value::Null,
            version: int(13)?,
        })
    }

    /// Of what was planted, nothing goes on.
    pub fn forget(&mut self) {
        self.planting.clear();
    }

    /// Makes the ship what the row says, with what it has counted and not saved yet. One that has been planted anew, with another
    /// secret, starts fresh; but barred is barred, and openings go on.
    pub fn restore(&self, ship: &mut Ship, clocks: Clocks) -> Result<(), String> {
        let told = |refusal| format!("the connection of {}: {refusal}", self.name);
        ship.version = self.version;
        ship.settled = None;
        ship.opening = self.opening;
        ship.barred = self.barred;
        ship.started = Vec::new();
        if self.planting != ship.planting {
            return Ok(());
        }
        let secret = &ship.session.secret;
        ship.connection = secret::put_back(&self.connection, secret).map_err(told)?;
        ship.hello = self.hello.clone();
        let tally = self.tally[..].try_into().map_err(|_| format!("the tally of {}", self.name))?;
        let tally = Tally::load(tally);
        ship.tally = plus(tally, minus(ship.tally, ship.saved));
        ship.saved = tally;
        ship.route = self.route.map(way::plain);
        ship.newest = self.newest;
        ship.mute = self.mute;
        let silent = clocks.time.0.saturating_sub(self.heard.0);
        let heard = clocks.now.checked_sub(std::time::Duration::from_millis(silent));
        ship.heard = heard.unwrap_or(clocks.now);
        for started in self.handshakes.iter().filter(|started| !started.senders.is_empty()) {
            let connection = secret::put_back(&started.connection, secret).map_err(told)?;
            let senders = started.senders.iter().copied().map(way::plain).collect();
            let hello = started.hello.clone();
            ship.started.push(Handshake { serial: 0, hello, senders, connection, at: clocks.now });
        }
        Ok(())
    }
}

fn read_handshakes(text: &str) -> Option<Vec<Started>> {
    let found: serde_json::Value = serde_json::from_str(text).ok()?;
    let started = |one: &serde_json::Value| {
        let bytes = |field: &str| hex::read(one.get(field)?.as_str()?).ok();
        let sender = |text: &serde_json::Value| text.as_str()?.parse().ok();
        let senders = one.get("senders")?.as_array()?.iter().map(sender);
        Some(Started {
            hello: bytes("hello")?,
            connection: bytes("connection")?,
            senders: senders.collect::<Option<Vec<SocketAddr>>>()?,
        })
    };
    found.as_array()?.iter().map(started).collect()
}

fn plus(one: Tally, other: Tally) -> Tally {
    by_counts(one, other, u32::saturating_add)
}

fn minus(one: Tally, other: Tally) -> Tally {
    by_counts(one, other, u32::saturating_sub)
}

/// A tally is counts of four bytes each.
fn by_counts(one: Tally, other: Tally, joined: fn(u32, u32) -> u32) -> Tally {
    let mut bytes = [0; TALLY_SIZE];
    let four = |tally: &Tally, at: usize| {
        u32::from_be_bytes(tally.save()[at..at + 4].try_into().expect("four bytes"))
    };
    for at in (0..TALLY_SIZE).step_by(4) {
        let count = joined(four(&one, at), four(&other, at));
        bytes[at..at + 4].copy_from_slice(&count.to_be_bytes());
    }
    Tally::load(bytes)
}

#[cfg(test)]
mod tests {
    use super::*;
    use crate::sessions::Session;
    use std::time::Duration;

    /// A report changes little of a row, also while handshakes are under way; what changes with one of these is the whole.
    #[test]
    fn what_is_written_of_a_row() {
        let clocks = Clocks { time: Moment(1_000_000), now: Instant::now() };
        let session = Session { id: [1; 8], secret: [2; 20], width: 32, ship: "A".to_string() };
        let mut ship = Ship::fresh(session, clocks.now).unwrap();
        let size = |ship: &Ship| changed(ship, 0, clocks).len();
        let (whole, part) = (COLUMNS.split(',').count(), 6);
        assert_eq!(size(&ship), whole);
        ship.settled = Some(ship.settled());
        assert_eq!(size(&ship), part);
        let (senders, connection) = (vec![([192, 0, 2, 1], 1).into()], ship.connection.clone());
        let mut handshakes = crate::handshakes::Handshakes::default();
        let newcomer = Handshake { serial: 0, hello: vec![1], senders, connection, at: clocks.now };
        let mut ships = [ship];
        handshakes.add(&mut ships, 0, newcomer);
        assert_eq!(size(&ships[0]), whole);
        for newest in 1..4 {
            ships[0].settled = Some(ships[0].settled());
            ships[0].newest = newest;
            assert_eq!(size(&ships[0]), part);
        }
        handshakes.said_again(&mut ships, 0, 0, ([192, 0, 2, 1], 1).into());
        assert_eq!(size(&ships[0]), part);
        handshakes.said_again(&mut ships, 0, 0, ([192, 0, 2, 2], 1).into());
        assert_eq!(size(&ships[0]), whole);
        ships[0].settled = Some(ships[0].settled());
        let mut other = ships[0].connection.clone();
        other.close().unwrap();
        ships[0].replace_started(0, &other);
        assert_eq!(size(&ships[0]), whole);
        ships[0].settled = Some(ships[0].settled());
        handshakes.end_old_of(&mut ships, 0, clocks.now + Duration::from_secs(3599));
        assert_eq!(size(&ships[0]), part);
        handshakes.end_old_of(&mut ships, 0, clocks.now + Duration::from_secs(3600));
        assert_eq!((size(&ships[0]), ships[0].started.len()), (whole, 0));
    }
}
