//! The store: ships, reports and refusals in one database, each run of datagrams in one transaction.
//!
//! What the gateway remembers of a ship is a guess where others write to the store, too: each ship has a version, and what a run came
//! to is written only where the versions of the rows, locked, are those from which it was made.

mod at;
pub mod engine;
mod open;
pub mod place;
pub mod postgres;
mod pq;
pub mod row;
mod schema;
pub mod secret;
pub mod setup;
pub mod sqlite;

use crate::clock::Moment;
use crate::fleet::Report;
use crate::refusals::Counts;
use crate::sessions::Identifier;
use crate::ship::Ship;
use engine::{places, Engine, Fault, Row, Value};
use row::{Clocks, Saved, CHANGED, COLUMNS};
use std::collections::BTreeSet;
use std::fs::File;

pub use at::{open_to_read, Where};
pub use open::{Opened, Start};

pub struct Store {
    engine: Box<dyn Engine>,
    /// Which gateway, and which life of it, wrote a row.
    writer: i64,
    /// The store's clock at the last look.
    looked: i64,
    start: Start,
    _lock: Option<File>,
}

/// A report, with the opening of its ship's connection under which it came.
pub struct Listed {
    pub ship: Identifier,
    pub opening: i64,
    pub report: Report,
}

/// What a run of datagrams came to, as far as it is to be saved.
#[derive(Default)]
pub struct Outcome {
    /// Which ships have changed, in the order in which their rows are locked.
    pub changed: BTreeSet<(Identifier, usize)>,
    pub reports: Vec<Listed>,
}

/// Rows in one statement, at most.
const AT_ONCE: usize = 1000;
/// No transaction lasts so long; what it wrote is looked for again until then.
const LONGEST: i64 = 60_000;

impl Store {
    pub fn is_shared(&self) -> bool {
        self.engine.words().is_shared
    }

    /// Locks the rows of ships, in their order, for the length of the transaction that begins here. False if any of them is not the
    /// one from which its ship was made.
    pub fn lock(
        &mut self,
        changed: &BTreeSet<(Identifier, usize)>,
        ships: &[Ship],
    ) -> Result<bool, Fault> {
        self.engine.begin()?;
        if !self.engine.words().is_shared {
            return Ok(true);
        }
        let lock = self.engine.words().lock;
        let ids: Vec<&(Identifier, usize)> = changed.iter().collect();
        for some in ids.chunks(AT_ONCE) {
            let sql = format!(
                "SELECT version FROM ships WHERE identifier IN ({}) ORDER BY identifier {lock}",
                places(1, some.len())
            );
            let values: Vec<Value> = some.iter().map(|(id, _)| id[..].into()).collect();
            let found = self.engine.query(&sql, &values)?;
            let as_known = found.len() == some.len()
                && found.iter().zip(some).all(|(row, (_, index))| {
                    row.first().and_then(Value::int) == Some(ships[*index].version)
                });
            if !as_known {
                return Ok(false);
            }
        }
        Ok(true)
    }

    /// The rows of ships.
    pub fn rows(&mut self, wanted: &BTreeSet<(Identifier, usize)>) -> Result<Vec<Saved>, Fault> {
        let ids: Vec<&(Identifier, usize)> = wanted.iter().collect();
        let mut rows = Vec::new();
        for some in ids.chunks(AT_ONCE) {
            let sql = format!(
                "SELECT {COLUMNS} FROM ships WHERE identifier IN ({}) ORDER BY identifier {}",
                places(1, some.len()),
                self.engine.words().lock
            );
            let values: Vec<Value> = some.iter().map(|(id, _)| id[..].into()).collect();
            for row in self.engine.query(&sql, &values)? {
                rows.push(self.read(&row)?);
            }
        }
        Ok(rows)
    }

    fn read(&self, row: &Row) -> Result<Saved, Fault> {
        let mut saved = Saved::read(row).map_err(Fault::Broken)?;
        if self.start == Start::Afresh {
            saved.forget();
        }
        Ok(saved)
    }

    /// Writes what a run came to and ends the transaction. When this is done, it is on the disk.
    pub fn save(
        &mut self,
        outcome: &Outcome,
        ships: &mut [Ship],
        refusals: &Counts,
        clocks: Clocks,
    ) -> Result<(), Fault> {
        self.write(outcome, ships, &refusals.rows(ships), clocks)?;
        self.engine.commit()?;
        written(outcome, ships);
        Ok(())
    }

    fn write(
        &mut self,
        outcome: &Outcome,
        ships: &[Ship],
        refusals: &[Row],
        clocks: Clocks,
    ) -> Result<(), Fault> {
        let now = self.engine.words().now;
        let row = if self.is_shared() { row::of } else { row::changed };
        let rows: Vec<Row> = outcome
            .changed
            .iter()
            .map(|(_, index)| row(&ships[*index], self.writer, clocks))
            .collect();
        let into = format!("INSERT INTO ships ({COLUMNS})");
        let instead = format!("ON CONFLICT (identifier) DO UPDATE SET {CHANGED}, changed = {now}");
        self.engine.change(&into, &rows, &instead)?;
        let rows: Vec<Row> = outcome.reports.iter().map(|one| report(one, clocks.time)).collect();
        self.engine.put(
            "INSERT INTO reports (ship, opening, number, received, bytes)",
            &rows,
            "",
        )?;
        self.engine.put(
            "INSERT INTO refusals (ship, hour, refusal, count, last)",
            refusals,
            "ON CONFLICT (ship, hour, refusal) DO UPDATE \
             SET count = refusals.count + excluded.count, last = excluded.last",
        )
    }

    pub fn roll_back(&mut self) {
        self.engine.roll_back();
    }

    /// The ships that others have changed since the last look, and the versions of their rows.
    pub fn look(&mut self) -> Result<Vec<(Identifier, i64)>, Fault> {
        let clock = self.clock()?;
        let found = self.engine.query(
            "SELECT identifier, version FROM ships WHERE changed >= $1 AND writer <> $2",
            &[(self.looked - LONGEST).into(), self.writer.into()],
        )?;
        self.looked = clock;
        let pair = |row: &Row| Some((row.first()?.bytes()?.try_into().ok()?, row.get(1)?.int()?));
        Ok(found.iter().filter_map(pair).collect())
    }

    fn clock(&mut self) -> Result<i64, Fault> {
        let sql = format!("SELECT {}", self.engine.words().now);
        let found = self.engine.query(&sql, &[])?;
        Ok(found.first().and_then(|row| row.first()).and_then(Value::int).unwrap_or(0))
    }
}

fn report(one: &Listed, time: Moment) -> Row {
    vec![
        one.ship[..].into(),
        one.opening.into(),
        i64::from(one.report.number).into(),
        (time.0 as i64).into(),
        one.report.bytes[..].into(),
    ]
}

/// The ships are now as the store has them.
fn written(outcome: &Outcome, ships: &mut [Ship]) {
    for (_, index) in &outcome.changed {
        let ship = &mut ships[*index];
        ship.version += 1;
        ship.saved = ship.tally;
        ship.settled = Some(ship.settled());
    }
}
