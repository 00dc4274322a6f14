//! The start: each planted session as the store has it, and a row for each that has none.

use super::at::{connect, Where};
use super::engine::{Fault, Row};
use super::row::{self, Clocks, Saved, COLUMNS};
use super::{schema, Outcome, Store, AT_ONCE};
use crate::clock::Moment;
use crate::randoms::Randoms;
use crate::refusals::Counts;
use crate::sessions::{Identifier, Session};
use crate::ship::Ship;
use std::collections::{BTreeSet, HashMap};
use std::time::Instant;

/// How the gateway starts from the store.
#[derive(Clone, Copy, PartialEq, Eq, Debug)]
pub enum Start {
    AsItWas,
    /// The store is of an earlier time, so numbers of ours may have been spent that it does not know: no more are spent on the
    /// connections in it, and handshakes under way, which may have become connections since, end.
    Restored,
    /// Every connection is a fresh one; reports, openings and barred sessions stay.
    Afresh,
}

/// A store that was opened, and the ships as it knows them.
pub struct Opened {
    pub store: Store,
    pub ships: Vec<Ship>,
}

impl Store {
    /// Opens the store and brings back each planted session.
    pub fn open(at: &Where, sessions: &[Session], start: Start) -> Result<Opened, Fault> {
        let (name, lock, engine) = connect(at)?;
        let writer = writer().map_err(|what| Fault::Broken(what).of(&name))?;
        let mut store = Store { engine, writer, looked: 0, start, _lock: lock };
        let clocks = Clocks { time: Moment::now(), now: Instant::now() };
        let mut ships = Vec::new();
        for session in sessions {
            ships.push(Ship::fresh(session.clone(), clocks.now).map_err(Fault::Broken)?);
        }
        let mut opened = || -> Result<(), Fault> {
            schema::check(store.engine.as_mut())?;
            if start == Start::Afresh {
                let layout = [schema::layout()[..].into()];
                store.engine.query("UPDATE store SET layout = $1", &layout)?;
            }
            schema::check_layout(store.engine.as_mut())?;
            store.looked = store.clock()?;
            let (new, other) = store.load(&mut ships, clocks)?;
            store.add(&mut ships, &new, clocks)?;
            store.change(&mut ships, &other, clocks)?;
            store.start = Start::AsItWas;
            Ok(())
        };
        opened().map_err(|fault| fault.of(&name))?;
        Ok(Opened { store, ships })
    }

    /// Reads all rows into their ships. Gives the ships that have no row yet, and those whose row is to be changed.
    fn load(
        &mut self,
        ships: &mut [Ship],
        clocks: Clocks,
    ) -> Result<(Vec<usize>, Vec<usize>), Fault> {
        let mut saved: HashMap<Identifier, Saved> = HashMap::new();
        for row in self.engine.query(&format!("SELECT {COLUMNS} FROM ships"), &[])? {
            let row = self.read(&row)?;
            saved.insert(row.identifier, row);
        }
        let (mut new, mut other) = (Vec::new(), Vec::new());
        for (index, ship) in ships.iter_mut().enumerate() {
            let Some(row) = saved.get(&ship.session.id) else {
                new.push(index);
                continue;
            };
            row.restore(ship, clocks).map_err(Fault::Broken)?;
            ship.heard = clocks.now;
            if self.start != Start::AsItWas || row.name != ship.session.ship {
                other.push(index);
            }
        }
        Ok((new, other))
    }

    /// Rows for new ships. Another gateway may add them at the same time: then they are as the store has them.
    fn add(&mut self, ships: &mut [Ship], new: &[usize], clocks: Clocks) -> Result<(), Fault> {
        let into = format!("INSERT INTO ships ({COLUMNS})");
        for some in new.chunks(AT_ONCE) {
            let wanted = identified(ships, some);
            let row =
                |(_, index): &(Identifier, usize)| row::of(&ships[*index], self.writer, clocks);
            let rows: Vec<Row> = wanted.iter().map(row).collect();
            self.engine.begin()?;
            self.engine.put(&into, &rows, "ON CONFLICT (identifier) DO NOTHING")?;
            self.engine.commit()?;
            match self.engine.words().is_shared {
                true => self.restore(ships, &wanted, clocks)?,
                false => wanted.iter().for_each(|(_, index)| ships[*index].version = 1),
            }
        }
        Ok(())
    }

    /// Rows under another name, of an earlier time, or to begin afresh.
    fn change(&mut self, ships: &mut [Ship], other: &[usize], clocks: Clocks) -> Result<(), Fault> {
        for some in other.chunks(AT_ONCE) {
            let changed = identified(ships, some);
            self.engine.begin()?;
            self.restore(ships, &changed, clocks)?;
            if self.start == Start::Restored {
                some.iter().for_each(|index| ships[*index].fall_silent());
            }
            let outcome = Outcome { changed, reports: Vec::new() };
            self.save(&outcome, ships, &Counts::default(), clocks)?;
        }
        Ok(())
    }

    fn restore(
        &mut self,
        ships: &mut [Ship],
        wanted: &BTreeSet<(Identifier, usize)>,
        clocks: Clocks,
    ) -> Result<(), Fault> {
        let rows = self.rows(wanted)?;
        for (row, (_, index)) in rows.iter().zip(wanted) {
            row.restore(&mut ships[*index], clocks).map_err(Fault::Broken)?;
            ships[*index].heard = clocks.now;
        }
        Ok(())
    }
}

/// In the order in which rows are locked.
fn identified(ships: &[Ship], some: &[usize]) -> BTreeSet<(Identifier, usize)> {
    some.iter().map(|index| (ships[*index].session.id, *index)).collect()
}

fn writer() -> Result<i64, String> {
    let random = Randoms::open()?.fresh().map_err(|error| error.to_string())?;
    let mut eight = [0; 8];
    eight.copy_from_slice(&random[..8]);
    Ok(i64::from_be_bytes(eight))
}
