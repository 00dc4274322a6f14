//! A run of datagrams, taken and committed. What came of it leaves the house only when this is done.

use crate::budget::Budget;
use crate::clock::Moment;
use crate::fleet::Fleet;
use crate::note::Note;
use crate::randoms::Randoms;
use crate::refusals::Counts;
use crate::sessions::Identifier;
use crate::socket::Datagram;
use crate::store::engine::Fault;
use crate::store::row::Clocks;
use crate::store::{Listed, Outcome, Store};
use crate::way::Way;
use gateway::Tally;
use std::collections::{BTreeSet, HashMap};
use std::net::SocketAddr;
use std::thread;
use std::time::{Duration, Instant};

pub struct Shore {
    pub fleet: Fleet,
    store: Store,
    randoms: Randoms,
    refusals: Counts,
    looks: Budget,
}

/// What is for the outside: datagrams to send, and what to log of whom.
#[derive(Default)]
pub struct Told {
    pub send: Vec<(Way, Vec<u8>)>,
    pub notes: Vec<(Option<usize>, SocketAddr, Note)>,
}

/// What a run comes to, from the ships as they are remembered.
#[derive(Default)]
struct Judged {
    outcome: Outcome,
    told: Told,
    /// The tallies of all ships that it touched, as they were before.
    tallies: HashMap<usize, Tally>,
    /// Whether something in it changed nothing: others may know more of its ship.
    missed: bool,
}

/// Of a store that others write to: so often a second it is looked at for what they have changed.
const LOOKS_EACH_SECOND: u32 = 20;
/// Before a transaction that the engine wants once more.
const PAUSE: Duration = Duration::from_millis(2);

impl Shore {
    pub fn new(fleet: Fleet, store: Store, randoms: Randoms) -> Shore {
        let looks = Budget::new(LOOKS_EACH_SECOND);
        Shore { fleet, store, randoms, refusals: Counts::default(), looks }
    }

    /// Takes a run. With `all`, what was only counted is saved, too. While the store is away, `wait` is asked whether to go on.
    pub fn take(
        &mut self,
        run: &[Datagram],
        all: bool,
        wait: &mut dyn FnMut(&str) -> bool,
    ) -> Result<Told, String> {
        let clocks = Clocks { time: Moment::now(), now: Instant::now() };
        let mut judged = self.judge(run, all, clocks)?;
        let look = judged.missed && self.store.is_shared() && self.looks.spend(1, clocks.now);
        let counted = all && !self.refusals.is_empty();
        if look {
            self.until_done(wait, |shore| shore.look(run, all, &mut judged, clocks))?;
        }
        if !judged.outcome.changed.is_empty() || counted {
            let mut locked = judged.outcome.changed.clone();
            self.until_done(wait, |shore| {
                shore.commit(run, all, &mut judged, &mut locked, clocks)
            })?;
            if counted {
                self.refusals = Counts::default();
            }
        }
        for (ship, _, note) in &judged.told.notes {
            self.refusals.note(*ship, note, clocks.time);
        }
        Ok(judged.told)
    }

    fn until_done(
        &mut self,
        wait: &mut dyn FnMut(&str) -> bool,
        mut attempt: impl FnMut(&mut Shore) -> Result<(), Fault>,
    ) -> Result<(), String> {
        while let Err(fault) = attempt(self) {
            self.store.roll_back();
            match fault {
                Fault::Again(_) => thread::sleep(PAUSE),
                Fault::Away(what) if wait(&what) => {}
                Fault::Away(what) | Fault::Broken(what) => return Err(what),
            }
        }
        Ok(())
    }

    /// What a run comes to. The ships in memory change, and nothing else.
    fn judge(&mut self, run: &[Datagram], all: bool, clocks: Clocks) -> Result<Judged, String> {
        let mut judged = Judged::default();
        for Datagram { way, bytes } in run {
            let random = self.randoms.fresh().map_err(|error| error.to_string())?;
            let taken = self.fleet.take(*way, bytes, &random, clocks.now);
            judged.missed |= !taken.changed;
            if let Some(index) = taken.ship {
                let ship = &self.fleet.ships[index];
                if let Some(before) = taken.before {
                    judged.tallies.entry(index).or_insert(before);
                }
                if taken.changed {
                    judged.outcome.changed.insert((ship.session.id, index));
                }
                let (id, opening) = (ship.session.id, ship.opening);
                let listed = |report| Listed { ship: id, opening, report };
                judged.outcome.reports.extend(taken.reports.into_iter().map(listed));
            }
            let also = taken.also.iter().map(|index| (self.fleet.ships[*index].session.id, *index));
            judged.outcome.changed.extend(also);
            judged.told.send.extend(taken.send);
            let noted = taken.notes.into_iter().map(|note| (taken.ship, way.sender, note));
            judged.told.notes.extend(noted);
        }
        if all {
            let ships = self.fleet.ships.iter().enumerate();
            let counted = ships.filter(|(_, ship)| ship.tally != ship.saved);
            judged.outcome.changed.extend(counted.map(|(index, ship)| (ship.session.id, index)));
        }
        Ok(judged)
    }

    /// Commits it. Where the rows are not those from which it was judged, it is judged again from the rows, which are locked then.
    fn commit(
        &mut self,
        run: &[Datagram],
        all: bool,
        judged: &mut Judged,
        locked: &mut BTreeSet<(Identifier, usize)>,
        clocks: Clocks,
    ) -> Result<(), Fault> {
        while !self.store.lock(locked, &self.fleet.ships)? {
            self.judge_again(run, all, judged, locked, clocks)?;
            if judged.outcome.changed.is_subset(locked) {
                break;
            }
            self.store.roll_back();
            locked.extend(judged.outcome.changed.iter().copied());
        }
        let none = Counts::default();
        let refusals = if all { &self.refusals } else { &none };
        self.store.save(&judged.outcome, &mut self.fleet.ships, refusals, clocks)
    }

    /// Others may have changed what we remember: then the run is judged again.
    fn look(
        &mut self,
        run: &[Datagram],
        all: bool,
        judged: &mut Judged,
        clocks: Clocks,
    ) -> Result<(), Fault> {
        let mut stale = BTreeSet::new();
        for (identifier, version) in self.store.look()? {
            if let Some(index) = self.fleet.index(&identifier) {
                if self.fleet.ships[index].version != version {
                    stale.insert((identifier, index));
                }
            }
        }
        if stale.is_empty() {
            return Ok(());
        }
        stale.extend(judged.outcome.changed.iter().copied());
        self.judge_again(run, all, judged, &stale, clocks)
    }

    /// Puts the ships back to what the store has of them, and judges the run again.
    fn judge_again(
        &mut self,
        run: &[Datagram],
        all: bool,
        judged: &mut Judged,
        ships: &BTreeSet<(Identifier, usize)>,
        clocks: Clocks,
    ) -> Result<(), Fault> {
        let rows = self.store.rows(ships)?;
        for (index, tally) in judged.tallies.drain() {
            self.fleet.ships[index].tally = tally;
        }
        for row in &rows {
            if let Some(index) = self.fleet.index(&row.identifier) {
                self.fleet.restore(index, row, clocks).map_err(Fault::Broken)?;
            }
        }
        *judged = self.judge(run, all, clocks).map_err(Fault::Broken)?;
        Ok(())
    }
}
