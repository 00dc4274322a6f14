//! The search for the ship of a datagram: whose keys made it? Connections are tried on copies, the
//! likeliest first, within a budget that no flood can exceed.

use crate::budget::Shares;
use crate::datagram;
use crate::handshakes::{self, Handshakes};
use crate::routes::Routes;
use crate::ship::{Handshake, Ship};
use crate::trial::{self, Trial, Worth};
use crate::way::{self, Way};
use gateway::Refused;
use std::net::SocketAddr;
use std::time::Instant;

/// A datagram is tried on so many ships at its sender's address, and on so many handshakes that were
/// begun there, whatever else is going on.
const TRIED_AT_ONCE: usize = 4;
/// Beyond them trials are budgeted, by the codes that are compared in them. Those on ships with
/// their route at this very address have a budget of their own: nobody can ask for them from
/// elsewhere, so a fleet behind one relay is not held up by what others send.
const HERE_EACH_SECOND: u32 = 32_000;
const HERE_OF_A_SHARE: u32 = 16_000;
/// The first few of all others have one, too, so that datagrams which fit nobody cannot keep a ship
/// that has moved from being tried at all.
const NEAR: usize = 4;
const NEAR_EACH_SECOND: u32 = 16_000;
const NEAR_OF_A_SHARE: u32 = 1_000;
const FAR_EACH_SECOND: u32 = 16_000;
const FAR_OF_A_SHARE: u32 = 2_000;

/// A datagram with all that is needed to take it.
pub struct Arrival<'a> {
    pub way: Way,
    pub datagram: &'a [u8],
    pub random: &'a [u8; 16],
    pub now: Instant,
}

/// A connection of a ship: the settled one, or a handshake under way by its place.
#[derive(Clone, Copy, PartialEq, Eq)]
pub enum Target {
    Settled(usize),
    Started(usize, usize),
}

/// Where ships may be found.
pub struct Known<'a> {
    pub ships: &'a [Ship],
    pub routes: &'a Routes,
    pub handshakes: &'a Handshakes,
}

/// The budget of trials.
pub struct Trials {
    here: Shares,
    near: Shares,
    far: Shares,
    /// How many there were so far, and how many codes were compared in them.
    pub made: u64,
    pub codes: u64,
}

/// What a connection has to do with the sender of a datagram.
#[derive(Clone, Copy, PartialEq, Eq)]
enum Nearness {
    /// Its ship has its route there, or had it there before.
    Here,
    /// Its hello was said from there, by whomever.
    Begun,
    Elsewhere,
}

pub enum Found<'d> {
    /// The keys of this connection made a record of it.
    Genuine(Target, Trial<'d>),
    /// It is nobody's; this one has to count it, and to see its clear records.
    Refused(Target, Trial<'d>),
    /// Every connection refuses it as a whole; this ship has to hear of it.
    RefusedWhole(Option<usize>, Refused),
    Nobodys,
}

pub fn find<'d>(known: &Known, trials: &mut Trials, arrival: &Arrival<'d>) -> Found<'d> {
    let owner = known.owner(arrival.way.sender);
    let mut refused = Found::Nobodys;
    let protected =
        datagram::records(arrival.datagram).filter(|record| datagram::is_protected(record));
    let mut spent = Spent { codes: protected.count() as u32, here: 0, begun: 0, near: 0 };
    // What is in the clear shows nothing about its sender: only who has to count it need see it.
    if spent.codes == 0 {
        let Some(target) = owner else { return Found::Nobodys };
        trials.count(0);
        return match arrival.tried_on(&known.ships[target.ship()], target) {
            Ok(trial) => Found::Refused(target, trial),
            Err(whole) => Found::RefusedWhole(Some(target.ship()), whole),
        };
    }
    for (target, nearness) in known.candidates(arrival) {
        if !trials.may(nearness, &mut spent, arrival) {
            break;
        }
        trials.count(spent.codes.into());
        match arrival.tried_on(&known.ships[target.ship()], target) {
            Err(whole) => return Found::RefusedWhole(owner.map(Target::ship), whole),
            Ok(trial) if trial.worth != Worth::Nothing => return Found::Genuine(target, trial),
            Ok(trial) if owner == Some(target) => refused = Found::Refused(target, trial),
            Ok(_) => {}
        }
    }
    refused
}

/// How many trials of each kind a datagram has had, and how many codes are compared in each.
struct Spent {
    codes: u32,
    here: usize,
    begun: usize,
    near: usize,
}

impl Default for Trials {
    fn default() -> Trials {
        Trials {
            here: Shares::new(HERE_EACH_SECOND, HERE_OF_A_SHARE),
            near: Shares::new(NEAR_EACH_SECOND, NEAR_OF_A_SHARE),
            far: Shares::new(FAR_EACH_SECOND, FAR_OF_A_SHARE),
            made: 0,
            codes: 0,
        }
    }
}

impl Trials {
    /// One more, in which so many codes are compared.
    pub fn count(&mut self, codes: u64) {
        self.made += 1;
        self.codes += codes;
    }

    fn may(&mut self, nearness: Nearness, spent: &mut Spent, arrival: &Arrival) -> bool {
        let host = way::host(arrival.way.sender);
        if nearness == Nearness::Here && spent.here < TRIED_AT_ONCE {
            spent.here += 1;
            true
        } else if nearness == Nearness::Begun && spent.begun < TRIED_AT_ONCE {
            spent.begun += 1;
            true
        } else if nearness == Nearness::Here {
            self.here.spend(host, spent.codes, arrival.now)
        } else if spent.near < NEAR {
            spent.near += 1;
            self.near.spend(host, spent.codes, arrival.now)
        } else {
            self.far.spend(host, spent.codes, arrival.now)
        }
    }
}

impl Target {
    pub fn ship(self) -> usize {
        match self {
            Target::Settled(index) | Target::Started(index, _) => index,
        }
    }
}

impl<'d> Arrival<'d> {
    pub fn tried_on(&self, ship: &Ship, target: Target) -> Result<Trial<'d>, Refused> {
        let connection = match target {
            Target::Settled(_) => &ship.connection,
            Target::Started(_, place) => &ship.started[place].connection,
        };
        trial::on(connection, ship.tally, self.datagram, self.random)
    }
}

impl Known<'_> {
    /// Who has to count what is nobody's: a handshake that this sender started, or the only ship
    /// that has its route here. Of several nobody can tell which.
    fn owner(&self, sender: SocketAddr) -> Option<Target> {
        let newest = self.handshakes.at(sender).last().copied();
        let started = newest.and_then(|index| {
            let theirs = |handshake: &Handshake| handshake.senders.contains(&sender);
            let place = self.ships[index].started.iter().rposition(theirs)?;
            Some(Target::Started(index, place))
        });
        started.or_else(|| self.routes.at(sender).only().map(Target::Settled))
    }

    /// The connections on which a datagram may be tried, the likeliest first: ships with their route
    /// here, and those that had it here before; handshakes of this sender, before them if there is a
    /// Finished in it; ships on the same host; all handshakes if there is a Finished in it; and all
    /// ships.
    fn candidates(&self, arrival: &Arrival) -> impl Iterator<Item = (Target, Nearness)> + '_ {
        let (ships, routes, handshakes) = (self.ships, self.routes, self.handshakes);
        let sender = arrival.way.sender;
        let host = way::host(sender);
        let protected =
            || datagram::records(arrival.datagram).filter(|record| datagram::is_protected(record));
        let number = protected().last().and_then(datagram::number);
        let finished = protected().any(datagram::is_protected_handshake);
        let near = number.unwrap_or(0);

        let here = routes.at(sender).nearest(near).map(Target::Settled);
        let begun = handshakes.at(sender).iter().flat_map(move |index| {
            let started = &ships[*index].started;
            let theirs = move |place: &usize| started[*place].senders.contains(&sender);
            (0..started.len()).filter(theirs).map(|place| Target::Started(*index, place))
        });
        let begun = begun.map(|target| (target, Nearness::Begun));
        let begun_before = begun.clone().take_while(move |_| finished);
        let begun_behind = begun.take_while(move |_| !finished);
        let was_here = move |index: &usize| ships[*index].recent.contains(&sender);
        let before = routes.before(sender).filter(move |index| ships[*index].is_open());
        let elsewhere =
            move |index: &usize| ships[*index].route != Some(sender) && !was_here(index);
        let neighbours = routes.on(host).nearest(near).filter(elsewhere).map(Target::Settled);
        let others =
            move |index: &usize| !handshakes::is_home(&ships[*index], host) && !was_here(index);
        let others = routes.all().nearest(near).filter(others).map(Target::Settled);
        let started = handshakes.all().filter_map(move |(index, serial)| {
            let place = handshakes::place_of(&ships[index], serial)?;
            let theirs = ships[index].started[place].senders.contains(&sender);
            (!theirs).then_some(Target::Started(index, place))
        });
        let moved = neighbours
            .chain(started.take_while(move |_| finished))
            .chain(others)
            .take_while(move |_| number.is_some());
        let here = here.chain(before.map(Target::Settled)).map(|target| (target, Nearness::Here));
        let moved = moved.map(|target| (target, Nearness::Elsewhere));
        begun_before.chain(here).chain(begun_behind).chain(moved)
    }
}
