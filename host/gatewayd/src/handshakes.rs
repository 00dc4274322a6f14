//! Room for handshakes under way. A hello has no code, so anybody can start one for any ship whose
//! identifier he knows: the room is bounded, and divided so that a stranger cannot take it all.

use crate::ship::{Handshake, Ship};
use crate::way;
use std::collections::{BTreeSet, HashMap, VecDeque};
use std::net::{IpAddr, SocketAddr};
use std::time::{Duration, Instant};

/// Handshakes of one ship, and of all.
pub const OF_A_SHIP: usize = 8;
pub const OF_ALL: usize = 4096;
/// So long one is kept, whoever else says hello: some round trips of a slow link.
pub const HOLD: Duration = Duration::from_secs(8);
/// So long one is kept beside an open connection that is heard: records of before a reboot may come late, and the Finished, too.
pub const BESIDE: Duration = Duration::from_secs(3600);

/// Where the handshakes of all ships are to be found. They themselves are with their ships.
#[derive(Default)]
pub struct Handshakes {
    next: u64,
    /// Ship and serial, the oldest first; those that have ended are still in it for a while.
    order: VecDeque<(usize, u64)>,
    count: usize,
    by_sender: HashMap<SocketAddr, Vec<usize>>,
    /// Ship and serial of those whose sender has sent no change cipher spec alone since.
    waiting: HashMap<SocketAddr, BTreeSet<(usize, u64)>>,
}

/// Room for a newcomer.
pub enum Room {
    Free,
    /// In the place of this one: a ship, and its place there.
    Instead(usize, usize),
}

impl Handshakes {
    /// The ships for which this sender has a handshake under way.
    pub fn at(&self, sender: SocketAddr) -> &[usize] {
        self.by_sender.get(&sender).map_or(&[], |ships| ships)
    }

    /// Those that this sender has begun and that may wait for a change cipher spec; they do no more.
    pub fn waiting_at(&mut self, sender: SocketAddr) -> BTreeSet<(usize, u64)> {
        self.waiting.remove(&sender).unwrap_or_default()
    }

    /// All handshakes, the newest first: ship and serial.
    pub fn all(&self) -> impl Iterator<Item = (usize, u64)> + '_ {
        self.order.iter().rev().copied()
    }

    /// Whether there is room for a handshake of a ship, and which one gives way to it.
    pub fn room(
        &mut self,
        ships: &[Ship],
        ship: usize,
        sender: SocketAddr,
        now: Instant,
    ) -> Option<Room> {
        if ships[ship].started.len() >= OF_A_SHIP {
            return Some(Room::Instead(ship, gives_way(&ships[ship], sender, now)?));
        }
        if self.count < OF_ALL {
            return Some(Room::Free);
        }
        let (other, place) = self.oldest(ships)?;
        let had_its_time = is_held_no_more(&ships[other].started[place], now);
        let may = had_its_time || is_home(&ships[ship], way::host(sender));
        may.then_some(Room::Instead(other, place))
    }

    /// Starts one, in its room.
    pub fn start(&mut self, ships: &mut [Ship], ship: usize, room: Room, newcomer: Handshake) {
        if let Room::Instead(other, place) = room {
            self.end(ships, other, place);
        }
        self.add(ships, ship, newcomer);
    }

    /// Adds one; there is room.
    pub fn add(&mut self, ships: &mut [Ship], ship: usize, newcomer: Handshake) {
        let serial = self.next;
        self.next += 1;
        self.count += 1;
        self.order.push_back((ship, serial));
        for sender in &newcomer.senders {
            self.note_sender(*sender, ship, serial);
        }
        ships[ship].started.push(Handshake { serial, ..newcomer });
        ships[ship].turns += 1;
    }

    /// Somebody else said the hello of a handshake.
    pub fn said_again(&mut self, ships: &mut [Ship], ship: usize, place: usize, by: SocketAddr) {
        let home = ships[ship].route.map(way::host);
        ships[ship].turns += u64::from(!ships[ship].started[place].senders.contains(&by));
        let pushed_out = ships[ship].started[place].add_sender(by, home);
        let serial = ships[ship].started[place].serial;
        self.note_sender(by, ship, serial);
        if let Some(sender) = pushed_out {
            self.forget_sender(sender, &ships[ship], ship, serial);
        }
    }

    /// Ends one.
    pub fn end(&mut self, ships: &mut [Ship], ship: usize, place: usize) -> Handshake {
        let ended = ships[ship].started.remove(place);
        ships[ship].turns += 1;
        self.count -= 1;
        for sender in &ended.senders {
            self.forget_sender(*sender, &ships[ship], ship, ended.serial);
        }
        if self.order.len() > 2 * self.count + OF_A_SHIP {
            let is_there =
                |(ship, serial): &(usize, u64)| place_of(&ships[*ship], *serial).is_some();
            self.order.retain(is_there);
        }
        ended
    }

    /// Ends those of a ship that have had their time beside an open connection.
    pub fn end_old_of(&mut self, ships: &mut [Ship], ship: usize, now: Instant) {
        let is_old = |first: &Handshake| now.saturating_duration_since(first.at) >= BESIDE;
        while ships[ship].started.first().is_some_and(is_old) {
            self.end(ships, ship, 0);
        }
    }

    /// Ends one of a ship and all that began before it.
    pub fn end_until(&mut self, ships: &mut [Ship], ship: usize, place: usize) {
        (0..=place).for_each(|_| {
            self.end(ships, ship, 0);
        });
    }

    pub fn end_all_of(&mut self, ships: &mut [Ship], ship: usize) {
        while !ships[ship].started.is_empty() {
            self.end(ships, ship, 0);
        }
    }

    fn oldest(&mut self, ships: &[Ship]) -> Option<(usize, usize)> {
        loop {
            let (ship, serial) = *self.order.front()?;
            match place_of(&ships[ship], serial) {
                Some(place) => return Some((ship, place)),
                None => self.order.pop_front(),
            };
        }
    }

    fn note_sender(&mut self, sender: SocketAddr, ship: usize, serial: u64) {
        self.waiting.entry(sender).or_default().insert((ship, serial));
        let ships = self.by_sender.entry(sender).or_default();
        if !ships.contains(&ship) {
            ships.push(ship);
        }
    }

    fn forget_sender(&mut self, sender: SocketAddr, left: &Ship, ship: usize, serial: u64) {
        if let Some(waiting) = self.waiting.get_mut(&sender) {
            waiting.remove(&(ship, serial));
            if waiting.is_empty() {
                self.waiting.remove(&sender);
            }
        }
        if left.started.iter().any(|handshake| handshake.senders.contains(&sender)) {
            return;
        }
        if let Some(ships) = self.by_sender.get_mut(&sender) {
            ships.retain(|other| *other != ship);
            if ships.is_empty() {
                self.by_sender.remove(&sender);
            }
        }
    }
}

/// Where in its ship a handshake stands.
pub fn place_of(ship: &Ship, serial: u64) -> Option<usize> {
    ship.started.iter().position(|handshake| handshake.serial == serial)
}

/// Whether the ship's last genuine new record came from this host.
pub fn is_home(ship: &Ship, host: IpAddr) -> bool {
    ship.route.is_some_and(|route| way::host(route) == host)
}

fn is_held_no_more(handshake: &Handshake, now: Instant) -> bool {
    now.saturating_duration_since(handshake.at) >= HOLD
}

/// Which handshake of a ship gives way to a newcomer: the oldest, if it has had its time; for one
/// from the ship's own host the oldest from elsewhere, until half of the room is its own; else the
/// oldest from the host with most of them, if that has two more than the newcomer's. One whose hello
/// several hosts have said is of the one of them that has fewest, which may be the ship's.
fn gives_way(ship: &Ship, sender: SocketAddr, now: Instant) -> Option<usize> {
    let host = way::host(sender);
    let is_of = |one: &Handshake, host: IpAddr| one.senders.iter().any(|by| way::host(*by) == host);
    let count = |of: IpAddr| ship.started.iter().filter(|one| is_of(one, of)).count();
    let fewest = |one: &Handshake| one.senders.iter().map(|by| count(way::host(*by))).min();
    if is_held_no_more(&ship.started[0], now) {
        return Some(0);
    }
    if is_home(ship, host) && count(host) < OF_A_SHIP / 2 {
        return ship.started.iter().position(|one| !is_of(one, host));
    }
    let most = ship.started.iter().filter_map(fewest).max()?;
    if count(host) + 1 < most {
        return ship.started.iter().position(|one| fewest(one) == Some(most));
    }
    None
}
