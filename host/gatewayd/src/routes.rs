//! Which open ships may be behind a sender. The route of a ship is the sender of its last genuine
//! new record; here they are found by it, those with the nearest number first.

use crate::way;
use std::cmp::Reverse;
use std::collections::{BTreeSet, HashMap};
use std::net::{IpAddr, SocketAddr};

#[derive(Default)]
pub struct Routes {
    ships: HashMap<usize, Route>,
    at: HashMap<SocketAddr, Numbers>,
    on: HashMap<IpAddr, Numbers>,
    all: Numbers,
    /// The ships that were at an address before, which are as many as each of them remembers.
    recent: HashMap<SocketAddr, Vec<usize>>,
    /// How often a ship was entered or renumbered.
    turns: u64,
}

#[derive(Clone, Copy, PartialEq, Eq)]
struct Route {
    sender: SocketAddr,
    newest: u16,
    /// When it was last heard, counted in turns of all ships.
    turn: u64,
}

/// Ships by the highest number that each has sent. A record's number is in the clear, and is mostly
/// one more than that of the record before, so of many ships the right one is among the first: in a
/// fleet that counts in step, the one that has been silent for longest. It is no more than a hint:
/// the code decides.
#[derive(Default)]
pub struct Numbers(BTreeSet<Entry>);

/// Number, turn, ship. Read downwards, those with the same number come in the order of their turns.
type Entry = (u16, Reverse<u64>, usize);

impl Routes {
    /// The route of a ship, and the highest number that it has sent; none if it is not open.
    pub fn set(&mut self, ship: usize, route: Option<(SocketAddr, u16)>) {
        self.turns += 1;
        let turn = self.turns;
        let route = route.map(|(sender, newest)| Route { sender, newest, turn });
        let before = self.ships.get(&ship).copied();
        match (before, route) {
            (Some(before), Some(route)) if before.sender == route.sender => {
                if before.newest == route.newest {
                    return;
                }
                self.renumber(ship, before, route);
            }
            _ => {
                self.leave(ship, before);
                self.enter(ship, route);
            }
        }
    }

    /// The common case: the next number at the same address.
    fn renumber(&mut self, ship: usize, before: Route, route: Route) {
        let (old, new) = (before.entry(ship), route.entry(ship));
        let at = self.at.get_mut(&route.sender);
        let on = self.on.get_mut(&way::host(route.sender));
        for set in [at, on, Some(&mut self.all)].into_iter().flatten() {
            set.0.remove(&old);
            set.0.insert(new);
        }
        self.ships.insert(ship, route);
    }

    fn leave(&mut self, ship: usize, route: Option<Route>) {
        let Some(route) = route else { return };
        let entry = route.entry(ship);
        remove(&mut self.at, route.sender, entry);
        remove(&mut self.on, way::host(route.sender), entry);
        self.all.0.remove(&entry);
        self.ships.remove(&ship);
    }

    fn enter(&mut self, ship: usize, route: Option<Route>) {
        let Some(route) = route else { return };
        let entry = route.entry(ship);
        self.at.entry(route.sender).or_default().0.insert(entry);
        self.on.entry(way::host(route.sender)).or_default().0.insert(entry);
        self.all.0.insert(entry);
        self.ships.insert(ship, route);
    }

    /// Where a ship was before, and where it was until now.
    pub fn set_recent(&mut self, ship: usize, until_now: &[SocketAddr], recent: &[SocketAddr]) {
        for gone in until_now.iter().filter(|sender| !recent.contains(sender)) {
            if let Some(ships) = self.recent.get_mut(gone) {
                ships.retain(|other| *other != ship);
                if ships.is_empty() {
                    self.recent.remove(gone);
                }
            }
        }
        for new in recent.iter().filter(|sender| !until_now.contains(sender)) {
            self.recent.entry(*new).or_default().push(ship);
        }
    }

    /// The ships that were at this address before, those that left it last first.
    pub fn before(&self, sender: SocketAddr) -> impl Iterator<Item = usize> + '_ {
        self.recent.get(&sender).into_iter().flatten().rev().copied()
    }

    /// The ships with this route.
    pub fn at(&self, sender: SocketAddr) -> &Numbers {
        self.at.get(&sender).unwrap_or(&NONE)
    }

    /// The ships with a route on the same host, whatever its port.
    pub fn on(&self, host: IpAddr) -> &Numbers {
        self.on.get(&host).unwrap_or(&NONE)
    }

    pub fn all(&self) -> &Numbers {
        &self.all
    }
}

impl Route {
    fn entry(&self, ship: usize) -> Entry {
        (self.newest, Reverse(self.turn), ship)
    }
}

static NONE: Numbers = Numbers(BTreeSet::new());

fn remove<Key: std::hash::Hash + Eq>(sets: &mut HashMap<Key, Numbers>, key: Key, entry: Entry) {
    if let Some(set) = sets.get_mut(&key) {
        set.0.remove(&entry);
        if set.0.is_empty() {
            sets.remove(&key);
        }
    }
}

impl Numbers {
    /// The ship, if it is the only one.
    pub fn only(&self) -> Option<usize> {
        self.0.first().filter(|_| self.0.len() == 1).map(|(.., ship)| *ship)
    }

    /// The ships for a record with this number, the likeliest first: those that have sent the number
    /// before it. (For one that has sent this very number, the record would be a repeated one.)
    pub fn nearest(&self, number: u16) -> impl Iterator<Item = usize> + '_ {
        let first = (number, Reverse(u64::MAX), 0);
        let mut below = self.0.range(..first).rev().peekable();
        let mut above = self.0.range(first..).peekable();
        std::iter::from_fn(move || {
            let next = match (below.peek(), above.peek()) {
                (Some((low, ..)), Some((high, ..))) if high - number < number - low - 1 => {
                    above.next()
                }
                (Some(_), _) => below.next(),
                (None, _) => above.next(),
            };
            next.map(|(.., ship)| *ship)
        })
    }
}

#[cfg(test)]
mod tests {
    use super::*;

    #[test]
    fn the_nearest_first_and_each_once() {
        let mut routes = Routes::default();
        let sender = SocketAddr::from(([192, 0, 2, 1], 4000));
        for (ship, newest) in [(0, 10), (1, 100), (2, 65535), (3, 99), (4, 0), (5, 102)] {
            routes.set(ship, Some((sender, newest)));
        }
        let order = |number| routes.at(sender).nearest(number).collect::<Vec<_>>();
        assert_eq!(order(101), [1, 3, 5, 0, 4, 2]);
        assert_eq!(order(100), [3, 1, 5, 0, 4, 2]);
        assert_eq!(order(0), [4, 0, 3, 1, 5, 2]);
        assert_eq!(order(65535), [2, 5, 1, 3, 0, 4]);
    }

    #[test]
    fn a_ship_has_one_route() {
        let mut routes = Routes::default();
        let sender = |port| SocketAddr::from(([192, 0, 2, 1], port));
        routes.set(7, Some((sender(1), 3)));
        assert_eq!(routes.at(sender(1)).only(), Some(7));
        routes.set(7, Some((sender(2), 4)));
        routes.set(8, Some((sender(2), 4)));
        assert_eq!(routes.at(sender(1)).only(), None);
        assert_eq!(routes.at(sender(2)).only(), None);
        assert_eq!(routes.on(way::host(sender(9))).nearest(5).collect::<Vec<_>>(), [7, 8]);
        // Of those with the same number, the one that has been silent for longest.
        for (ship, newest) in [(7, 5), (8, 5), (7, 6), (9, 4), (8, 6)] {
            routes.set(ship, Some((sender(2), newest)));
        }
        assert_eq!(routes.at(sender(2)).nearest(7).collect::<Vec<_>>(), [7, 8, 9]);
        assert_eq!(routes.at(sender(2)).nearest(6).collect::<Vec<_>>(), [8, 7, 9]);
        for ship in 7..10 {
            routes.set(ship, None);
        }
        assert!(routes.at.is_empty() && routes.on.is_empty() && routes.all.0.is_empty());
    }
}
