//! A link that loses, repeats, delays, reorders and damages, and a store-and-forward routing beside
//! it. Its clock is the datagrams that enter it: a delayed one comes out so many datagrams later. What
//! it does follows from its seed.

use crate::options::Rates;
use peer::rng::Rng;

pub struct Link {
    rates: Rates,
    rng: Rng,
    entered: usize,
    /// Datagrams under way, each with the tick at which it comes out.
    under_way: Vec<(usize, Vec<u8>)>,
    /// Whether datagrams may take the store-and-forward routing now.
    pub forwards: bool,
    pub did: Did,
}

/// What the link did.
#[derive(Default)]
pub struct Did {
    pub lost: usize,
    pub repeated: usize,
    pub delayed: usize,
    pub reordered: usize,
    pub damaged: usize,
    pub forwarded: usize,
}

const LONGEST_DELAY: usize = 40;
/// On the store-and-forward routing so many others pass a datagram.
const PLACES_LATE: usize = 40;

impl Link {
    pub fn new(rates: Rates, seed: u64) -> Link {
        Link {
            rates,
            rng: Rng::new(seed),
            entered: 0,
            under_way: Vec::new(),
            forwards: false,
            did: Did::default(),
        }
    }

    /// A datagram enters; those that come out now are given, in their order.
    pub fn pass(&mut self, datagram: Vec<u8>) -> Vec<Vec<u8>> {
        self.entered += 1;
        let copies = if self.happens(self.rates.repeat) { 2 } else { 1 };
        self.did.repeated += copies - 1;
        for _ in 0..copies {
            self.enter(datagram.clone());
        }
        let now = self.entered;
        self.take_out(|due| due <= now)
    }

    /// Some that are under way are gone.
    pub fn drop_those(&mut self, gone: impl Fn(&[u8]) -> bool) {
        self.under_way.retain(|(_, datagram)| !gone(datagram));
    }

    /// Everything that is still under way.
    pub fn empty(&mut self) -> Vec<Vec<u8>> {
        self.take_out(|_| true)
    }

    fn enter(&mut self, mut datagram: Vec<u8>) {
        if self.happens(self.rates.lose) {
            self.did.lost += 1;
            return;
        }
        if self.happens(self.rates.damage) {
            self.did.damaged += 1;
            let place = self.rng.under(datagram.len());
            datagram[place] ^= 1 << self.rng.under(8);
        }
        let mut due = self.entered;
        if self.forwards && self.happens(self.rates.forward) {
            self.did.forwarded += 1;
            due += PLACES_LATE + 1;
        } else if self.happens(self.rates.delay) {
            self.did.delayed += 1;
            due += self.rng.between(4, LONGEST_DELAY);
        } else if self.happens(self.rates.reorder) {
            self.did.reordered += 1;
            due += self.rng.between(1, 3);
        }
        self.under_way.push((due, datagram));
    }

    fn happens(&mut self, percent: usize) -> bool {
        self.rng.percent(percent)
    }

    fn take_out(&mut self, is_due: impl Fn(usize) -> bool) -> Vec<Vec<u8>> {
        let all = std::mem::take(&mut self.under_way);
        let (mut out, left): (Vec<_>, Vec<_>) = all.into_iter().partition(|(due, _)| is_due(*due));
        self.under_way = left;
        out.sort_by_key(|(due, _)| *due);
        out.into_iter().map(|(_, datagram)| datagram).collect()
    }
}

#[cfg(test)]
mod tests {
    use super::*;

    fn run(rates: Rates) -> (Vec<Vec<u8>>, Link) {
        let mut link = Link::new(rates, 7);
        let mut out: Vec<Vec<u8>> = (0..100).flat_map(|n| link.pass(vec![n, 0, 0])).collect();
        out.extend(link.empty());
        (out, link)
    }

    /// Each datagram that was forwarded comes out just behind the fortieth after it, or behind those
    /// before that one where it was forwarded, too.
    #[test]
    fn forwarded_are_forty_places_late() {
        let mut link = Link::new(Rates { forward: 20, ..Rates::default() }, 7);
        link.forwards = true;
        let mut out: Vec<Vec<u8>> = (0..200).flat_map(|n| link.pass(vec![n, 0, 0])).collect();
        assert_eq!(out.len() + link.under_way.len(), 200);
        let late: Vec<u8> = late_by(&out);
        assert!(late.len() > 20 && late.iter().all(|places| (32..=40).contains(places)));
        assert!(late.iter().filter(|places| **places == 40).count() > 20, "{late:?}");
        out.extend(link.empty());
        assert_eq!(out.len(), 200);
    }

    /// How far behind the highest before it each is that comes late.
    fn late_by(out: &[Vec<u8>]) -> Vec<u8> {
        let mut highest = 0;
        let behind = out.iter().map(|datagram| {
            highest = highest.max(datagram[0]);
            highest - datagram[0]
        });
        behind.filter(|places| *places > 0).collect()
    }

    #[test]
    fn dropped_ones_do_not_come() {
        let mut link = Link::new(Rates { delay: 100, ..Rates::default() }, 7);
        let out = (0..100).flat_map(|n| link.pass(vec![n, 0, 0])).count();
        let left = link.under_way.len();
        link.drop_those(|datagram| datagram[0] % 2 == 0);
        assert!(link.under_way.len() < left && out + left == 100);
        assert!(link.empty().iter().all(|datagram| datagram[0] % 2 == 1));
    }

    fn sent() -> Vec<Vec<u8>> {
        (0..100).map(|n| vec![n, 0, 0]).collect()
    }

    #[test]
    fn each_fault_alone() {
        assert_eq!(run(Rates::default()).0, sent());
        assert!(run(Rates { lose: 100, ..Rates::default() }).0.is_empty());
        assert_eq!(run(Rates { repeat: 100, ..Rates::default() }).0.len(), 200);
        for rates in
            [Rates { delay: 30, ..Rates::default() }, Rates { reorder: 30, ..Rates::default() }]
        {
            let (mut out, _) = run(rates);
            assert_ne!(out, sent());
            out.sort();
            assert_eq!(out, sent());
        }
        let (out, _) = run(Rates { forward: 30, ..Rates::default() });
        assert_eq!(out, sent(), "nothing is forwarded before it may be");
        let (out, link) = run(Rates { damage: 50, ..Rates::default() });
        let damaged = out.iter().filter(|datagram| !sent().contains(datagram)).count();
        assert!(damaged > 20 && damaged <= link.did.damaged);
    }
}
