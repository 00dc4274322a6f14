//! Work that strangers can ask for, so much in a second and no more.

use std::hash::{BuildHasher, RandomState};
use std::net::IpAddr;
use std::time::Instant;

/// So many a second; up to a second's worth is saved up.
#[derive(Clone, Copy, Debug)]
pub struct Budget {
    each_second: f64,
    left: f64,
    at: Option<Instant>,
}

impl Budget {
    pub fn new(each_second: u32) -> Budget {
        Budget { each_second: each_second.into(), left: each_second.into(), at: None }
    }

    /// Spends so many; false if there are not so many left.
    pub fn spend(&mut self, count: u32, now: Instant) -> bool {
        let since = now.saturating_duration_since(self.at.unwrap_or(now));
        self.left = self.each_second.min(self.left + since.as_secs_f64() * self.each_second);
        self.at = Some(now);
        let enough = self.left >= count.into();
        if enough {
            self.left -= f64::from(count);
        }
        enough
    }
}

/// A budget that is divided among hosts, so that one stranger cannot use it up. Hosts fall into a
/// fixed number of shares, by a hash that nobody outside can foresee.
pub struct Shares {
    all: Budget,
    shares: Vec<Budget>,
    hasher: RandomState,
}

const SHARES: u64 = 4096;

impl Shares {
    pub fn new(each_second: u32, of_a_share: u32) -> Shares {
        let shares = vec![Budget::new(of_a_share); SHARES as usize];
        Shares { all: Budget::new(each_second), shares, hasher: RandomState::new() }
    }

    pub fn spend(&mut self, host: IpAddr, count: u32, now: Instant) -> bool {
        let share = (self.hasher.hash_one(host) % SHARES) as usize;
        self.shares[share].spend(count, now) && self.all.spend(count, now)
    }
}

#[cfg(test)]
mod tests {
    use super::*;
    use std::time::Duration;

    #[test]
    fn no_more_than_its_rate() {
        let start = Instant::now();
        let mut budget = Budget::new(100);
        let spent = |budget: &mut Budget, now| (0..1000).filter(|_| budget.spend(1, now)).count();
        assert_eq!(spent(&mut budget, start), 100);
        assert_eq!(spent(&mut budget, start + Duration::from_millis(500)), 50);
        assert_eq!(spent(&mut budget, start + Duration::from_secs(60)), 100);
        let later = start + Duration::from_secs(90);
        assert!(budget.spend(60, later) && !budget.spend(60, later) && budget.spend(40, later));
    }

    #[test]
    fn one_host_has_its_share_and_all_have_the_whole() {
        let start = Instant::now();
        let mut shares = Shares::new(100, 10);
        let host = |n: u32| IpAddr::from(n.to_be_bytes());
        let one = (0..1000).filter(|_| shares.spend(host(1), 1, start)).count();
        let all = (0..100_000).filter(|n| shares.spend(host(*n), 1, start)).count();
        assert_eq!((one, all), (10, 90));
    }
}
