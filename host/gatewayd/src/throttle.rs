//! At most one in a given time.

use std::collections::HashMap;
use std::hash::Hash;
use std::time::{Duration, Instant};

/// Lets one through for each key and span, and counts those that it holds back. The keys are few by
/// their kind (a ship and a refusal number), so the table does not grow with what strangers send.
pub struct Throttle<Key> {
    span: Duration,
    last: HashMap<Key, Last>,
}

struct Last {
    at: Instant,
    held_back: u64,
}

impl<Key: Hash + Eq> Throttle<Key> {
    pub fn new(span: Duration) -> Throttle<Key> {
        Throttle { span, last: HashMap::new() }
    }

    /// Whether this one goes through; if so, how many were held back since the one before.
    pub fn pass(&mut self, key: Key, now: Instant) -> Option<u64> {
        let Some(last) = self.last.get_mut(&key) else {
            self.last.insert(key, Last { at: now, held_back: 0 });
            return Some(0);
        };
        if now.saturating_duration_since(last.at) < self.span {
            last.held_back += 1;
            return None;
        }
        last.at = now;
        Some(std::mem::take(&mut last.held_back))
    }

    /// What was held back and not told yet.
    pub fn untold(&self) -> impl Iterator<Item = (&Key, u64)> {
        self.last
            .iter()
            .map(|(key, last)| (key, last.held_back))
            .filter(|(_, held_back)| *held_back > 0)
    }
}

#[cfg(test)]
mod tests {
    use super::*;

    #[test]
    fn one_for_each_key_and_span() {
        let mut throttle = Throttle::new(Duration::from_secs(10));
        let start = Instant::now();
        let after = |seconds| start + Duration::from_secs(seconds);
        assert_eq!(throttle.pass('a', start), Some(0));
        assert_eq!(throttle.pass('a', after(9)), None);
        assert_eq!(throttle.pass('b', after(9)), Some(0));
        assert_eq!(throttle.pass('a', after(9)), None);
        assert_eq!(throttle.untold().collect::<Vec<_>>(), [(&'a', 2)]);
        assert_eq!(throttle.pass('a', after(10)), Some(2));
        assert_eq!(throttle.pass('a', after(19)), None);
        assert_eq!(throttle.pass('a', after(20)), Some(1));
    }
}
