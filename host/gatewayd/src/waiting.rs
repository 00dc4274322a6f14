//! While the store is away: nothing is answered, what arrives waits in the bounded queue, and behind it the system drops and counts.

use crate::inbox::Inbox;
use crate::log::Log;
use crate::signals::{self, Asked};
use std::thread;
use std::time::{Duration, Instant};

pub struct Waiting<'a> {
    log: &'a mut Log,
    inbox: &'a Inbox,
    every: Duration,
    since: Option<Instant>,
    told: Option<Instant>,
    dropped: u64,
}

const PAUSE: Duration = Duration::from_millis(50);

impl<'a> Waiting<'a> {
    pub fn new(log: &'a mut Log, inbox: &'a Inbox, every: Duration) -> Waiting<'a> {
        let dropped = inbox.dropped();
        Waiting { log, inbox, every, since: None, told: None, dropped }
    }

    /// Waits a little; false if somebody asks for the end.
    pub fn goes_on(&mut self, what: &str) -> bool {
        let now = Instant::now();
        self.since.get_or_insert(now);
        if self.told.is_none_or(|told| now.duration_since(told) >= self.every) {
            self.told = Some(now);
            self.log.line(&format!("store: {what}; datagrams wait"));
        }
        if signals::asked() == Asked::End {
            return false;
        }
        thread::sleep(PAUSE);
        true
    }

    pub fn end(self) {
        if let Some(since) = self.since {
            let seconds = since.elapsed().as_secs_f64();
            let dropped = self.inbox.dropped() - self.dropped;
            self.log.line(&format!(
                "store: {seconds:.1} s without it; meanwhile the system dropped {dropped} datagrams"
            ));
        }
    }
}
