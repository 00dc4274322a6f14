//! A ship's day: hello, Finished, and reports, all over the bad link (WTLS 10.4). What is to be said
//! again, and when, is decided here; what it is, the ship knows.

use crate::link::Link;
use crate::options::Options;
use crate::shore::Gateway;
use peer::rng::Rng;
use std::thread;
use std::time::{Duration, Instant};
use unitsim::proved::Proved;
use unitsim::ship::{Difference, Judged, Second, Ship};

pub struct Day<'a> {
    options: &'a Options,
    ship: Box<dyn Ship>,
    /// Where a ship of the day and its judge differed.
    difference: Difference,
    /// Another ship of the same session that says hello, where it is in doubt whether the gateway has
    /// our Finished; it takes the ship's place once it is open.
    other: Option<Box<dyn Ship>>,
    rng: Rng,
    pub out: Link,
    pub back: Link,
    pub gateway: Gateway,
    /// The last datagram that was heard, for the alert that ends the day.
    last_heard: Vec<u8>,
    unconfirmed: usize,
    pub sent: usize,
    pub said_again: usize,
    pub reboots: usize,
}

/// A hello is said again as it is so many times, then another one is said.
const SAME_HELLOS: usize = 5;
const MOST_HELLOS: usize = 200;
/// A unit that lost its power takes so long to be there again.
const BOOT: Duration = Duration::from_millis(300);
/// After so many reports without an answer the handshake may have failed: another hello.
const DOUBT_AFTER: usize = 32;

/// The type byte of a hello as the unit writes it.
const CLEAR_HELLO: u8 = 0x43;
const CRITICAL: u8 = 2;
const CONNECTION_CLOSE_NOTIFY: u8 = 0;

impl Day<'_> {
    pub fn new(options: &Options) -> Result<Day<'_>, String> {
        let difference = Difference::default();
        Ok(Day {
            ship: fresh(options, &difference)?,
            difference,
            other: None,
            rng: Rng::new(options.seed),
            out: Link::new(options.rates, options.seed + 1),
            back: Link::new(options.rates, options.seed + 2),
            gateway: Gateway::new(options)?,
            last_heard: Vec::new(),
            unconfirmed: 0,
            sent: 0,
            said_again: 0,
            reboots: 0,
            options,
        })
    }

    pub fn run(&mut self) -> Result<(), String> {
        self.sail()?;
        self.difference.take().map_or(Ok(()), Err)
    }

    fn sail(&mut self) -> Result<(), String> {
        self.shake_hands()?;
        for index in 0..self.options.reports {
            if self.loses_power_before(index) {
                self.reboot()?;
            }
            self.report(index)?;
        }
        for datagram in self.out.empty() {
            self.gateway.deliver(&datagram)?;
            self.pause();
        }
        if self.options.close {
            let notice = self.ship.alert(CRITICAL, CONNECTION_CLOSE_NOTIFY, &self.last_heard);
            for carried in self.gateway.carried(notice.map_err(refused)?) {
                self.gateway.deliver(&carried)?;
            }
        }
        Ok(())
    }

    /// At even distances over the day.
    fn loses_power_before(&self, index: usize) -> bool {
        let Options { reports, reboots, .. } = self.options;
        (1..=*reboots).any(|nth| index == nth * reports / (reboots + 1))
    }

    fn reboot(&mut self) -> Result<(), String> {
        self.reboots += 1;
        self.lose_power()?;
        if self.reboots % 2 == 0 {
            let hello = self.hello()?;
            self.send(hello)?;
            self.lose_power()?;
        }
        self.shake_hands()
    }

    /// Keys and numbers are gone, and so are the hellos that the modem still held. Reports that are
    /// on their way arrive.
    fn lose_power(&mut self) -> Result<(), String> {
        (self.ship, self.other, self.unconfirmed) = (self.fresh()?, None, 0);
        self.out.drop_those(|datagram| datagram[0] == CLEAR_HELLO);
        thread::sleep(BOOT);
        Ok(())
    }

    /// Says hello, and says it again each time that the timer runs out.
    fn shake_hands(&mut self) -> Result<(), String> {
        for said in 0..MOST_HELLOS {
            // A reply that was changed on its way may have closed the ship.
            if said % SAME_HELLOS == 0 || self.ship.again().is_err() {
                self.ship = self.fresh()?;
                let hello = self.hello()?;
                self.send(hello)?;
            } else {
                self.say_again()?;
            }
            if said == 0 {
                self.strangers()?;
            }
            if self.listen_until(Instant::now() + self.options.timer)? {
                return Ok(());
            }
        }
        Err(format!("no reply to {MOST_HELLOS} hellos"))
    }

    /// Others say hello in the ship's name. That is nothing to it.
    fn strangers(&mut self) -> Result<(), String> {
        for _ in 0..self.options.strangers {
            let random = self.rng.bytes(16);
            let macs = [self.options.kind.number()];
            let mut other = self.fresh()?;
            let hello = other.hello(&random, &macs, self.options.refresh).map_err(refused)?;
            self.gateway.strange(&hello)?;
        }
        Ok(())
    }

    fn fresh(&self) -> Result<Box<dyn Ship>, String> {
        fresh(self.options, &self.difference)
    }

    fn hello(&mut self) -> Result<Vec<u8>, String> {
        let random = self.rng.bytes(16);
        let macs = [self.options.kind.number()];
        self.ship.hello(&random, &macs, self.options.refresh).map_err(refused)
    }

    fn say_again(&mut self) -> Result<(), String> {
        let datagram = self.ship.again().map_err(refused)?;
        self.said_again += 1;
        self.send(datagram)
    }

    /// Until the gateway is known to have our Finished, the flight goes before each report (10.4).
    fn report(&mut self, index: usize) -> Result<(), String> {
        let bytes = self.text(index);
        let confirmed = self.ship.again().is_err();
        self.out.forwards = confirmed;
        if !confirmed {
            self.unconfirmed += 1;
            self.say_again()?;
            self.listen()?;
        }
        let data = self.ship.send(&bytes).map_err(refused)?;
        self.sent += 1;
        self.send(data)?;
        self.listen()?;
        match confirmed {
            true => Ok(()),
            false => self.doubt(),
        }
    }

    /// Now and then, while nothing is known of our Finished: another ship says hello, a few times the
    /// same. The ship itself goes on.
    fn doubt(&mut self) -> Result<(), String> {
        let since = self.unconfirmed % DOUBT_AFTER;
        if since == DOUBT_AFTER - 1 {
            let mut other = self.fresh()?;
            let random = self.rng.bytes(16);
            let macs = [self.options.kind.number()];
            let hello = other.hello(&random, &macs, self.options.refresh).map_err(refused)?;
            self.other = Some(other);
            self.send(hello)?;
        } else if let Some(Ok(hello)) = self.other.as_mut().map(|other| other.again()) {
            if since >= SAME_HELLOS - 1 {
                return Ok(());
            }
            self.said_again += 1;
            self.send(hello)?;
        } else {
            return Ok(());
        }
        self.listen()?;
        Ok(())
    }

    fn text(&mut self, index: usize) -> Vec<u8> {
        let mut bytes = format!("{} {index:05} ", self.options.ship).into_bytes();
        let most = if self.rng.percent(2) { 1200 } else { 120 };
        let more = self.rng.between(0, most);
        bytes.extend(self.rng.bytes(more));
        bytes
    }

    fn send(&mut self, datagram: Vec<u8>) -> Result<(), String> {
        for carried in self.gateway.carried(datagram) {
            for delivered in self.out.pass(carried) {
                self.gateway.deliver(&delivered)?;
            }
        }
        self.pause();
        self.gateway.hear(Duration::ZERO)
    }

    fn pause(&self) {
        thread::sleep(self.options.every);
    }

    /// Hears what comes until then; true as soon as a reply has opened the ship.
    fn listen_until(&mut self, end: Instant) -> Result<bool, String> {
        loop {
            if self.listen()? {
                return Ok(true);
            }
            let left = end.saturating_duration_since(Instant::now());
            if left.is_zero() {
                return Ok(false);
            }
            self.gateway.wait(left)?;
        }
    }

    /// Hears what came back over the link; true if a reply has opened a ship. Its flight goes out at
    /// once.
    fn listen(&mut self) -> Result<bool, String> {
        let mut opened = false;
        for datagram in std::mem::take(&mut self.gateway.inbox) {
            for datagram in self.back.pass(datagram) {
                if let Some(flight) = self.hear(&datagram) {
                    opened = true;
                    self.unconfirmed = 0;
                    self.send(flight)?;
                }
            }
        }
        Ok(opened)
    }

    /// The other ship is asked first; where it opens, it is the ship from then on.
    fn hear(&mut self, datagram: &[u8]) -> Option<Vec<u8>> {
        if let Some(mut other) = self.other.take() {
            if let Some(flight) = other.receive(datagram).flight() {
                self.ship = other;
                self.last_heard = datagram.to_vec();
                return Some(flight.to_vec());
            }
            self.other = Some(other);
        }
        let heard = self.ship.receive(datagram);
        if heard.is_news() {
            self.last_heard = datagram.to_vec();
        }
        heard.flight().map(<[u8]>::to_vec)
    }
}

/// The proved ship, the second implementation's beside it as its judge.
fn fresh(options: &Options, difference: &Difference) -> Result<Box<dyn Ship>, String> {
    let Options { session, secret, width, .. } = options;
    let ship = Proved::fresh(session, secret, *width)?;
    let judge = Second::fresh(session, secret, *width)?;
    Ok(Box::new(Judged { ship, judge, difference: difference.clone() }))
}

fn refused(number: u8) -> String {
    format!("the ship itself refused a call with {number}")
}
