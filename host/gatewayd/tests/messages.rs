//! A day by short messages: parts lost, repeated and reordered, gatherings that never end, and the gateway killed with SIGKILL at
//! random moments. Nothing that the window took is missing from the list, and nothing is in it twice.

mod common;

use common::{name, text, wait_for, Gatewayd, Place, Ship};
use peer::rng::Rng;
use peer::short;
use std::collections::BTreeSet;
use std::net::SocketAddr;
use std::sync::atomic::{AtomicBool, AtomicUsize, Ordering};
use std::thread;
use std::time::{Duration, Instant};

const SHIPS: usize = 3;
const SEED: u64 = 21;
/// So many kills, or as many as KILLS says.
const KILLS: usize = 40;
/// The user data of a short message; ours have little of it, so that there are many parts.
const MOST: usize = 140;
const PART: usize = 30;

/// The ports of a ship's messages: to the gateway, and from the ship.
fn ports(ship: usize) -> [u8; 4] {
    let (to, from) = (9202_u16.to_be_bytes(), (0xc000 + ship as u16).to_be_bytes());
    [to[0], to[1], from[0], from[1]]
}

/// A datagram as one message.
fn alone(ship: usize, datagram: &[u8]) -> Vec<u8> {
    [&[6, 5, 4], &ports(ship)[..], datagram].concat()
}

/// The messages of a datagram in parts.
fn messages(ship: usize, reference: u8, datagram: &[u8]) -> Vec<Vec<u8>> {
    let ports = ports(ship);
    let parts: Vec<&[u8]> = datagram.chunks(PART).collect();
    let head = |place: usize| [0, 3, reference, parts.len() as u8, place as u8 + 1];
    let message = |place: usize| [&[11, 5, 4], &ports[..], &head(place), parts[place]].concat();
    (0..parts.len()).map(message).collect()
}

/// A ship behind a relay, which has a port of its own for it.
struct Bearer {
    ship: Ship,
    rng: Rng,
    reference: u8,
}

impl Bearer {
    /// Parts are lost, repeated and reordered; one in a while comes late, and begins a gathering that never ends.
    fn send(&mut self, datagram: &[u8]) {
        self.reference = self.reference.wrapping_add(1);
        let mut parts = messages(self.ship.index, self.reference, datagram);
        let last = parts.last().cloned();
        if self.rng.percent(20) {
            let (one, other) = (self.rng.under(parts.len()), self.rng.under(parts.len()));
            parts.swap(one, other);
        }
        for part in &parts {
            if self.rng.percent(5) {
                continue;
            }
            let copies = if self.rng.percent(5) { 2 } else { 1 };
            for _ in 0..copies {
                self.ship.send(part);
            }
        }
        if self.rng.percent(10) {
            self.ship.send(&last.unwrap_or_default());
        }
    }

    /// Takes what has come: one message to each datagram of the gateway's, with the ports exchanged. True if a reply was among it.
    fn hear(&mut self, wait: Duration) -> bool {
        let [a, b, c, d] = ports(self.ship.index);
        let mut buffer = [0; 2048];
        self.ship.socket.set_read_timeout(Some(wait)).unwrap();
        let mut replied = false;
        while let Ok(size) = self.ship.socket.recv(&mut buffer) {
            let message = &buffer[..size];
            assert!(size <= MOST, "{size}");
            assert_eq!(message[..7], [6, 5, 4, c, d, a, b], "the header of an answer");
            let header = short::header(message).expect("a sound header");
            replied |= self.ship.unit.hear_reply(&message[header.start..]).is_ok();
        }
        replied
    }

    fn shake_hands(&mut self) {
        let hello = self.ship.hello(self.ship.index as u8 + 1);
        for _ in 0..2000 {
            self.send(&hello);
            if self.hear(Duration::from_millis(20)) {
                return;
            }
        }
        panic!("no reply");
    }
}

#[test]
fn a_day_by_short_messages() {
    let place = Place::new("messages");
    place.plant(SHIPS);
    let listen = free_address();
    let address = listen.to_string();
    let more = ["--listen-messages", &address, "--gather-for", "0.2"];
    let first = Gatewayd::start(&place, "127.0.0.1:0", &more);
    let plain = first.address.to_string();
    let wanted = std::env::var("KILLS").ok().map_or(KILLS, |count| count.parse().unwrap());
    let (done, kills) = (AtomicBool::new(false), AtomicUsize::new(0));
    let reports: Vec<u16> = thread::scope(|scope| {
        scope.spawn(|| {
            let mut rng = Rng::new(SEED);
            let mut running = first;
            while !done.load(Ordering::Relaxed) {
                thread::sleep(Duration::from_micros(rng.between(1_000, 120_000) as u64));
                running.kill();
                kills.fetch_add(1, Ordering::Relaxed);
                running = Gatewayd::start(&place, &plain, &more);
            }
            running.end();
        });
        let _ends = SetAtEnd(&done);
        let sailed = |index: usize| {
            let mut bearer = Bearer {
                ship: Ship::new(index, listen),
                rng: Rng::new(SEED + 1 + index as u64),
                reference: 0,
            };
            let enough = || kills.load(Ordering::Relaxed) >= wanted * (index + 1) / SHIPS;
            sail(&mut bearer, &place, enough)
        };
        (0..SHIPS).map(sailed).collect()
    });
    let kills = kills.into_inner();
    assert!(kills >= wanted, "only {kills} kills");
    for ship in 0..SHIPS {
        let mut listed = place.listed(ship);
        listed.sort();
        let expected: Vec<_> =
            (1..=reports[ship]).map(|number| (number, text(ship, number))).collect();
        assert_eq!(listed, expected, "ship {ship} after {kills} kills");
    }
    let tallies = Gatewayd::start(&place, "127.0.0.1:0", &[]).end();
    for ship in 0..SHIPS {
        let line = tallies.lines().find(|line| line.ends_with(&name(ship))).unwrap();
        assert!(line.starts_with(&format!("{}\t", reports[ship])), "{line}");
    }
    println!("{kills} kills; {SHIPS} ships, {reports:?} reports by short messages");
}

/// Four gatherings that never end leave no room for a fifth, until they have waited for too long.
#[test]
fn leftovers_do_not_stay() {
    let place = Place::new("leftovers");
    place.plant(1);
    let listen = free_address();
    let address = listen.to_string();
    let more = ["--listen-messages", &address, "--gather-for", "0.5"];
    let gatewayd = Gatewayd::start(&place, "127.0.0.1:0", &more);
    let mut bearer = Bearer { ship: Ship::new(0, listen), rng: Rng::new(1), reference: 0 };
    let hello = bearer.ship.hello(1);
    bearer.ship.send(&alone(0, &hello));
    assert!(bearer.hear(Duration::from_secs(1)), "no reply");
    let report = bearer.ship.data_behind_finished(3);
    for reference in 1..=4 {
        bearer.ship.send(&messages(0, reference, &report)[0]);
    }
    for message in messages(0, 5, &report) {
        bearer.ship.send(&message);
    }
    thread::sleep(Duration::from_millis(300));
    assert!(place.listed(0).is_empty(), "the fifth was gathered");
    thread::sleep(Duration::from_millis(500));
    for message in messages(0, 5, &report) {
        bearer.ship.send(&message);
    }
    wait_for("the report", || place.listed(0) == [(3, text(0, 3))]);
    gatewayd.end();
    let log = std::fs::read_to_string(place.path.join("log")).unwrap();
    assert!(log.contains("refused 21") && log.contains("1 of 5 parts had waited"), "{log}");
}

/// SIGHUP while reports come by short messages, each sent once: the socket is handed over, and none is lost.
#[test]
fn new_starts_without_a_message_lost() {
    let place = Place::new("messages-sighup");
    place.plant(2);
    let listen = free_address();
    let address = listen.to_string();
    let mut gatewayd = Gatewayd::start(&place, "127.0.0.1:0", &["--listen-messages", &address]);
    let mut bearer = Bearer { ship: Ship::new(0, listen), rng: Rng::new(1), reference: 0 };
    let mut plain = Ship::new(1, gatewayd.address);
    let hello = bearer.ship.hello(1);
    bearer.ship.send(&alone(0, &hello));
    assert!(bearer.hear(Duration::from_secs(1)), "no reply");
    plain.open(1);
    bearer.ship.send(&alone(0, &bearer.ship.unit.flight().unwrap()));
    let done = AtomicBool::new(false);
    let sent: u16 = thread::scope(|scope| {
        let sending = scope.spawn(|| {
            let mut number = 0;
            while !done.load(Ordering::Relaxed) {
                number += 1;
                bearer.ship.send(&alone(0, &bearer.ship.data(number)));
                plain.send(&plain.data(number));
                thread::sleep(Duration::from_millis(3));
            }
            number
        });
        let _ends = SetAtEnd(&done);
        for _ in 0..6 {
            thread::sleep(Duration::from_millis(100));
            gatewayd.start_anew();
        }
        done.store(true, Ordering::Relaxed);
        sending.join().unwrap()
    });
    for ship in 0..2 {
        wait_for("all reports", || place.listed(ship).len() >= sent.into());
        let expected: Vec<_> = (1..=sent).map(|number| (number, text(ship, number))).collect();
        assert_eq!(place.listed(ship), expected);
    }
    gatewayd.end();
    println!("{sent} reports of each of two ships over six new starts");
}

struct SetAtEnd<'a>(&'a AtomicBool);

impl Drop for SetAtEnd<'_> {
    fn drop(&mut self) {
        self.0.store(true, Ordering::Relaxed);
    }
}

fn free_address() -> SocketAddr {
    std::net::UdpSocket::bind("127.0.0.1:0").unwrap().local_addr().unwrap()
}

/// Reports of a ship until it is enough; gives how many. Those that are not in the store yet are sent again, and some that are.
fn sail(bearer: &mut Bearer, place: &Place, enough: impl Fn() -> bool) -> u16 {
    bearer.shake_hands();
    let (mut next, mut last) = (1, u16::MAX);
    let mut progress = (0, Instant::now());
    loop {
        bearer.hear(Duration::from_micros(100));
        let listed: BTreeSet<u16> =
            place.listed(bearer.ship.index).into_iter().map(|(number, _)| number).collect();
        if listed.len() > progress.0 {
            progress = (listed.len(), Instant::now());
        }
        assert!(progress.1.elapsed() < Duration::from_secs(60), "reports are missing for good");
        let missing = (1..next).find(|number| !listed.contains(number)).unwrap_or(next);
        if last == u16::MAX && enough() {
            last = next.max(40);
        }
        if missing > last {
            return last;
        }
        if next <= last && next < missing + 20 {
            let datagram = bearer.ship.data_behind_finished(next);
            bearer.send(&datagram);
            next += 1;
        }
        for number in next.saturating_sub(24).max(1)..next {
            if !listed.contains(&number) || bearer.rng.percent(5) {
                let datagram = bearer.ship.data_behind_finished(number);
                bearer.send(&datagram);
            }
        }
        thread::sleep(Duration::from_millis(bearer.rng.between(1, 20) as u64));
    }
}
