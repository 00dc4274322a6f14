//! Floods of each kind. At 20,000 datagrams a second of it a ship's reports arrive; as fast as it can
//! be sent, memory, disk and log keep their bounds, and afterwards all is as before.

mod common;

use common::{identifier, store_size, text, Gatewayd, Place, Ship};
use peer::keys::Kind;
use peer::rng::Rng;
use peer::unit::{Hello, Unit};
use std::fs;
use std::net::{SocketAddr, UdpSocket};
use std::sync::atomic::{AtomicBool, AtomicUsize, Ordering};
use std::thread;
use std::time::{Duration, Instant};

const HOSTS: usize = 300;
const EACH_SECOND: usize = 20_000;
/// Few enough that the system drops none.
const HELLOS_EACH_SECOND: usize = 2_000;
const REPORTS: u16 = 100;
const AT_FULL_SPEED: Duration = Duration::from_secs(1);

/// One after the other: on a small machine each needs it for itself.
#[test]
fn floods() {
    withstands("garbage", garbage, false);
    withstands("unknown hellos", unknown_hello, false);
    withstands("hellos of planted ships", hello, false);
    withstands("protected garbage", protected, false);
    withstands("protected garbage, eight records each", eight_records, false);
    withstands("protected garbage at the ship's address", protected, true);
    hellos_cost_an_open_ship_nothing();
}

/// Strangers say hello in the name of a ship that reports: its list is whole. Then it reboots among them, and is back.
fn hellos_cost_an_open_ship_nothing() {
    let place = Place::new("hellos");
    place.plant(2);
    let gatewayd = Gatewayd::start(&place, "127.0.0.1:0", &[]);
    let address = gatewayd.address;
    let mut ship = Ship::new(0, address);
    ship.open(1);
    let sockets = (0..HOSTS).map(stranger).collect();
    let flood = Flood { address, datagram: of_the_first, sockets, done: AtomicBool::new(false) };
    let mut rebooted = Ship::new(0, address);
    let each_second = flood.beside(Some(HELLOS_EACH_SECOND), || {
        for number in 1..=REPORTS {
            ship.send(&ship.data(number));
            thread::sleep(Duration::from_millis(10));
        }
        common::wait_for("all reports", || place.listed(0).len() == usize::from(REPORTS));
        rebooted.shake_hands(2);
        rebooted.send(&rebooted.data_behind_finished(1));
        for number in 2..=REPORTS {
            rebooted.send(&rebooted.data(number));
            thread::sleep(Duration::from_millis(10));
        }
        common::wait_for("its reports", || place.listed(0).len() == 2 * usize::from(REPORTS));
    });
    println!("hellos of the ship that reports: at {each_second}/s all of {REPORTS} reports, twice");
    let once: Vec<_> = (1..=REPORTS).map(|number| (number, text(0, number))).collect();
    assert_eq!(place.listed(0), [&once[..], &once].concat());
    gatewayd.end();
}

fn withstands(name: &str, datagram: fn(&mut Rng) -> Vec<u8>, at_its_address: bool) {
    let place = Place::new("flood");
    place.plant(8);
    let started = Instant::now();
    let gatewayd = Gatewayd::start(&place, "127.0.0.1:0", &[]);
    let address = gatewayd.address;
    let mut ships: Vec<Ship> = (0..6).map(|index| Ship::new(index, address)).collect();
    ships.iter_mut().for_each(|ship| ship.open(1));
    let ship = &ships[0];
    let sockets = match at_its_address {
        true => vec![ship.socket.try_clone().unwrap()],
        false => (0..HOSTS).map(stranger).collect(),
    };
    let flood = Flood { address, datagram, sockets, done: AtomicBool::new(false) };

    let slow = flood.beside(Some(EACH_SECOND), || {
        for number in 1..=REPORTS {
            ship.send(&ship.data(number));
            thread::sleep(Duration::from_millis(10));
        }
        thread::sleep(Duration::from_millis(200));
    });
    let listed = worked_off(&place);
    let before = Used::of(&gatewayd);
    let fast = flood.beside(None, || thread::sleep(AT_FULL_SPEED));
    let after = Used::of(&gatewayd);
    let (store, log) = (store_size(&place.state()), place.path.join("log"));
    let log = fs::metadata(log).unwrap().len();
    arrives(&place, ship);
    println!(
        "{name}: at {slow}/s {listed} of {REPORTS} reports; at {fast}/s {:.0} % of a processor, \
         memory {} kB, then {} kB; store {store}, log {log} bytes",
        100.0 * (after.seconds - before.seconds) / AT_FULL_SPEED.as_secs_f64(),
        before.memory,
        after.memory
    );
    let expected: Vec<_> =
        place.listed(0).iter().map(|report| (report.0, text(0, report.0))).collect();
    assert_eq!(place.listed(0), expected);
    assert!(listed >= 90, "{name}: {listed} of {REPORTS} reports");
    // 4,096 datagrams may wait, and no more.
    assert!(after.memory < before.memory + 10_000, "{name}: memory");
    assert!(store < 9 << 20, "{name}: store of {store} bytes");
    assert!(log < 20_000, "{name}: log of {log} bytes");
    gatewayd.end();
    let log = fs::read_to_string(place.path.join("log")).unwrap();
    Work::told(&log).is_bounded(name, started.elapsed(), at_its_address);
}

/// What the gateway has done for the datagrams that it took, as it tells at its end.
struct Work {
    datagrams: f64,
    trials: f64,
    codes: f64,
    hellos: f64,
}

impl Work {
    fn told(log: &str) -> Work {
        let line = log.lines().find(|line| line.contains(" datagrams taken, ")).unwrap();
        let counts: Vec<f64> = line.split(' ').filter_map(|word| word.parse().ok()).collect();
        let [datagrams, trials, codes, hellos] = counts[..] else { panic!("{line}") };
        Work { datagrams, trials, codes, hellos }
    }

    /// In counts, whatever the machine. The budgets are of so much a second, and a second's worth is saved up; beside them a datagram
    /// from a ship's own address is tried on that ship, and those of the six ships themselves, some hundreds, on what is there.
    fn is_bounded(&self, name: &str, lived: Duration, at_its_address: bool) {
        let Work { datagrams, trials, codes, hellos } = self;
        println!("{name}: {datagrams} datagrams taken: {trials} trials, {codes} codes, {hellos} hellos answered");
        let seconds = lived.as_secs_f64() + 1.0;
        let always = if at_its_address { *datagrams } else { 0.0 };
        let most = always + 32_000.0 * seconds + 8.0 * 1_000.0;
        assert!(*trials <= most, "{name}: {trials} trials in {lived:?}");
        assert!(*codes <= most, "{name}: {codes} codes in {lived:?}");
        assert!(*hellos <= 4_080.0 * seconds, "{name}: {hellos} hellos answered in {lived:?}");
    }
}

/// How many reports are listed when what waits is worked off, on a slow machine, too.
fn worked_off(place: &Place) -> usize {
    for _ in 0..50 {
        if place.listed(0).len() == usize::from(REPORTS) {
            break;
        }
        thread::sleep(Duration::from_millis(100));
    }
    place.listed(0).len()
}

/// After the flood: as soon as what waits is worked off, a report that is sent once is listed.
fn arrives(place: &Place, ship: &Ship) {
    let start = Instant::now();
    for number in REPORTS + 1.. {
        ship.send(&ship.data(number));
        thread::sleep(Duration::from_millis(20));
        if place.listed(0).iter().any(|report| report.0 == number) {
            return;
        }
        assert!(start.elapsed() < Duration::from_secs(20), "no report arrives after the flood");
    }
}

struct Flood {
    address: SocketAddr,
    datagram: fn(&mut Rng) -> Vec<u8>,
    sockets: Vec<UdpSocket>,
    done: AtomicBool,
}

impl Flood {
    /// Floods while something else is done; so many a second, or as many as can be sent. Gives how
    /// many a second it were.
    fn beside(&self, each_second: Option<usize>, other: impl FnOnce()) -> usize {
        self.done.store(false, Ordering::Relaxed);
        let sent = AtomicUsize::new(0);
        let mut rng = Rng::new(5);
        // Made before: making one takes longer than sending it.
        let made: Vec<Vec<u8>> = (0..20_000).map(|_| (self.datagram)(&mut rng)).collect();
        let start = Instant::now();
        thread::scope(|scope| {
            // At full speed by two, or FLOOD_SENDERS: one alone sends too little.
            let senders = std::env::var("FLOOD_SENDERS").ok().and_then(|count| count.parse().ok());
            for _ in 0..if each_second.is_some() { 1 } else { senders.unwrap_or(2) } {
                scope.spawn(|| self.send(&made, each_second, &sent));
            }
            other();
            self.done.store(true, Ordering::Relaxed);
        });
        (sent.into_inner() as f64 / start.elapsed().as_secs_f64()) as usize
    }

    fn send(&self, made: &[Vec<u8>], each_second: Option<usize>, sent: &AtomicUsize) {
        let start = Instant::now();
        for turn in 0.. {
            if self.done.load(Ordering::Relaxed) {
                return;
            }
            let socket = &self.sockets[turn % self.sockets.len()];
            if socket.send_to(&made[turn % made.len()], self.address).is_ok() {
                sent.fetch_add(1, Ordering::Relaxed);
            }
            if let Some(each_second) = each_second.filter(|_| turn % 20 == 0) {
                let due = Duration::from_secs_f64(turn as f64 / each_second as f64);
                thread::sleep(due.saturating_sub(start.elapsed()));
            }
        }
    }
}

/// Each on a host of its own.
fn stranger(n: usize) -> UdpSocket {
    UdpSocket::bind((std::net::Ipv4Addr::new(127, 1, (n / 250) as u8, (n % 250) as u8 + 1), 0))
        .unwrap()
}

/// Random bytes, records that are none, alerts, data in the clear.
fn garbage(rng: &mut Rng) -> Vec<u8> {
    let size = rng.between(0, 400);
    let mut datagram = rng.bytes(size);
    if let Some(first) = datagram.first_mut() {
        *first = rng.pick(&[0x43, 0x64, 0xc3, 0x41, *first]);
    }
    datagram
}

fn unknown_hello(rng: &mut Rng) -> Vec<u8> {
    named(rng, &[0xee; 8])
}

/// Of ships that are open, and of ships that are not.
fn hello(rng: &mut Rng) -> Vec<u8> {
    let id = identifier(rng.under(8));
    named(rng, &id)
}

fn of_the_first(rng: &mut Rng) -> Vec<u8> {
    named(rng, &identifier(0))
}

fn named(rng: &mut Rng, id: &[u8; 8]) -> Vec<u8> {
    let message = Hello::plain(&rng.bytes(16), id, Kind::Sha80, 3).message();
    Unit::new(id, &[0; 20]).say_hello(&message)
}

/// A sound record with a wrong code, which asks for trials; some as a Finished.
fn protected(rng: &mut Rng) -> Vec<u8> {
    let size = rng.between(20, 100);
    let kind = rng.pick(&[0x64, 0x64, 0x63]);
    [&[kind, 0, rng.under(200) as u8][..], &rng.bytes(size)].concat()
}

/// The same with as many records as a datagram may have.
fn eight_records(rng: &mut Rng) -> Vec<u8> {
    let mut record = || peer::wire::write(0xe4, rng.under(200) as u16, &rng.bytes(20));
    (0..8).flat_map(|_| record()).collect()
}

/// What the gateway has used so far.
struct Used {
    memory: u64,
    seconds: f64,
}

impl Used {
    fn of(gatewayd: &Gatewayd) -> Used {
        let id = gatewayd.child.id();
        let status = fs::read_to_string(format!("/proc/{id}/status")).unwrap();
        let line = status.lines().find(|line| line.starts_with("VmRSS:")).unwrap();
        let memory = line.split_whitespace().nth(1).unwrap().parse().unwrap();
        let stat = fs::read_to_string(format!("/proc/{id}/stat")).unwrap();
        let fields: Vec<&str> = stat.rsplit(')').next().unwrap().split_whitespace().collect();
        // User and system time, in hundredths of a second.
        let ticks: f64 = fields[11..13].iter().map(|ticks| ticks.parse::<f64>().unwrap()).sum();
        Used { memory, seconds: ticks / 100.0 }
    }
}
