//! The attacks on routes, from outside and with default options. In each there is a second ship,
//! which nobody attacks; and the reports of both must arrive.

mod common;

use common::{signal, text, wait_for, Gatewayd, Place, Ship};
use std::net::{SocketAddr, UdpSocket};
use std::time::{Duration, Instant};

const ANY: &str = "127.0.0.1:0";
const REPORTS: u16 = 20;

/// A gateway with two ships that are not heard yet.
struct Scene {
    place: Place,
    gatewayd: Gatewayd,
    ship: Ship,
    other: Ship,
}

impl Scene {
    fn new(name: &str) -> Scene {
        Scene::listening(name, ANY)
    }

    fn listening(name: &str, listen: &str) -> Scene {
        let place = Place::new(name);
        place.plant(8);
        let gatewayd = Gatewayd::start(&place, listen, &[]);
        let to = SocketAddr::from(([127, 0, 0, 1], gatewayd.address.port()));
        let ship = Ship::new(0, to);
        let other = Ship::new(1, to);
        Scene { place, gatewayd, ship, other }
    }

    /// Each report of both ships is sent once, and must be listed.
    fn report(&self, numbers: std::ops::RangeInclusive<u16>) {
        let before = [0, 1].map(|ship| self.place.listed(ship).len());
        for number in numbers.clone() {
            for ship in [&self.ship, &self.other] {
                ship.send(&ship.data(number));
            }
            std::thread::sleep(Duration::from_millis(1));
        }
        for ship in [0, 1] {
            wait_for("all reports", || {
                self.place.listed(ship).len() >= before[ship] + numbers.len()
            });
            let expected: Vec<_> =
                numbers.clone().map(|number| (number, text(ship, number))).collect();
            assert_eq!(self.place.listed(ship)[before[ship]..], expected);
        }
    }

    /// The tallies of both ships, which nothing here spoils.
    fn end(self, forged: usize) {
        let tallies = self.gatewayd.end();
        for ship in ["ship 0", "ship 1"] {
            let line = tallies.lines().find(|line| line.ends_with(ship)).unwrap();
            assert!(line.contains("\topen\t"), "{tallies}");
            assert_eq!(line.split('\t').nth(1), Some(&forged.to_string()[..]), "{tallies}");
        }
    }
}

/// Somebody who knows no key.
fn stranger(scene: &Scene) -> UdpSocket {
    let socket = UdpSocket::bind("127.0.0.1:0").unwrap();
    socket.connect(scene.gatewayd.address).unwrap();
    socket.set_read_timeout(Some(Duration::from_secs(5))).unwrap();
    socket
}

#[test]
fn a_new_address() {
    let mut scene = Scene::new("new-address");
    scene.ship.open(1);
    scene.other.open(1);
    scene.report(1..=REPORTS);
    // Another port, another host, and back.
    for (turn, host) in ["127.0.0.1:0", "127.0.0.9:0", "127.0.0.1:0"].into_iter().enumerate() {
        scene.ship.move_to(host);
        let first = REPORTS * (turn as u16 + 1) + 1;
        scene.report(first..=first + REPORTS - 1);
    }
    scene.end(0);
}

/// The hello of the ship, replayed by somebody else, who also brings the ship's Finished.
#[test]
fn an_overheard_hello() {
    let mut scene = Scene::new("overheard");
    scene.other.open(1);
    scene.ship.shake_hands(1);
    let hello = scene.ship.unit.clear(
        peer::wire::Content::Handshake,
        false,
        0,
        scene.ship.unit.last_hello(),
    );
    let stranger = stranger(&scene);
    stranger.send(&hello).unwrap();
    let mut buffer = [0; 2048];
    let size = stranger.recv(&mut buffer).unwrap();
    assert_eq!(buffer[9..25], scene.ship.random[..], "the same reply of {size} bytes");
    let flight = scene.ship.unit.flight().unwrap();
    stranger.send(&flight).unwrap();
    scene.ship.send(&flight);
    scene.report(1..=REPORTS);
    // Whatever he sends again, the reports go on.
    for number in 1..=REPORTS {
        stranger.send(&scene.ship.data(number)).unwrap();
        stranger.send(&hello).unwrap();
    }
    scene.report(REPORTS + 1..=2 * REPORTS);
    scene.end(0);
}

/// Hellos that name other ships, from the address of this one.
#[test]
fn forged_hellos_at_a_ships_address() {
    let mut scene = Scene::new("forged-hellos");
    scene.other.open(1);
    for named in 2..8 {
        scene.ship.send(&Ship::new(named, scene.gatewayd.address).hello(9));
    }
    scene.ship.open(1);
    for named in 2..8 {
        scene.ship.send(&Ship::new(named, scene.gatewayd.address).hello(8));
    }
    scene.ship.hear(Duration::from_millis(50));
    scene.report(1..=REPORTS);
    scene.end(0);
}

/// Hellos that name the ship, from three addresses and 100 a second, while it shakes hands with
/// round trips of 0.6 s.
#[test]
fn hellos_during_a_slow_handshake() {
    let mut scene = Scene::new("slow-handshake");
    scene.other.open(1);
    let strangers = ["127.0.0.2:0", "127.0.0.3:0", "127.0.0.4:0"].map(|host| {
        let socket = UdpSocket::bind(host).unwrap();
        socket.connect(scene.gatewayd.address).unwrap();
        socket
    });
    let address = scene.gatewayd.address;
    let mut random = 100;
    let mut attack = |time: Duration| {
        let start = Instant::now();
        while start.elapsed() < time {
            random = 100 + random % 100;
            for socket in &strangers {
                socket.send(&Ship::new(0, address).hello(random)).unwrap();
            }
            random += 1;
            std::thread::sleep(Duration::from_millis(30));
        }
    };
    attack(Duration::from_millis(300));
    let hello = scene.ship.hello(1);
    scene.ship.send(&hello);
    attack(Duration::from_millis(600));
    assert!(scene.ship.hear(Duration::from_millis(200)), "no reply");
    scene.ship.send(&scene.ship.unit.flight().unwrap());
    attack(Duration::from_millis(300));
    scene.report(1..=REPORTS);
    scene.end(0);
}

/// Two ships shake hands behind one relay, and each sends change cipher spec and Finished in datagrams of
/// their own: both open, whichever said hello last. A third, elsewhere, reports as before.
#[test]
fn two_handshakes_behind_one_relay() {
    let mut scene = Scene::new("one-relay");
    let mut third = Ship::new(2, scene.gatewayd.address);
    third.open(1);
    let relay = stranger(&scene);
    for ship in [&mut scene.ship, &mut scene.other] {
        ship.socket = relay.try_clone().unwrap();
        let hello = ship.hello(1);
        ship.send(&hello);
        let mut buffer = [0; 2048];
        let size = ship.socket.recv(&mut buffer).unwrap();
        ship.unit.hear_reply(&buffer[..size]).unwrap();
    }
    let ships = [&scene.ship, &scene.other];
    for ship in ships {
        ship.send(&ship.unit.clear(peer::wire::Content::ChangeCipherSpec, true, 1, &[1]));
    }
    for ship in ships {
        ship.send(&ship.unit.finished(false, 0).unwrap());
    }
    scene.report(1..=REPORTS);
    third.send(&third.data(1));
    wait_for("the third ship's report", || scene.place.listed(2).len() == 1);
    scene.end(0);
}

/// Routes that were saved hold for each way of listening.
#[test]
fn another_way_of_listening() {
    // A port that nobody has at any address.
    let mut scene = Scene::listening("listening", "0.0.0.0:0");
    scene.ship.open(1);
    scene.other.open(1);
    scene.report(1..=REPORTS);
    let port = scene.gatewayd.address.port();
    for (turn, listen) in [format!("[::]:{port}"), format!("0.0.0.0:{port}")].iter().enumerate() {
        signal(&scene.gatewayd.child, "TERM");
        assert_eq!(scene.gatewayd.child.wait().unwrap().code(), Some(0));
        scene.gatewayd = Gatewayd::start(&scene.place, listen, &[]);
        let first = REPORTS * (turn as u16 + 1) + 1;
        scene.report(first..=first + REPORTS - 1);
    }
    let place = &scene.place;
    let log = std::fs::read_to_string(place.path.join("log")).unwrap();
    assert!(!log.contains("no ship's"), "{log}");
    scene.end(0);
}

/// A ship that has lost its state comes back by its hello, soon after it fell silent, and until it
/// is open the old connection goes on.
#[test]
fn a_ship_that_lost_its_state() {
    let mut scene = Scene::new("lost-state");
    scene.ship.open(1);
    scene.other.open(1);
    scene.report(1..=REPORTS);
    let before = std::mem::replace(&mut scene.ship, Ship::new(0, scene.gatewayd.address));
    let start = Instant::now();
    scene.ship.shake_hands(2);
    let waited = start.elapsed();
    assert!(waited < Duration::from_secs(12), "{waited:?}");
    before.send(&before.data(REPORTS + 1));
    wait_for("the report of before", || scene.place.listed(0).len() == usize::from(REPORTS) + 1);
    // The hello of the handshake under way, once more, is no new one: the same reply.
    let hello = scene.ship.hello(2);
    scene.ship.send(&hello);
    assert!(
        scene.ship.hear(Duration::from_secs(1)),
        "no reply to the hello of a handshake under way"
    );
    scene.ship.send(&scene.ship.unit.flight().unwrap());
    scene.report(100..=100 + REPORTS);
    scene.end(0);
}
