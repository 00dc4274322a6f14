//! What the gateway does around the library: routes, silence, warnings, barred sessions.

mod common;

use common::{identifier, name, secret, Place, Ship};
use gateway::{Refusal, State};
use gatewayd::clock::Moment;
use gatewayd::fleet::{Fleet, Rules, Taken};
use gatewayd::note::Note;
use gatewayd::refusals::Counts;
use gatewayd::sessions::Session;
use gatewayd::store::row::Clocks;
use gatewayd::store::{Outcome, Start, Store};
use gatewayd::way::Way;
use peer::keys::Kind;
use peer::unit::Hello;
use peer::wire::Content;
use std::collections::BTreeSet;
use std::net::SocketAddr;
use std::time::{Duration, Instant};

fn address(last: u8) -> SocketAddr {
    SocketAddr::from(([192, 0, 2, last], 4000))
}

struct World {
    fleet: Fleet,
    start: Instant,
    random: u64,
}

fn way(sender: SocketAddr) -> Way {
    Way { sender, ours: Some([192, 0, 2, 200].into()) }
}

impl World {
    fn new(ships: usize) -> World {
        World::with(ships, None)
    }

    fn with(ships: usize, hint_every: Option<u64>) -> World {
        let start = Instant::now();
        let session = |ship| Session {
            id: identifier(ship),
            secret: secret(ship),
            width: 32,
            ship: name(ship),
        };
        let ships =
            (0..ships).map(|ship| gatewayd::ship::Ship::fresh(session(ship), start).unwrap());
        let rules = Rules {
            warn_every: Duration::from_secs(60),
            hint_every: hint_every.map(Duration::from_secs),
        };
        World { fleet: Fleet::new(ships.collect(), rules), start, random: 0 }
    }

    fn take(&mut self, from: u8, datagram: &[u8], second: u64) -> Taken {
        self.take_at(address(from), datagram, Duration::from_secs(second))
    }

    fn take_at(&mut self, from: SocketAddr, datagram: &[u8], at: Duration) -> Taken {
        self.random += 1;
        let random = u128::from(self.random).to_be_bytes();
        self.fleet.take(way(from), datagram, &random, self.start + at)
    }

    /// Says hello, and hears the reply.
    fn greet(&mut self, ship: &mut Ship, random: u8, from: u8, second: u64) {
        let hello = ship.hello(random);
        let taken = self.take(from, &hello, second);
        assert!(taken.changed && taken.notes == [Note::Answered]);
        assert_eq!(taken.send[0].0, way(address(from)));
        ship.unit.hear_reply(&taken.send[0].1).unwrap();
    }

    fn open(&mut self, ship: &mut Ship, from: u8) {
        self.greet(ship, 1, from, 0);
        assert!(self.take(from, &ship.unit.flight().unwrap(), 0).changed);
        assert_eq!(self.state(ship.index), State::Open);
        assert_eq!(self.route(ship.index), Some(address(from)));
    }

    fn state(&self, ship: usize) -> State {
        self.fleet.ships[ship].connection.state()
    }

    fn route(&self, ship: usize) -> Option<SocketAddr> {
        self.fleet.ships[ship].route
    }
}

fn ship(index: usize) -> Ship {
    Ship::new(index, "127.0.0.1:9".parse().unwrap())
}

fn refusals(taken: &Taken) -> Vec<u8> {
    let number = |note: &Note| match note {
        Note::Refused { refusal, .. } | Note::RefusedWhole { refusal, .. } => {
            Some(refusal.number())
        }
        _ => None,
    };
    taken.notes.iter().filter_map(number).collect()
}

#[test]
fn strangers_reach_nobody() {
    let mut world = World::new(1);
    let mut unit = ship(0);
    world.open(&mut unit, 1);
    let mut forged = unit.data(1);
    forged[7] ^= 1;
    let taken = world.take(2, &forged, 0);
    assert_eq!((taken.notes, taken.changed, taken.ship), (vec![Note::Stranger], false, None));
    assert_eq!(world.fleet.ships[0].tally.forged(), 0);
    let mut other = ship(7);
    assert_eq!(world.take(2, &other.hello(1), 0).notes, [Note::UnknownSession]);
    assert_eq!(world.take(2, &[], 0).notes, [Note::Stranger]);
    assert_eq!(world.take(1, &forged, 0).ship, Some(0));
    assert_eq!(world.fleet.ships[0].tally.forged(), 1);
    assert_eq!(world.take(1, &unit.data(1), 0).reports.len(), 1);
}

/// The sender of the last genuine new record, from wherever; a replay moves nothing.
#[test]
fn the_route_follows_the_key() {
    let mut world = World::new(2);
    let (mut unit, mut other) = (ship(0), ship(1));
    world.open(&mut unit, 1);
    world.open(&mut other, 9);
    for (number, from) in [(1, 1), (2, 2), (3, 3), (4, 9), (5, 1)] {
        let data = unit.data(number);
        let taken = world.take(from, &data, 0);
        assert_eq!((taken.ship, taken.reports.len(), taken.changed), (Some(0), 1, true));
        assert_eq!(world.route(0), Some(address(from)));
        // Whoever sends it again is nobody.
        let replayed = world.take(7, &data, 0);
        assert_eq!((refusals(&replayed), replayed.changed), (vec![11], false));
        assert_eq!(world.route(0), Some(address(from)));
        assert_eq!(world.take(9, &other.data(number), 0).reports.len(), 1);
    }
    assert_eq!(world.fleet.ships[1].tally.forged(), 0);
}

/// A hello beside an open connection is answered, and neither that nor silence touches it.
#[test]
fn a_strangers_hello_moves_no_route_and_silence_closes_nothing() {
    let mut world = World::new(1);
    let mut unit = ship(0);
    world.open(&mut unit, 1);
    for second in [0, 99] {
        let before = world.fleet.ships[0].connection.clone();
        let hello = ship(0).hello(2);
        let taken = world.take(2, &hello, second);
        assert_eq!((&taken.notes[..], taken.send.len()), (&[Note::Answered][..], 1));
        assert_eq!(taken.send[0].0, way(address(2)));
        assert!(before == world.fleet.ships[0].connection);
    }
    assert_eq!((world.route(0), world.state(0)), (Some(address(1)), State::Open));
    let year = 365 * 86_400;
    assert_eq!(world.take(1, &unit.data(1), year).reports.len(), 1);
}

/// A hello that somebody overheard gets its reply again, and that moves nothing: the ship's own
/// Finished opens, and if the stranger brings it first, the ship's next record has the route.
#[test]
fn an_overheard_hello() {
    for relayed in [false, true] {
        let mut world = World::new(1);
        let mut unit = ship(0);
        let hello = unit.hello(1);
        let reply = world.take(1, &hello, 0).send.remove(0).1;
        unit.unit.hear_reply(&reply).unwrap();
        for _ in 0..10 {
            let replayed = world.take(2, &hello, 0);
            assert_eq!(
                (&replayed.send, replayed.changed),
                (&vec![(way(address(2)), reply.clone())], false)
            );
        }
        assert_eq!(world.route(0), None);
        let flight = unit.unit.flight().unwrap();
        if relayed {
            assert!(world.take(2, &flight, 0).changed);
            assert_eq!((world.route(0), world.state(0)), (Some(address(2)), State::Open));
            // The Finished from the ship itself is a repeated one. The warning goes to the route.
            let repeated = world.take(1, &flight, 0);
            assert_eq!(refusals(&repeated), [8, 11]);
            assert_eq!(repeated.send[0].0, way(address(2)));
        } else {
            assert!(world.take(1, &flight, 0).changed);
        }
        assert_eq!(world.take(1, &unit.data(1), 0).reports.len(), 1);
        assert_eq!((world.route(0), world.state(0)), (Some(address(1)), State::Open));
        // From now on that hello gets its reply and starts nothing, however silent the ship is.
        let late = world.take(2, &hello, 1_000_000);
        assert_eq!((&late.send, late.changed), (&vec![(way(address(2)), reply)], false));
        assert!(world.fleet.ships[0].started.is_empty());
        assert_eq!((world.route(0), world.state(0)), (Some(address(1)), State::Open));
        assert_eq!(world.take(1, &unit.data(2), 1_000_000).reports.len(), 1);
    }
}

/// A ship whose address changes between its hello and its Finished.
#[test]
fn a_ship_that_moves_in_its_handshake() {
    let mut world = World::new(3);
    let (mut unit, mut other) = (ship(0), ship(1));
    world.greet(&mut other, 1, 8, 0);
    world.greet(&mut unit, 1, 1, 0);
    world.greet(&mut ship(2), 1, 9, 0);
    let taken = world.take(2, &unit.data_behind_finished(1), 0);
    assert_eq!((taken.ship, taken.reports.len()), (Some(0), 1));
    assert_eq!((world.route(0), world.state(0)), (Some(address(2)), State::Open));
    assert_eq!(world.fleet.ships[1].started.len(), 1);
}

/// A hello with change cipher spec behind it.
#[test]
fn a_hello_with_more_behind_it() {
    let mut world = World::new(1);
    let mut unit = ship(0);
    unit.hello(1);
    let hello = unit.unit.clear(Content::Handshake, true, 0, unit.unit.last_hello());
    let change = unit.unit.clear(Content::ChangeCipherSpec, true, 1, &[1]);
    let taken = world.take(1, &[hello, change].concat(), 0);
    unit.unit.hear_reply(&taken.send[0].1).unwrap();
    assert!(world.take(1, &unit.unit.finished(false, 0).unwrap(), 0).changed);
    assert_eq!(world.state(0), State::Open);
}

/// Change cipher spec and Finished in datagrams of their own; a clear alert ends only the handshake
/// of its own sender.
#[test]
fn clear_records_touch_the_handshake_of_their_sender_only() {
    let mut world = World::new(1);
    let mut unit = ship(0);
    world.greet(&mut unit, 1, 1, 0);
    let mut stranger = ship(0);
    let hello = stranger.hello(2);
    let reply = world.take(2, &hello, 0).send.remove(0).1;
    let last = &reply[reply.len() - 28..];
    assert_eq!(last[0], 0x63);
    let alert = [&[0x42, 0, 2, 2, 0][..], &peer::alert::checksum(last)].concat();
    let taken = world.take(2, &alert, 0);
    let note = Note::ClosedInClear { description: 0, so_far: 1 };
    assert!(taken.notes.contains(&note), "{:?}", taken.notes);
    assert_eq!(world.fleet.ships[0].started.len(), 1);
    assert_eq!(world.take(3, &alert, 0).notes, [Note::Stranger]);
    let change = unit.unit.clear(Content::ChangeCipherSpec, true, 1, &[1]);
    assert!(world.take(1, &change, 0).changed);
    assert!(world.take(1, &unit.unit.finished(false, 0).unwrap(), 0).changed);
    assert_eq!(world.state(0), State::Open);
}

/// Many others say the same hello: the ship's own address is not pushed out by them.
#[test]
fn an_overheard_hello_said_by_many() {
    let mut world = World::new(1);
    let mut unit = ship(0);
    world.greet(&mut unit, 1, 1, 0);
    let hello = unit.unit.say_hello(&unit.unit.last_hello().to_vec());
    for other in 2..200 {
        assert!(!world.take(other, &hello, 0).changed);
    }
    assert!(world.fleet.ships[0].started[0].senders.contains(&address(1)));
    assert!(world.fleet.ships[0].started[0].senders.len() <= 8);
    assert!(world.take(1, &unit.unit.flight().unwrap(), 0).changed);
    assert_eq!(world.state(0), State::Open);
}

/// Whoever else says hello, a handshake under way can be finished; and the ship can start one.
#[test]
fn handshakes_under_fire() {
    let mut world = World::new(1);
    let mut unit = ship(0);
    // A stranger on seven hosts, as often as he likes, before and behind the ship's hello.
    let stranger = |world: &mut World, from: u8, second: u64| {
        for random in 100..200 {
            world.take(from, &ship(0).hello(random), second);
        }
    };
    for from in [2, 2, 3, 4, 5, 6, 7, 8] {
        stranger(&mut world, from, 0);
    }
    world.greet(&mut unit, 1, 1, 0);
    for from in 2..9 {
        stranger(&mut world, from, 1);
    }
    assert_eq!(world.fleet.ships[0].started.len(), 8);
    assert!(world.take(1, &unit.unit.flight().unwrap(), 7).changed);
    assert_eq!((world.state(0), world.route(0)), (State::Open, Some(address(1))));
    // It closes, and hundreds of addresses say hello; from its own host it comes back at once.
    world.take(1, &unit.alert(2, 0, 1), 7);
    for from in 2..200 {
        world.take(from, &ship(0).hello(from), 8);
    }
    let mut again = ship(0);
    world.greet(&mut again, 250, 1, 8);
    for from in 2..200 {
        world.take(from, &ship(0).hello(from), 9);
    }
    assert!(world.take(1, &again.unit.flight().unwrap(), 9).changed);
    assert_eq!(world.state(0), State::Open);
}

/// Handshakes beyond the hold give way, and there are never more than the bound.
#[test]
fn room_for_handshakes_is_bounded() {
    let mut world = World::new(1);
    for from in 1..9 {
        world.greet(&mut ship(0), from, from, 0);
    }
    let mut late = ship(0);
    let hello = late.hello(100);
    let taken = world.take(100, &hello, 7);
    assert_eq!((&taken.notes[..], taken.changed), (&[Note::HelloPassedOver][..], false));
    assert!(taken.send.is_empty());
    world.greet(&mut late, 100, 100, 8);
    assert_eq!(world.fleet.ships[0].started.len(), 8);
    assert!(world.take(100, &late.unit.flight().unwrap(), 8).changed);
    assert_eq!(world.state(0), State::Open);
}

#[test]
fn room_for_the_handshakes_of_all_ships() {
    let ships = 5000;
    let mut world = World::new(ships);
    let started =
        |world: &World| -> usize { world.fleet.ships.iter().map(|ship| ship.started.len()).sum() };
    let at = Duration::from_millis(1);
    let mut passed_over = 0;
    for index in 0..ships {
        let from = SocketAddr::from(((index as u32).to_be_bytes(), 4000));
        let taken = world.take_at(from, &ship(index).hello(1), at);
        passed_over += usize::from(taken.notes == [Note::HelloPassedOver]);
    }
    assert_eq!(started(&world) + passed_over, ships);
    assert!(started(&world) <= 4096 && started(&world) >= 3900, "{}", started(&world));
    // Later all of them have had their time.
    for index in 0..ships {
        let from = SocketAddr::from(((index as u32).to_be_bytes(), 4000));
        world.take_at(from, &ship(index).hello(2), Duration::from_secs(8 + index as u64 / 1000));
    }
    assert!(started(&world) <= 4096 && started(&world) >= 3900, "{}", started(&world));
}

/// Hellos answered at one moment: 100 for a host, 4,000 for all, and beside them 10 for each ship from
/// the host of its route.
#[test]
fn hellos_are_budgeted() {
    let mut world = World::new(4500);
    let mut unit = ship(0);
    world.open(&mut unit, 1);
    world.take(1, &unit.alert(2, 0, 1), 0);
    let is_answered = |taken: Taken| !taken.send.is_empty();
    let hello = |index: usize| ship(index).hello(7);
    let one = (1..300).filter(|index| is_answered(world.take(2, &hello(*index), 10))).count();
    assert_eq!(one, 100);
    let from = |index: usize| SocketAddr::from((((10 << 24) + index as u32).to_be_bytes(), 4000));
    let all = (1..4500).filter(|index| {
        is_answered(world.take_at(from(*index), &hello(*index), Duration::from_secs(10)))
    });
    assert_eq!(all.count(), 3900);
    assert!(!is_answered(world.take(3, &hello(0), 10)));
    let again = (0..30).filter(|_| is_answered(world.take(1, &hello(0), 10)));
    assert_eq!(again.count(), 10);
}

/// All places are taken, and none has had its time: only who comes back to his own host gets one.
#[test]
fn a_place_for_a_ship_at_its_own_host() {
    let mut world = World::new(4200);
    let mut unit = ship(0);
    world.open(&mut unit, 1);
    world.take(1, &unit.alert(2, 0, 1), 0);
    for index in 1..4200 {
        let from = SocketAddr::from((((10 << 24) + index as u32).to_be_bytes(), 4000));
        let at = Duration::from_secs(10 + index as u64 / 2000);
        world.take_at(from, &ship(index).hello(1), at);
    }
    let mut again = ship(0);
    assert_eq!(world.take(2, &again.hello(2), 13).notes, [Note::HelloPassedOver]);
    world.greet(&mut again, 3, 1, 13);
    assert!(world.take(1, &again.unit.flight().unwrap(), 13).changed);
    assert_eq!(world.state(0), State::Open);
}

/// Four forged hellos that name other ships, from the ship's own address: nothing happens to it.
#[test]
fn forged_hellos_at_a_ships_address() {
    let mut world = World::new(8);
    let mut unit = ship(0);
    for other in 1..6 {
        assert!(world.take(1, &ship(other).hello(1), 0).changed);
    }
    world.open(&mut unit, 1);
    for other in 1..8 {
        assert!(world.take(1, &ship(other).hello(2), 0).changed);
    }
    assert_eq!(world.take(1, &unit.data(1), 0).reports.len(), 1);
}

/// At once, and from wherever: nobody waits for silence.
#[test]
fn a_rebooted_ship_comes_back_with_a_hello() {
    let mut world = World::new(1);
    let mut unit = ship(0);
    world.open(&mut unit, 1);
    assert_eq!(world.take(1, &unit.data(1), 50).reports.len(), 1);
    // A hello that would get no reply starts nothing.
    let unacceptable = Hello { version: 2, ..Hello::plain(&[3; 16], &identifier(0), Kind::Sha, 0) };
    let unacceptable = ship(0).unit.say_hello(&unacceptable.message());
    assert_eq!(refusals(&world.take(2, &unacceptable, 50)), [13]);
    assert!(world.fleet.ships[0].started.is_empty());

    // The hello is answered beside the open connection, which goes on.
    let mut rebooted = ship(0);
    world.greet(&mut rebooted, 9, 2, 50);
    assert_eq!((world.route(0), world.state(0)), (Some(address(1)), State::Open));
    assert_eq!(world.take(1, &unit.data(2), 50).reports.len(), 1);
    // Its Finished replaces it, from where it comes.
    let taken = world.take(2, &rebooted.data_behind_finished(1), 50);
    assert_eq!((taken.reports.len(), taken.notes), (1, vec![Note::Opened, Note::Replaced]));
    assert_eq!((world.route(0), world.state(0)), (Some(address(2)), State::Open));
    assert_eq!(world.take(1, &unit.data(3), 50).notes, [Note::Stranger]);
    assert_eq!(world.take(2, &rebooted.data(2), 50).reports.len(), 1);
}

/// Twice, and with a stranger's hellos between; what the first reboot wrote comes late.
#[test]
fn a_ship_that_rebooted_twice() {
    for late in [false, true] {
        let mut world = World::new(1);
        let (mut unit, mut first, mut second) = (ship(0), ship(0), ship(0));
        world.open(&mut unit, 1);
        world.greet(&mut first, 2, 1, 1);
        let strangers = |world: &mut World| {
            for from in 3..8 {
                world.take(from, &ship(0).hello(100 + from), 1);
            }
        };
        strangers(&mut world);
        world.greet(&mut second, 3, 1, 1);
        strangers(&mut world);
        assert_eq!(world.take(1, &unit.data(1), 1).reports.len(), 1);
        if late {
            let taken = world.take(1, &first.data_behind_finished(1), 1);
            assert_eq!((taken.reports.len(), taken.notes), (1, vec![Note::Opened, Note::Replaced]));
        }
        let taken = world.take(1, &second.data_behind_finished(1), 2);
        assert_eq!((taken.reports.len(), taken.notes), (1, vec![Note::Opened, Note::Replaced]));
        assert_eq!(world.take(1, &second.data(2), 2).reports.len(), 1);
        assert_eq!(world.route(0), Some(address(1)));
        // What began before it has ended, and opens no more.
        assert!(world.fleet.ships[0].started.is_empty());
        assert!(world.take(1, &first.unit.finished(true, 0).unwrap(), 2).reports.is_empty());
        assert_eq!(world.fleet.ships[0].opening, if late { 3 } else { 2 });
        for before in [&unit, &first] {
            assert_eq!(refusals(&world.take(1, &before.data(9), 2)), [9]);
        }
    }
}

/// A stranger says hello in the name of an open ship, as often as he likes and from anywhere, while
/// it reports: its list is whole, its connection is its own, and it can still reboot.
#[test]
fn hellos_beside_reports_cost_nothing() {
    let mut world = World::new(1);
    let mut unit = ship(0);
    world.open(&mut unit, 1);
    let mut listed = Vec::new();
    for number in 1..=300_u16 {
        let at = Duration::from_millis(100 * u64::from(number));
        for n in 0..40_u32 {
            let from = match n % 4 {
                0 => address(1).ip(),
                1 => address(2).ip(),
                _ => (u32::from(number) * 977 + n).wrapping_mul(2_654_435_769).to_be_bytes().into(),
            };
            let hello = ship(0).hello((n % 250) as u8);
            let taken = world.take_at(SocketAddr::new(from, 5000), &hello, at);
            assert!(taken.reports.is_empty() && taken.send.len() <= 1);
        }
        let taken = world.take_at(address(1), &unit.data(number), at);
        listed.extend(taken.reports.into_iter().map(|report| report.number));
        assert_eq!((world.state(0), world.route(0)), (State::Open, Some(address(1))));
    }
    assert_eq!(listed, (1..=300).collect::<Vec<_>>());
    let tally = world.fleet.ships[0].tally;
    assert_eq!((tally.handed_out(), tally.forged(), tally.repeated()), (300, 0, 0));
    let mut rebooted = ship(0);
    let at = Duration::from_secs(40);
    let reply = world.take_at(address(1), &rebooted.hello(251), at).send.remove(0).1;
    rebooted.unit.hear_reply(&reply).unwrap();
    assert_eq!(world.take_at(address(1), &rebooted.data_behind_finished(1), at).reports.len(), 1);
}

/// Beside an open connection nothing counts under the keys of a handshake but its Finished: an alert
/// is forged, moves no route and bars nothing.
#[test]
fn an_alert_before_its_finished() {
    for level in 1..=3 {
        let mut world = World::new(1);
        let (mut unit, mut rebooted) = (ship(0), ship(0));
        world.open(&mut unit, 1);
        world.greet(&mut rebooted, 2, 2, 0);
        let change = rebooted.unit.clear(Content::ChangeCipherSpec, true, 1, &[1]);
        assert!(world.take(2, &change, 0).changed);
        let taken = world.take(2, &rebooted.alert(level, 40, 1), 0);
        assert_eq!((refusals(&taken), taken.changed), (vec![9], false));
        let tally = world.fleet.ships[0].tally;
        assert_eq!((tally.forged(), world.fleet.ships[0].barred), (1, false));
        assert_eq!((world.route(0), world.state(0)), (Some(address(1)), State::Open));
        assert_eq!(world.take(1, &unit.data(1), 0).reports.len(), 1);
        assert_eq!(world.take(2, &rebooted.data_behind_finished(1), 0).reports.len(), 1);
    }
}

/// Protected records that are nobody's count as the open connection finds them, also from where a
/// handshake was begun beside it.
#[test]
fn forged_records_beside_an_open_connection() {
    let mut world = World::new(1);
    let (mut unit, mut rebooted) = (ship(0), ship(0));
    world.open(&mut unit, 1);
    world.greet(&mut rebooted, 2, 1, 0);
    let forged = |world: &World| world.fleet.ships[0].tally.forged();
    let damaged = |mut datagram: Vec<u8>, place: usize| {
        datagram[place] ^= 1;
        datagram
    };
    // Data of before; a flight whose change cipher spec counts, and neither Finished nor data.
    assert_eq!(refusals(&world.take(1, &damaged(unit.data(1), 9), 0)), [9]);
    assert_eq!(forged(&world), 1);
    let flight = rebooted.data_behind_finished(1);
    assert_eq!(refusals(&world.take(1, &damaged(flight.clone(), 20), 0)), [9, 9]);
    assert_eq!(forged(&world), 3);
    assert_eq!(world.take(1, &unit.data(2), 0).reports.len(), 1);
    // Sound, it opens, and only its data is taken.
    let taken = world.take(1, &damaged(flight.clone(), flight.len() - 1), 0);
    assert_eq!((taken.reports.len(), refusals(&taken)), (0, vec![8, 9]));
    assert_eq!((forged(&world), world.fleet.ships[0].opening), (4, 2));
    assert_eq!(world.take(1, &rebooted.data(2), 0).reports.len(), 1);
}

/// What was begun beside an open connection ends when that is heard, but not before its time: records of before a reboot, and the
/// Finished, may come late.
#[test]
fn handshakes_beside_an_open_connection() {
    for (last, left) in [(3699, 1), (3700, 0)] {
        let mut world = World::new(1);
        let (mut unit, mut rebooted) = (ship(0), ship(0));
        world.open(&mut unit, 1);
        world.greet(&mut rebooted, 9, 2, 100);
        for second in [100, 107, 108, 600, last] {
            assert_eq!(world.take(1, &unit.data(second as u16), second).reports.len(), 1);
        }
        assert_eq!(world.fleet.ships[0].started.len(), left);
        let taken = world.take(2, &rebooted.data_behind_finished(1), last);
        match left {
            1 => assert_eq!((taken.reports.len(), world.route(0)), (1, Some(address(2)))),
            _ => assert_eq!(taken.notes, [Note::Stranger]),
        }
    }
}

/// Beside an open connection each record behind a hello is judged by itself, be the hello new or said again: clear ones are the
/// handshake's, protected ones the open connection's, but for its Finished.
#[test]
fn records_behind_a_hello_beside_an_open_connection() {
    for again in [false, true] {
        let mut world = World::new(1);
        let (mut unit, mut rebooted) = (ship(0), ship(0));
        world.open(&mut unit, 1);
        let hello = rebooted.hello(2);
        let hello = peer::wire::write(0xc3, 0, &hello[3..]);
        if again {
            let reply = world.take(2, &hello, 0).send.remove(0).1;
            rebooted.unit.hear_reply(&reply).unwrap();
        }
        let behind = |records: &[&[u8]]| [&hello[..], &records.concat()].concat();
        let long =
            |record: &[u8]| peer::wire::write(record[0] | 0x80, number_of(record), &record[3..]);
        // A report of the open connection is handed out, and moves the route; the hello is answered.
        let taken = world.take(2, &behind(&[&unit.data(1)]), 0);
        assert_eq!((taken.reports.len(), taken.send.len(), taken.changed), (1, 1, true));
        assert_eq!(taken.notes, [Note::Answered]);
        assert_eq!((world.fleet.ships[0].started.len(), world.route(0)), (1, Some(address(2))));
        let reply = &taken.send[0].1;
        rebooted.unit.hear_reply(reply).unwrap();
        // Damaged, it is forged, once; a second hello has no place there; what follows is still looked at.
        let mut damaged = unit.data(2);
        *damaged.last_mut().unwrap() ^= 1;
        let taken = world.take(1, &behind(&[&hello, &long(&damaged), &unit.data(3)]), 0);
        let refused = |refusal, record| Note::Refused { refusal, record };
        let expected =
            [Note::Answered, refused(Refusal::NotAllowed, 1), refused(Refusal::Forged, 2)];
        assert_eq!((&taken.notes[..], taken.reports.len()), (&expected[..], 1));
        assert_eq!((&taken.send[0].1, world.fleet.ships[0].tally.forged()), (reply, 1));
        // An alert under the keys of the handshake is forged, also behind its change cipher spec.
        let change = rebooted.unit.clear(Content::ChangeCipherSpec, true, 1, &[1]);
        let taken = world.take(2, &behind(&[&change, &rebooted.alert(3, 40, 1)]), 0);
        assert_eq!((refusals(&taken), world.fleet.ships[0].barred), (vec![9], false));
        assert_eq!((world.state(0), world.fleet.ships[0].opening), (State::Open, 1));
        // The Finished of the open connection once more is its own, and is warned of.
        let taken = world.take(2, &behind(&[&unit.unit.finished(false, 0).unwrap()]), 0);
        assert!(taken.notes.contains(&Note::Warned), "{:?}", taken.notes);
        assert_eq!((refusals(&taken), taken.send.len()), (vec![11], 2));
        // And the datagram as a whole is refused where it is no datagram.
        let taken = world.take(2, &behind(&[&[0x13]]), 0);
        assert!(taken.send.is_empty() && !taken.changed);
        assert!(matches!(taken.notes[..], [Note::RefusedWhole { .. }]), "{:?}", taken.notes);
        // The Finished behind the hello opens.
        let finished = rebooted.unit.finished(true, 0).unwrap();
        let taken = world.take(3, &behind(&[&finished, &rebooted.data(1)]), 0);
        assert_eq!(taken.notes, [Note::Answered, Note::Opened, Note::Replaced]);
        assert_eq!((taken.reports.len(), world.fleet.ships[0].opening), (1, 2));
        assert_eq!(world.route(0), Some(address(3)));
    }
}

fn number_of(record: &[u8]) -> u16 {
    u16::from_be_bytes([record[1], record[2]])
}

/// What closes the open connection ends what was started beside it (02, P6).
#[test]
fn closing_ends_what_is_beside_it() {
    for wrong_finished in [false, true] {
        let mut world = World::new(1);
        let (mut unit, mut rebooted) = (ship(0), ship(0));
        world.open(&mut unit, 1);
        world.greet(&mut rebooted, 2, 2, 0);
        world.greet(&mut ship(0), 3, 3, 0);
        let closing = match wrong_finished {
            false => unit.alert(2, 0, 1),
            true => {
                let content = [&[20, 0, 12][..], &[7; 12]].concat();
                unit.unit.protect(Content::Handshake, false, 1, &content).unwrap()
            }
        };
        assert!(world.take(1, &closing, 0).changed);
        assert_eq!((world.state(0), world.fleet.ships[0].started.len()), (State::Idle, 0));
        assert_eq!(world.take(2, &rebooted.data_behind_finished(1), 0).notes, [Note::Stranger]);
        world.open(&mut ship(0), 2);
    }
}

/// A fleet behind one relay: each datagram finds its ship, and counts nothing for the others.
#[test]
fn many_ships_behind_one_address() {
    let mut world = World::new(300);
    let mut units: Vec<Ship> = (0..300).map(ship).collect();
    for (index, unit) in units.iter_mut().enumerate() {
        let at = Duration::from_secs(index as u64);
        let relay = address(1);
        let reply = world.take_at(relay, &unit.hello(1), at).send.remove(0).1;
        unit.unit.hear_reply(&reply).unwrap();
        assert!(world.take_at(relay, &unit.unit.flight().unwrap(), at).changed);
    }
    for number in 1..4 {
        for unit in &units {
            let at = Duration::from_secs(400 + unit.index as u64);
            let number = number + 7 * unit.index as u16;
            let taken = world.take_at(address(1), &unit.data(number), at);
            assert_eq!((taken.ship, taken.reports.len()), (Some(unit.index), 1));
        }
    }
    assert!(world.fleet.ships.iter().all(|ship| ship.tally.forged() == 0));
    // Damaged, it may be anybody's.
    let mut damaged = units[5].data(100);
    damaged[9] ^= 1;
    assert_eq!(world.take(1, &damaged, 900).notes, [Note::Stranger]);
    // And the whole fleet moves to another relay.
    for unit in &units {
        let at = Duration::from_secs(1000 + unit.index as u64);
        let taken = world.take_at(address(2), &unit.data(10 + 7 * unit.index as u16), at);
        assert_eq!((taken.ship, taken.reports.len()), (Some(unit.index), 1));
    }
}

/// Datagrams that ask for trials get no more than the budget, and a ship at its route is taken all
/// the same; one that has moved is found as soon as there is some budget again.
#[test]
fn trials_are_budgeted() {
    let mut world = World::new(40);
    let mut units: Vec<Ship> = (0..40).map(ship).collect();
    for (index, unit) in units.iter_mut().enumerate() {
        world.open(unit, 1 + index as u8);
    }
    let mut garbage = units[0].data(1);
    garbage[5] ^= 1;
    let start = Instant::now();
    let at = Duration::from_secs(1);
    for n in 0..100_000_u32 {
        let from = SocketAddr::from(((n.wrapping_mul(2_654_435_769)).to_be_bytes(), 4000));
        assert_eq!(world.take_at(from, &garbage, at).notes, [Note::Stranger]);
    }
    println!("100,000 datagrams that ask for trials: {:?}", start.elapsed());
    assert!(world.fleet.trials() < 33_000, "{}", world.fleet.trials());
    let late = units[0].data(2);
    assert_eq!(world.take_at(address(200), &late, at).notes, [Note::Stranger]);
    for unit in &units[1..] {
        assert_eq!(
            world.take_at(address(1 + unit.index as u8), &unit.data(1), at).reports.len(),
            1
        );
    }
    let at = Duration::from_millis(1100);
    assert_eq!(world.take_at(address(200), &late, at).reports.len(), 1);
}

/// A datagram of eight records costs eight times as much.
#[test]
fn trials_are_counted_by_codes() {
    for (records, left) in [(1, true), (8, false)] {
        let mut world = World::new(2);
        let mut unit = ship(0);
        world.open(&mut unit, 1);
        let record = peer::wire::write(0xe4, 1, &[7; 20]);
        for _ in 0..300 {
            world.take(2, &record.repeat(records), 1);
        }
        // Of the stranger's own share, from which the ship's record is to be tried, too.
        let taken = world.take_at(SocketAddr::from(([192, 0, 2, 2], 5)), &unit.data(1), SECOND);
        assert_eq!(taken.reports.len() == 1, left);
    }
}

const SECOND: Duration = Duration::from_secs(1);

/// One stranger's garbage uses up his own share only.
#[test]
fn one_stranger_has_a_share_of_the_budget() {
    let mut world = World::new(2);
    let mut unit = ship(0);
    world.open(&mut unit, 1);
    let mut garbage = unit.data(1);
    garbage[5] ^= 1;
    for _ in 0..30_000 {
        world.take(2, &garbage, 1);
    }
    assert_eq!(world.take(3, &unit.data(1), 1).reports.len(), 1);
}

#[test]
fn a_hint_that_there_is_no_connection() {
    let mut world = World::with(1, Some(60));
    let mut unit = ship(0);
    world.open(&mut unit, 1);
    let mut garbage = unit.data(1);
    garbage[5] ^= 1;
    let taken = world.take(2, &garbage, 0);
    assert_eq!(taken.notes, [Note::Stranger, Note::Hinted]);
    let (to, hint) = &taken.send[0];
    assert_eq!((to.sender, hint.len() <= garbage.len()), (address(2), true));
    assert_eq!(hint[..5], [0x42, 0xff, 0xff, 2, 5]);
    assert_eq!(hint[5..], peer::alert::checksum(&garbage));
    assert!(world.take(2, &garbage, 59).send.is_empty());
    assert_eq!(world.take(2, &garbage, 60).send.len(), 1);
    // Not where a ship is, not to clear records, not to hellos.
    assert!(world.take(1, &garbage, 300).send.is_empty());
    let clear = unit.unit.clear(Content::Data, false, 1, &[1; 20]);
    assert!(world.take(3, &clear, 300).send.is_empty());
    assert!(world.take(3, &ship(7).hello(1), 300).send.is_empty());
}

#[test]
fn a_repeated_finished_is_warned_of_once_in_a_time() {
    let mut world = World::new(1);
    let mut unit = ship(0);
    world.open(&mut unit, 1);
    let warned = |taken: &Taken| taken.notes.contains(&Note::Warned);
    let taken = world.take(1, &unit.data_behind_finished(1), 0);
    assert_eq!((taken.reports.len(), refusals(&taken)), (1, vec![8, 11]));
    assert!(warned(&taken) && taken.changed);
    let content = unit.unit.hear(&taken.send[0].1).unwrap();
    assert_eq!((&content[..2], &taken.send[0].1[..3]), (&[1, 57][..], &[0x62, 0, 1][..]));
    assert_eq!(content[2..], peer::alert::checksum(&unit.unit.finished(true, 0).unwrap()));
    // Within the time nothing is sent, and a replay alone is not even saved.
    for second in [0, 1, 59] {
        let taken = world.take(1, &unit.data_behind_finished(1), second);
        assert!(!taken.changed && taken.send.is_empty());
    }
    // Later, also when it is too old by now, or has a new number.
    assert_eq!(world.take(1, &unit.data(60), 60).reports.len(), 1);
    let taken = world.take(1, &unit.data_behind_finished(61), 60);
    assert!(refusals(&taken).contains(&10) && warned(&taken));
    let again = unit.unit.finished(false, 62).unwrap();
    assert!(!warned(&world.take(1, &again, 100)));
    let again = unit.unit.finished(false, 63).unwrap();
    assert!(warned(&world.take(1, &again, 120)));
}

#[test]
fn what_changes_nothing_is_not_saved() {
    let mut world = World::new(1);
    let mut unit = ship(0);
    world.open(&mut unit, 1);
    let data = unit.data(40);
    assert!(world.take(1, &data, 0).changed);
    let before = world.fleet.ships[0].connection.clone();
    let mut forged = unit.data(41);
    forged[5] ^= 1;
    let late = unit.data(3);
    let clear = unit.unit.clear(Content::Data, false, 1, b"x");
    for (datagram, number) in [
        (&forged, 9),
        (&data, 11),
        (&late, 10),
        (&clear, 8),
        (&vec![0x13; 9], 3),
        (&vec![0; 1500], 1),
    ] {
        let taken = world.take(1, datagram, 0);
        assert_eq!((refusals(&taken), taken.changed), (vec![number], false));
        assert!(taken.send.is_empty() && taken.reports.is_empty());
    }
    assert!(before == world.fleet.ships[0].connection);
    let tally = world.fleet.ships[0].tally;
    assert_eq!(
        (tally.handed_out(), tally.forged(), tally.too_old(), tally.repeated()),
        (1, 1, 1, 1)
    );
}

#[test]
fn a_closed_connection_is_started_again() {
    let mut world = World::new(1);
    let mut unit = ship(0);
    world.open(&mut unit, 1);
    let taken = world.take(1, &unit.alert(2, 0, 1), 0);
    assert!(taken.changed && taken.notes.contains(&Note::ClosedByAlert { description: 0 }));
    assert_eq!((world.route(0), world.state(0)), (Some(address(1)), State::Idle));
    assert_eq!(world.take(1, &unit.data(2), 0).notes, [Note::Stranger]);
    let mut again = ship(0);
    world.open(&mut again, 2);
    // Records of the old connection are forged in the new one.
    assert_eq!(refusals(&world.take(2, &unit.data(2), 0)), [9]);
    assert_eq!(world.take(2, &again.data(2), 0).reports.len(), 1);
}

/// A session barred is barred in the store, by its identifier, whatever is planted under it later.
#[test]
fn a_barred_session_stays_out() {
    let place = Place::in_memory("barred");
    let open = |secrets: fn(usize) -> [u8; 20]| {
        let session = |ship| Session {
            id: identifier(ship),
            secret: secrets(ship),
            width: 32,
            ship: name(ship),
        };
        Store::open(&place.at(), &[session(0), session(1)], Start::AsItWas).unwrap()
    };
    let mut world = World::new(2);
    let mut store = open(secret).store;
    let mut unit = ship(0);
    world.open(&mut unit, 1);
    let taken = world.take(1, &unit.alert(3, 40, 1), 0);
    assert!(taken.changed && taken.notes.contains(&Note::BarredByAlert { description: 40 }));
    let hello = ship(0).hello(5);
    assert_eq!(refusals(&world.take(1, &hello, 9)), [7]);
    let changed = BTreeSet::from([(identifier(0), 0)]);
    assert_eq!(store.lock(&changed, &world.fleet.ships), Ok(true));
    let outcome = Outcome { changed, reports: Vec::new() };
    let clocks = Clocks { time: Moment::now(), now: Instant::now() };
    store.save(&outcome, &mut world.fleet.ships, &Counts::default(), clocks).unwrap();
    drop(store);

    let barred = |opened: &gatewayd::store::Opened| {
        opened.ships.iter().map(|ship| ship.barred).collect::<Vec<_>>()
    };
    assert_eq!(barred(&open(secret)), [true, false]);
    assert_eq!(barred(&open(|_| [9; 20])), [true, false]);
    assert_eq!(barred(&open(secret)), [true, false]);
}

/// Who has overheard a hello gets its reply, and with it what a clear alert must carry (10.2). That
/// ends no handshake of the ship: not behind the hello, and not from where he said it.
#[test]
fn an_alert_behind_an_overheard_hello() {
    for (first, together) in [(1, false), (1, true), (2, false), (2, true)] {
        let mut world = World::new(1);
        let mut unit = ship(0);
        let hello = unit.hello(1);
        world.take(first, &hello, 0);
        let reply = world.take(1, &hello, 0).send.remove(0).1;
        unit.unit.hear_reply(&reply).unwrap();
        let overheard = world.take(2, &hello, 0).send.remove(0).1;
        let last = &overheard[overheard.len() - 28..];
        for level in [2, 3] {
            let alert = [&[0x42, 0, 2, level, 0][..], &peer::alert::checksum(last)].concat();
            let with_length = unit.unit.clear(Content::Handshake, true, 0, unit.unit.last_hello());
            let datagram = if together { [with_length, alert].concat() } else { alert };
            world.take(2, &datagram, 0);
        }
        assert!(world.take(1, &unit.unit.flight().unwrap(), 0).changed, "{first} {together}");
        assert_eq!((world.state(0), world.route(0)), (State::Open, Some(address(1))));
    }
}

/// A fleet behind one relay in step: all ships have the same numbers, and each reports every ten
/// seconds. None is lost, also while others ask for all the trials that there are.
#[test]
fn a_fleet_in_step_behind_one_address() {
    for flood in [false, true] {
        let ships = 300;
        let mut world = World::new(ships);
        let mut units: Vec<Ship> = (0..ships).map(ship).collect();
        for (index, unit) in units.iter_mut().enumerate() {
            let at = Duration::from_secs(index as u64);
            let reply = world.take_at(address(1), &unit.hello(1), at).send.remove(0).1;
            unit.unit.hear_reply(&reply).unwrap();
            assert!(world.take_at(address(1), &unit.unit.flight().unwrap(), at).changed);
        }
        let mut garbage = units[0].data(1);
        garbage[5] ^= 1;
        let mut listed = 0;
        for number in 1..4_u16 {
            // In turn, and then the other way round.
            for turn in 0..ships {
                let unit = &units[if number % 2 == 0 { turn } else { ships - 1 - turn }];
                let second = 10.0 * f64::from(number) + turn as f64 / 30.0;
                let at = Duration::from_secs_f64(1000.0 + second);
                for n in 0..if flood { 160_u32 } else { 0 } {
                    let from = (n.wrapping_mul(2_654_435_769)).to_be_bytes();
                    world.take_at(SocketAddr::from((from, 4000)), &garbage, at);
                }
                let taken = world.take_at(address(1), &unit.data(number), at);
                listed += taken.reports.len();
            }
        }
        assert_eq!(listed, 3 * ships, "{flood}");
    }
}

/// Behind a relay with many ships one more can shake hands, whatever is asked for elsewhere.
#[test]
fn a_handshake_behind_a_relay_under_fire() {
    let mut world = World::new(21);
    for index in 0..20 {
        let mut unit = ship(index);
        world.open(&mut unit, 1);
    }
    let mut garbage = ship(0).hello(9);
    garbage[0] = 0x64;
    let flood = |world: &mut World| {
        for n in 0..60_000_u32 {
            let from = (n.wrapping_mul(2_654_435_769)).to_be_bytes();
            world.take_at(SocketAddr::from((from, 4000)), &garbage, SECOND);
        }
    };
    let mut unit = ship(20);
    world.greet(&mut unit, 1, 1, 1);
    flood(&mut world);
    // Also from the relay itself. That has its bound, too.
    let before = world.fleet.trials();
    for _ in 0..5_000 {
        world.take(1, &garbage, 1);
    }
    let made = world.fleet.trials() - before;
    assert!(made <= 5_000 * (4 + 4) + 16_000, "{made}");
    assert!(world.take(1, &unit.unit.flight().unwrap(), 1).changed);
    assert_eq!(world.state(20), State::Open);
}

/// A stranger who has overheard the ship's hello and says it first has no power over the handshake
/// that the ship shares with him: not on fewer than eight hosts, and, where the ship comes back to the
/// host of its route, not on any number of them.
#[test]
fn an_overheard_hello_said_before_the_ship() {
    for (home, last, ports) in [(false, 8, 1), (false, 8, 20), (true, 8, 20), (true, 98, 1)] {
        for replayed in [false, true] {
            let mut world = World::new(1);
            let mut unit = ship(0);
            if home {
                world.open(&mut unit, 1);
                world.take(1, &unit.alert(2, 0, 1), 0);
            }
            let mut unit = ship(0);
            let hello = unit.hello(90);
            world.take(2, &hello, 1);
            let reply = world.take(1, &hello, 1).send.remove(0).1;
            unit.unit.hear_reply(&reply).unwrap();
            for from in (2..=last).filter(|_| replayed) {
                for port in 0..ports {
                    let from = SocketAddr::new(address(from).ip(), 4000 + port);
                    world.take_at(from, &hello, SECOND);
                }
            }
            assert!(world.fleet.ships[0].started[0].senders.contains(&address(1)));
            // One host after the other, and all in turn.
            let others = u32::from(last) - 1;
            for n in 0..40 * others {
                let hello = ship(0).hello(100 + (n % 100) as u8);
                for other in [n / 40, n % others] {
                    world.take(2 + other as u8, &hello, 1);
                }
            }
            let taken = world.take(1, &unit.unit.flight().unwrap(), 1);
            assert!(taken.changed, "{home} {last} {ports} {replayed}");
            assert_eq!((world.state(0), world.route(0)), (State::Open, Some(address(1))));
        }
    }
}

/// Who relays a ship's record before its own copy arrives has the route until the next one, and a
/// flood that uses up all trials does not make it longer. Seven of them in turn do not, either.
#[test]
fn a_relayed_record_and_a_flood() {
    let mut world = World::new(40);
    let mut units: Vec<Ship> = (0..40).map(ship).collect();
    for (index, unit) in units.iter_mut().enumerate() {
        world.open(unit, 1 + index as u8);
    }
    for number in 1..8 {
        let data = units[0].data(number);
        assert_eq!(world.take(100 + number as u8, &data, 1).reports.len(), 1);
        assert_eq!(refusals(&world.take(1, &data, 1)), [11]);
    }
    let mut garbage = units[0].data(9);
    garbage[5] ^= 1;
    for n in 0..20_000_u32 {
        let from = (n.wrapping_mul(2_654_435_769)).to_be_bytes();
        world.take_at(SocketAddr::from((from, 4000)), &garbage, SECOND);
    }
    // A ship that moves now is not found; this one has not moved.
    assert_eq!(world.take(200, &units[1].data(9), 1).notes, [Note::Stranger]);
    assert_eq!(world.take(1, &units[0].data(9), 1).reports.len(), 1);
    assert_eq!(world.route(0), Some(address(1)));
    assert_eq!(world.take(2, &units[1].data(10), 1).reports.len(), 1);
}

/// What is in the clear is tried on one connection at most, however many were begun by its sender.
#[test]
fn clear_records_cost_one_trial() {
    let mut world = World::new(100);
    for index in 0..100 {
        for random in 0..8 {
            world.take(
                1,
                &ship(index).hello(random + 1),
                8 * index as u64 / 100 + u64::from(random),
            );
        }
    }
    let begun: usize = world.fleet.ships.iter().map(|ship| ship.started.len()).sum();
    assert!(begun >= 700, "{begun}");
    let before = world.fleet.trials();
    for clear in [&unit_clear(Content::Data), &unit_clear(Content::ChangeCipherSpec), &vec![0; 40]]
    {
        for _ in 0..100 {
            world.take(1, clear, 20);
        }
    }
    assert!(world.fleet.trials() <= before + 300);
}

/// A change cipher spec alone in a datagram is for all handshakes of its sender that wait for one, and each of these ships is saved. It
/// costs a trial for each of them once, however often it is said.
#[test]
fn a_change_alone_is_for_all_that_wait() {
    let mut world = World::new(100);
    let mut units: Vec<Ship> = (0..100).map(ship).collect();
    for unit in &mut units[..50] {
        world.greet(unit, 1, 1, 0);
    }
    world.greet(&mut units[50], 1, 2, 0);
    let change = |number| ship(0).unit.clear(Content::ChangeCipherSpec, true, number, &[1]);
    let before = world.fleet.trials();
    let taken = world.take(1, &change(1), 0);
    let saved: BTreeSet<usize> = taken.ship.into_iter().chain(taken.also).collect();
    assert!(taken.changed && saved == (0..50).collect());
    assert_eq!(world.fleet.trials(), before + 50);
    for number in 0..100 {
        assert!(!world.take(1, &change(number), 0).changed);
    }
    assert_eq!(world.fleet.trials(), before + 150);
    assert_eq!(world.fleet.ships[50].started[0].connection.state(), State::Replied);
    for unit in &units[..50] {
        assert!(world.take(1, &unit.unit.finished(false, 0).unwrap(), 0).changed);
        assert_eq!(world.state(unit.index), State::Open);
    }
}

fn unit_clear(content: Content) -> Vec<u8> {
    ship(0).unit.clear(content, false, 1, &[1; 20])
}

/// Our clear change cipher spec is the same six bytes for everybody: who has seen nothing can close a handshake under way with
/// its checksum, and the log counts it. An open connection is never closed so.
#[test]
fn closings_by_alerts_in_the_clear_are_counted() {
    let change = peer::alert::checksum(&[0xc1, 0, 1, 0, 1, 1]);
    assert_eq!(change, [0xc0, 1, 1, 0]);
    let alert = [&[0x42, 0, 0, 3, 40][..], &change].concat();
    let mut world = World::new(1);
    for so_far in 1..=3 {
        let mut unit = ship(0);
        world.greet(&mut unit, so_far as u8, 1, 0);
        let taken = world.take(1, &alert, 0);
        let note = Note::ClosedInClear { description: 40, so_far };
        assert!(taken.notes.contains(&note), "{:?}", taken.notes);
        assert!(note.to_string().ends_with(&format!("description 40; {so_far} so far")));
        assert!(world.fleet.ships[0].started.is_empty());
    }
    let mut unit = ship(0);
    world.open(&mut unit, 1);
    let taken = world.take(1, &alert, 0);
    let closed =
        |note: &Note| matches!(note, Note::ClosedInClear { .. } | Note::ClosedByAlert { .. });
    assert!(!taken.changed && !taken.notes.iter().any(closed), "{:?}", taken.notes);
    assert_eq!(world.state(0), State::Open);
}
