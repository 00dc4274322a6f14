//! Killed with SIGKILL at many random moments of a day and started again: nothing that the window
//! took is missing from the list, nothing is in it twice, and no number of ours is used twice with
//! other content.

mod common;

use common::{name, text, Gatewayd, Place, Ship};
use gatewayd::reports::Wanted;
use peer::rng::Rng;
use std::collections::BTreeSet;
use std::sync::atomic::{AtomicBool, AtomicUsize, Ordering};
use std::thread;
use std::time::{Duration, Instant};

const SHIPS: usize = 5;
const SEED: u64 = 8;
/// So many kills, or as many as KILLS says.
const KILLS: usize = 200;

#[test]
fn killed_and_started_again() {
    let place = Place::new("kill");
    place.plant(SHIPS);
    // Each repeated Finished is answered, so that many numbers of ours are spent.
    let more = ["--warn-every", "0"];
    let first = Gatewayd::start(&place, "127.0.0.1:0", &more);
    let address = first.address;
    let wanted = std::env::var("KILLS").ok().map_or(KILLS, |count| count.parse().unwrap());
    let done = AtomicBool::new(false);
    let (kills, starts_killed) = (AtomicUsize::new(0), AtomicUsize::new(0));
    let reports: Vec<u16> = thread::scope(|scope| {
        scope.spawn(|| {
            let mut rng = Rng::new(SEED);
            let mut running = first;
            while !done.load(Ordering::Relaxed) {
                thread::sleep(Duration::from_micros(rng.between(100, 30_000) as u64));
                running.kill();
                kills.fetch_add(1, Ordering::Relaxed);
                let listen = address.to_string();
                // Often in the middle of the start, too.
                while rng.percent(50) {
                    let after = Duration::from_micros(rng.between(100, 10_000) as u64);
                    Gatewayd::start_and_kill(&place, &listen, &more, after);
                    starts_killed.fetch_add(1, Ordering::Relaxed);
                }
                running = Gatewayd::start(&place, &listen, &more);
            }
            running.end();
        });
        let _ends = SetAtEnd(&done);
        let mut rng = Rng::new(SEED + 1);
        let sailed = |index: usize| {
            let mut ship = Ship::new(index, address);
            let enough = || kills.load(Ordering::Relaxed) >= wanted * (index + 1) / SHIPS;
            sail(&mut ship, &place, &mut rng, enough)
        };
        (0..SHIPS).map(sailed).collect()
    });
    let (kills, starts_killed) = (kills.into_inner(), starts_killed.into_inner());
    assert!(kills >= wanted, "only {kills} kills");
    assert!(starts_killed >= wanted / 10, "only {starts_killed} kills soon after the start");

    for ship in 0..SHIPS {
        let mut listed = place.listed(ship);
        listed.sort();
        let expected: Vec<_> =
            (1..=reports[ship]).map(|number| (number, text(ship, number))).collect();
        assert_eq!(listed, expected, "ship {ship} after {kills} kills");
    }
    assert!(place.lines(&Wanted::all()).iter().all(|line| line.opening == 1));
    let last = Gatewayd::start(&place, "127.0.0.1:0", &[]);
    let tallies = last.end();
    for ship in 0..SHIPS {
        let line = tallies.lines().find(|line| line.ends_with(&name(ship))).unwrap();
        assert!(line.starts_with(&format!("{}\t", reports[ship])), "{line}");
        assert!(line.contains("open"), "{line}");
    }
    println!("{kills} kills, {starts_killed} more soon after the start");
    println!("{SHIPS} ships, {reports:?} reports");
}

/// Ends the killing when the sailing ends, also if by a panic.
struct SetAtEnd<'a>(&'a AtomicBool);

impl Drop for SetAtEnd<'_> {
    fn drop(&mut self) {
        self.0.store(true, Ordering::Relaxed);
    }
}

/// Reports of a ship until it is enough; gives how many. Those that are not in the store yet are sent again, and as many that are: a
/// window that forgot them would let them in once more. A number stays less than 32 behind.
fn sail(ship: &mut Ship, place: &Place, rng: &mut Rng, enough: impl Fn() -> bool) -> u16 {
    ship.shake_hands(ship.index as u8 + 1);
    let (mut next, mut last) = (1, u16::MAX);
    let mut progress = (0, Instant::now());
    loop {
        ship.hear(Duration::from_micros(100));
        let listed: BTreeSet<u16> =
            place.listed(ship.index).into_iter().map(|(number, _)| number).collect();
        if listed.len() > progress.0 {
            progress = (listed.len(), Instant::now());
        }
        assert!(
            progress.1.elapsed() < Duration::from_secs(30),
            "reports are missing from the store for good"
        );
        let missing = (1..next).find(|number| !listed.contains(number)).unwrap_or(next);
        if last == u16::MAX && enough() {
            last = next.max(100);
        }
        if missing > last {
            return last;
        }
        for _ in 0..rng.between(1, 6) {
            if next <= last && next < missing + 20 {
                send(ship, next, rng);
                next += 1;
            }
        }
        for number in next.saturating_sub(24).max(1)..next {
            if !listed.contains(&number) || rng.percent(20) {
                send(ship, number, rng);
            }
        }
        thread::sleep(Duration::from_micros(rng.between(0, 2000) as u64));
    }
}

fn send(ship: &Ship, number: u16, rng: &mut Rng) {
    // Nobody tells the ship that it is open, so Finished goes before each of the first reports.
    let datagram = match number < 40 || rng.percent(30) {
        true => ship.data_behind_finished(number),
        false => ship.data(number),
    };
    ship.send(&datagram);
    if rng.percent(10) {
        ship.send(&ship.unit.flight().unwrap());
    }
}
