//! The program seen from outside: what it logs, whom it keeps out, who may come back, a full disk,
//! and its progress line.

mod common;

use common::{signal, text, wait_for, Gatewayd, Place, Ship};
use std::collections::BTreeSet;
use std::fs;
use std::process::{Command, Output, Stdio};
use std::time::Duration;

const ANY: &str = "127.0.0.1:0";
const NO_ANSWER: Duration = Duration::from_millis(200);

/// One line for each kind of refusal, with its number and meaning; the others are counted.
#[test]
fn refusals_in_the_log() {
    let place = Place::new("log");
    place.plant(1);
    let gatewayd = Gatewayd::start(&place, ANY, &["--log-every", "3600"]);
    let mut ship = Ship::new(0, gatewayd.address);
    ship.open(1);
    let mut forged = ship.data(1);
    *forged.last_mut().unwrap() ^= 1;
    for _ in 0..5 {
        ship.send(&forged);
    }
    ship.send(&ship.data(1));
    ship.send(&ship.data(1));
    ship.send(&[0; 1500]);
    let log = || fs::read_to_string(place.path.join("log")).unwrap();
    wait_for("the last refusal", || log().contains("refused 1:"));
    gatewayd.end();
    let log = log();
    let sender = ship.socket.local_addr().unwrap();
    for refusal in ["refused 9: code not right, record 0", "refused 11: ", "refused 1: "] {
        let line = format!("Z ship 0 {sender}: {refusal}");
        assert_eq!(log.lines().filter(|found| found.contains(&line)).count(), 1, "{line} in {log}");
    }
    assert!(log.contains("4 more lines were held back"), "{log}");
}

/// Barred by a fatal alert: in the store at once, and kept out by its identifier, also with another secret.
#[test]
fn barred_for_good() {
    let place = Place::new("fatal");
    place.plant(2);
    let gatewayd = Gatewayd::start(&place, ANY, &[]);
    let mut ship = Ship::new(0, gatewayd.address);
    ship.open(1);
    ship.send(&ship.alert(3, 40, 1));
    let log = || fs::read_to_string(place.path.join("log")).unwrap();
    wait_for("the barred session", || log().contains("session barred by a fatal alert"));
    gatewayd.kill();
    for another_secret in [false, true] {
        if another_secret {
            let sessions = fs::read_to_string(place.sessions()).unwrap();
            fs::write(place.sessions(), sessions.replace("01010101 ship 0", "01010102 ship 0"))
                .unwrap();
        }
        let gatewayd = Gatewayd::start(&place, ANY, &[]);
        let mut ship = Ship::new(0, gatewayd.address);
        let hello = ship.hello(2);
        ship.send(&hello);
        assert!(!ship.hear(NO_ANSWER));
        if !another_secret {
            Ship::new(1, gatewayd.address).open(1);
        }
        let tallies = gatewayd.end();
        assert!(tallies.contains("\tbarred\tship 0\n"), "{tallies}");
        assert!(!tallies.contains("\tbarred\tship 1\n"), "{tallies}");
    }
}

/// A rebooted ship is back at once; the open connection goes on until the new one is open, and a
/// handshake under way outlives the gateway.
#[test]
fn a_rebooted_ship() {
    let place = Place::new("rebooted");
    place.plant(1);
    let gatewayd = Gatewayd::start(&place, ANY, &[]);
    let address = gatewayd.address;
    let mut ship = Ship::new(0, address);
    ship.open(1);
    ship.send(&ship.data(1));
    wait_for("the first report", || place.listed(0).len() == 1);
    let mut rebooted = Ship::new(0, address);
    rebooted.shake_hands(2);
    ship.send(&ship.data(2));
    wait_for("the second report", || place.listed(0).len() == 2);
    gatewayd.end();
    let gatewayd = Gatewayd::start(&place, &address.to_string(), &[]);
    rebooted.send(&rebooted.data_behind_finished(1));
    wait_for("the report of the rebooted ship", || place.listed(0).len() == 3);
    ship.send(&ship.data(3));
    rebooted.send(&rebooted.data(2));
    wait_for("its next report", || place.listed(0).len() == 4);
    assert_eq!(place.listed(0)[3], (2, text(0, 2)));
    gatewayd.end();
}

/// The hello from which the open connection came gets its reply again, and starts nothing.
#[test]
fn the_hello_of_the_open_connection() {
    let place = Place::new("same-hello");
    place.plant(1);
    let gatewayd = Gatewayd::start(&place, ANY, &[]);
    let mut ship = Ship::new(0, gatewayd.address);
    ship.open(1);
    ship.send(&ship.data(1));
    wait_for("the report", || place.listed(0).len() == 1);
    let first = ship.random.clone();
    ship.shake_hands(1);
    assert_eq!(ship.random, first);
    ship.send(&ship.data(2));
    wait_for("the next report", || place.listed(0).len() == 2);
    gatewayd.end();
}

/// A datagram that is nobody's is answered by no_connection if the operator wants it, and else not.
#[test]
fn a_hint() {
    for (more, hints) in [(&[][..], 0), (&["--hint-every", "60"], 1)] {
        let place = Place::new(&format!("hint-{hints}"));
        place.plant(1);
        let gatewayd = Gatewayd::start(&place, ANY, more);
        let ship = Ship::new(0, gatewayd.address);
        ship.socket.set_read_timeout(Some(NO_ANSWER)).unwrap();
        let mut got = 0;
        for _ in 0..3 {
            ship.send(&[0x64, 0, 1, 1, 2, 3, 4, 5, 6, 7, 8, 9, 10, 11, 12]);
            let mut buffer = [0; 100];
            if let Ok(size) = ship.socket.recv(&mut buffer) {
                assert_eq!((size, &buffer[..5]), (9, &[0x42, 0xff, 0xff, 2, 5][..]));
                got += 1;
            }
        }
        assert_eq!(got, hints);
        gatewayd.end();
    }
}

/// A server random is the system's, new for each reply and each life.
#[test]
fn randoms_are_fresh() {
    let place = Place::new("randoms");
    place.plant(2);
    let mut randoms = BTreeSet::new();
    for life in 1..=2 {
        let gatewayd = Gatewayd::start(&place, ANY, &[]);
        for index in 0..2 {
            let mut ship = Ship::new(index, gatewayd.address);
            ship.shake_hands(10 * life);
            randoms.insert(ship.random.clone());
            ship.shake_hands(10 * life + 1);
            randoms.insert(ship.random.clone());
        }
        gatewayd.end();
    }
    assert_eq!(randoms.len(), 8);
    assert!(randoms.iter().all(|random| random.len() == 16 && random[..] != [0; 16]));
}

/// A Finished that is replayed many times is warned of once, unless `--warn-every` says otherwise.
#[test]
fn one_warning() {
    for (more, warnings) in [(&[][..], 1), (&["--warn-every", "0"], 5)] {
        let place = Place::new(&format!("warning-{warnings}"));
        place.plant(1);
        let gatewayd = Gatewayd::start(&place, ANY, more);
        let mut ship = Ship::new(0, gatewayd.address);
        ship.open(1);
        for _ in 0..5 {
            ship.send(&ship.unit.flight().unwrap());
        }
        for _ in 0..50 {
            ship.hear(NO_ANSWER);
            if ship.warnings >= warnings {
                break;
            }
        }
        ship.hear(NO_ANSWER);
        assert_eq!(ship.warnings, warnings);
        gatewayd.end();
    }
}

/// The disk is full: a line, nothing is answered and nothing is lost that waits; with room again it goes on by itself.
#[test]
fn a_full_disk() {
    let place = Place::new("full");
    place.plant(1);
    Gatewayd::start(&place, ANY, &[]).end();
    let room = common::store_size(&place.state()) as usize + 60_000;
    let gatewayd = Gatewayd::start_on_small_disk(&place, ANY, room);
    let mut ship = Ship::new(0, gatewayd.address);
    ship.open(1);
    ship.send(&ship.data(1));
    wait_for("the first report", || place.listed(0).len() == 1);
    let log = || fs::read_to_string(place.path.join("log")).unwrap();
    let mut sent = 1;
    while !log().contains("; datagrams wait") {
        sent += 1;
        assert!(sent < 3000, "the disk is never full");
        ship.send(&ship.data(sent));
        std::thread::sleep(Duration::from_millis(2));
    }
    assert!(log().contains(" store: "), "{}", log());
    for _ in 0..50 {
        sent += 1;
        ship.send(&ship.data(sent));
    }
    let mut other = Ship::new(0, gatewayd.address);
    let hello = other.hello(9);
    other.send(&hello);
    assert!(!other.hear(NO_ANSWER));
    assert!(place.listed(0).len() < usize::from(sent) - 50);
    gatewayd.room();
    let expected: Vec<_> = (1..=sent).map(|number| (number, text(0, number))).collect();
    wait_for("all reports", || place.listed(0).len() >= expected.len());
    wait_for("the line", || log().contains(" s without it; meanwhile the system dropped 0 "));
    assert_eq!(place.listed(0), expected);
    let tallies = gatewayd.end();
    assert!(tallies.contains(&format!("{sent}\t0\t0\t0\t")), "{tallies}");
}

/// Killed while the disk is full: what was committed is there, and nothing else.
#[test]
fn killed_on_a_full_disk() {
    let place = Place::new("full-killed");
    place.plant(1);
    Gatewayd::start(&place, ANY, &[]).end();
    let room = common::store_size(&place.state()) as usize + 60_000;
    let gatewayd = Gatewayd::start_on_small_disk(&place, ANY, room);
    let address = gatewayd.address;
    let mut ship = Ship::new(0, address);
    ship.open(1);
    let log = || fs::read_to_string(place.path.join("log")).unwrap();
    let mut sent = 0;
    while !log().contains("; datagrams wait") {
        sent += 1;
        ship.send(&ship.data(sent));
        std::thread::sleep(Duration::from_millis(2));
    }
    let before = place.listed(0);
    gatewayd.kill();
    let gatewayd = Gatewayd::start(&place, &address.to_string(), &[]);
    assert!(place.listed(0).starts_with(&before));
    for number in 1..=sent {
        ship.send(&ship.data(number));
    }
    // Those at the end were not taken before; those at the front are too old or repeated.
    let expected: Vec<_> = (1..=sent).map(|number| (number, text(0, number))).collect();
    wait_for("all reports", || place.listed(0).len() >= expected.len());
    assert_eq!(place.listed(0), expected);
    gatewayd.end();
}

/// Somebody else holds the store: datagrams wait, and are taken when he lets go. The end can be asked for meanwhile.
#[test]
fn a_locked_store() {
    let place = Place::new("locked");
    place.plant(1);
    let mut gatewayd = Gatewayd::start(&place, ANY, &[]);
    let mut ship = Ship::new(0, gatewayd.address);
    ship.open(1);
    ship.send(&ship.data(1));
    wait_for("the report", || place.listed(0).len() == 1);
    let store = rusqlite::Connection::open(place.state().join("store.db")).unwrap();
    let log = || fs::read_to_string(place.path.join("log")).unwrap();
    store.execute_batch("BEGIN IMMEDIATE").unwrap();
    for number in 2..=20 {
        ship.send(&ship.data(number));
    }
    wait_for("the line", || log().contains(" store: database is locked; datagrams wait"));
    assert_eq!(place.listed(0).len(), 1);
    store.execute_batch("ROLLBACK").unwrap();
    wait_for("all reports", || place.listed(0).len() == 20);
    store.execute_batch("BEGIN IMMEDIATE").unwrap();
    ship.send(&ship.data(21));
    wait_for("the line", || log().matches("; datagrams wait").count() == 2);
    signal(&gatewayd.child, "TERM");
    assert_eq!(gatewayd.child.wait().unwrap().code(), Some(6));
    assert!(log().contains("gatewayd: store: database is locked"), "{}", log());
    store.execute_batch("ROLLBACK").unwrap();
    let tallies = Gatewayd::start(&place, ANY, &[]).end();
    assert!(tallies.contains("20\t0\t0\t0\t21 of 32\topen\tship 0"), "{tallies}");
}

/// What each ship was refused, by the hour.
#[test]
fn refusals_are_counted() {
    let place = Place::new("refusals");
    place.plant(1);
    let gatewayd = Gatewayd::start(&place, ANY, &[]);
    let mut ship = Ship::new(0, gatewayd.address);
    ship.open(1);
    let mut forged = ship.data(1);
    *forged.last_mut().unwrap() ^= 1;
    for datagram in [&forged, &forged, &ship.data(1), &ship.data(1)] {
        ship.send(datagram);
    }
    wait_for("the report", || place.listed(0).len() == 1);
    // By itself it changes nothing, and is not saved at once.
    ship.send(&forged);
    std::thread::sleep(Duration::from_millis(100));
    let tallies = gatewayd.end();
    assert!(tallies.contains("1\t3\t0\t1\t2 of 32\topen\tship 0"), "{tallies}");
    let store = rusqlite::Connection::open(place.state().join("store.db")).unwrap();
    let mut found = store
        .prepare("SELECT refusal, SUM(count) FROM refusals GROUP BY refusal ORDER BY 1")
        .unwrap();
    let pairs = found.query_map([], |row| Ok((row.get(0)?, row.get(1)?))).unwrap();
    assert_eq!(pairs.map(Result::unwrap).collect::<Vec<(i64, i64)>>(), [(9, 3), (11, 1)]);
    // The tally is saved at the end, too.
    let tallies = Gatewayd::start(&place, ANY, &[]).end();
    assert!(tallies.contains("1\t3\t0\t1\t2 of 32\topen\tship 0"), "{tallies}");
}

/// `script` gives it a terminal.
#[test]
fn progress_on_a_terminal_only() {
    let place = Place::new("progress");
    place.plant(1);
    let (sessions, state) = (place.sessions(), place.state());
    let command = format!(
        "timeout --foreground --preserve-status -s INT 1 {} --listen {ANY} --sessions {} --state {}",
        env!("CARGO_BIN_EXE_gatewayd"),
        sessions.display(),
        state.display()
    );
    let run = |words: &[&str]| -> Output {
        Command::new(words[0]).args(&words[1..]).stdin(Stdio::null()).output().unwrap()
    };
    let progress = "datagrams 0, handed out 0, forged 0, too old 0, repeated 0";
    let shown = run(&["script", "-qec", &command, "/dev/null"]);
    let text = String::from_utf8(shown.stdout).unwrap();
    assert!(shown.status.success() && text.contains(progress), "{text}");
    let piped = run(&["sh", "-c", &command]);
    let text = String::from_utf8([piped.stdout, piped.stderr].concat()).unwrap();
    assert!(piped.status.success() && text.contains("ship 0"), "{text}");
    assert!(!text.contains(progress), "{text}");
}
