//! The store: report and connection are both there or neither is, wherever the write-ahead log is cut; each opening has its own
//! numbers; no secret is in it; what a restored backup does; what `reports` tells.

mod common;

use common::{identifier, name, secret, text, wait_for, Gatewayd, Place, Ship};
use gatewayd::fleet::{Fleet, Rules};
use gatewayd::note::Note;
use gatewayd::randoms::Randoms;
use gatewayd::reports::Wanted;
use gatewayd::sessions::Session;
use gatewayd::shore::{Shore, Told};
use gatewayd::socket::Datagram;
use gatewayd::store::{Start, Store, Where};
use gatewayd::way::Way;
use std::fs;
use std::path::Path;
use std::process::{Command, Output, Stdio};
use std::time::Duration;

const ANY: &str = "127.0.0.1:0";

/// A gateway without a network: what it takes is committed at once.
struct World {
    shore: Shore,
}

impl World {
    fn open(state: &Path) -> World {
        World::with(state, Start::AsItWas)
    }

    fn with(state: &Path, start: Start) -> World {
        let sessions =
            vec![Session { id: identifier(0), secret: secret(0), width: 32, ship: name(0) }];
        let opened = Store::open(&Where::Directory(state.into()), &sessions, start).unwrap();
        let rules = Rules { warn_every: Duration::ZERO, hint_every: None };
        let fleet = Fleet::new(opened.ships, rules);
        World { shore: Shore::new(fleet, opened.store, Randoms::open().unwrap()) }
    }

    fn take(&mut self, datagram: &[u8]) -> Told {
        let way = Way { sender: "192.0.2.1:4000".parse().unwrap(), ours: None };
        let run = [Datagram { way, bytes: datagram.to_vec() }];
        self.shore.take(&run, false, &mut |what| panic!("{what}")).unwrap()
    }

    fn connection(&self) -> Vec<u8> {
        self.shore.fleet.ships[0].connection.save().to_vec()
    }
}

/// Opens, with a hello of its own.
fn opened(world: &mut World, random: u8) -> Ship {
    let mut ship = Ship::new(0, "127.0.0.1:9".parse().unwrap());
    let reply = world.take(&ship.hello(random)).send.remove(0).1;
    ship.unit.hear_reply(&reply).unwrap();
    world.take(&ship.unit.flight().unwrap());
    ship
}

fn files(state: &Path) -> [Vec<u8>; 2] {
    ["store.db", "store.db-wal"].map(|name| fs::read(state.join(name)).unwrap())
}

fn lay(state: &Path, files: [&[u8]; 2]) {
    let _ = fs::remove_dir_all(state);
    fs::create_dir_all(state).unwrap();
    fs::write(state.join("store.db"), files[0]).unwrap();
    fs::write(state.join("store.db-wal"), files[1]).unwrap();
}

fn numbers(state: &Path) -> Vec<u16> {
    let place = Where::Directory(state.into());
    let mut engine = gatewayd::store::open_to_read(&place).unwrap();
    let mut numbers = Vec::new();
    gatewayd::reports::each(engine.as_mut(), &Wanted::all(), 0, |line| numbers.push(line.number))
        .unwrap();
    numbers
}

/// The log of the last transaction cut at many bytes, or a byte of it changed: both or neither.
#[test]
fn cut_or_changed_in_its_last_transaction() {
    let place = Place::in_memory("cut");
    let mut world = World::open(&place.state());
    let ship = opened(&mut world, 1);
    for number in 1..4 {
        world.take(&ship.data(number));
    }
    let (before, connection_before) = (files(&place.state()), world.connection());
    // The last transaction: two reports in one datagram.
    let length = ship.unit.protect(peer::wire::Content::Data, true, 4, &text(0, 4)).unwrap();
    let last = [length, ship.data(5)].concat();
    world.take(&last);
    let (after, connection_after) = (files(&place.state()), world.connection());
    assert!(after[0] == before[0] && after[1].starts_with(&before[1]));
    let (start, end) = (before[1].len(), after[1].len());
    assert!(end > start);
    drop(world);

    let state = place.path.join("again");
    let step = (end - start) / 300 + 1;
    let near = |place: usize| (place - start) % 4120 < 26 || end - place < 26;
    let (mut cuts, mut changes) = (0, 0);
    for place in (start..end).filter(|place| near(*place) || place % step == 0) {
        let cut = after[1][..place].to_vec();
        let mut changed = after[1].clone();
        changed[place] ^= 4;
        for (log, count) in [(cut, &mut cuts), (changed, &mut changes)] {
            lay(&state, [&after[0], &log]);
            let mut world = World::open(&state);
            assert_eq!(world.connection(), connection_before, "byte {place}");
            assert_eq!(numbers(&state), [1, 2, 3]);
            *count += 1;
            if *count % 50 == 0 {
                // What never happened can still happen.
                world.take(&last);
                assert_eq!(numbers(&state), [1, 2, 3, 4, 5]);
            }
        }
    }
    println!("{cuts} cuts and {changes} changed bytes of {} bytes", end - start);
    lay(&state, [&after[0], &after[1]]);
    let mut world = World::open(&state);
    assert_eq!(world.connection(), connection_after);
    // What happened does not happen again.
    world.take(&last);
    assert_eq!(numbers(&state), [1, 2, 3, 4, 5]);
}

/// A report is unique by ship, opening and number: the store says so, too.
#[test]
fn a_report_twice_is_refused() {
    let place = Place::in_memory("unique");
    let mut world = World::open(&place.state());
    let ship = opened(&mut world, 1);
    let older = world.shore.fleet.ships[0].connection.clone();
    world.take(&ship.data(1));
    // Not by any datagram: the connection is put back by hand.
    world.shore.fleet.ships[0].connection = older;
    let way = Way { sender: "192.0.2.1:4000".parse().unwrap(), ours: None };
    let run = [Datagram { way, bytes: ship.data(1) }];
    let refused = world.shore.take(&run, false, &mut |_| true).err().unwrap();
    assert!(refused.contains("UNIQUE constraint failed"), "{refused}");
    assert_eq!(numbers(&place.state()), [1]);
}

/// Numbers begin anew with each opening, and the list tells which.
#[test]
fn openings() {
    let place = Place::in_memory("openings");
    let mut world = World::open(&place.state());
    for opening in 1..=3_u8 {
        let ship = opened(&mut world, opening);
        for number in 1..=u16::from(opening) {
            world.take(&ship.data(number));
        }
        // A restart does not begin anew.
        drop(world);
        world = World::open(&place.state());
        world.take(&ship.data(10));
    }
    let found: Vec<(i64, u16)> =
        place.lines(&Wanted::all()).iter().map(|line| (line.opening, line.number)).collect();
    let expected = [(1, 1), (1, 10), (2, 1), (2, 2), (2, 10), (3, 1), (3, 2), (3, 3), (3, 10)];
    assert_eq!(found, expected);
}

/// No file of the store has a part of the secret: not in open connections, not in handshakes.
#[test]
fn no_secret_in_the_store() {
    let place = Place::in_memory("secret");
    let mut world = World::open(&place.state());
    let ship = opened(&mut world, 77);
    world.take(&ship.data(1));
    world.take(&Ship::new(0, "127.0.0.1:9".parse().unwrap()).hello(78));
    assert_eq!(world.shore.fleet.ships[0].started.len(), 1);
    // The identifier is the front of these secrets.
    let secret = &secret(0)[8..];
    let hex = peer::hex::write(secret);
    for file in files(&place.state()) {
        assert!(!file.windows(6).any(|bytes| bytes == &secret[..6]));
        assert!(!file.windows(12).any(|bytes| bytes == &hex.as_bytes()[..12]));
    }
    // And both go on with the secret that is planted.
    drop(world);
    let mut world = World::open(&place.state());
    world.take(&ship.data(2));
    assert_eq!(numbers(&place.state()), [1, 2]);
}

/// A backup that is restored: what came since is taken again and is in the list once; and no number of ours is spent on a connection
/// of which it is not known how many are spent.
#[test]
fn a_restored_backup() {
    let place = Place::in_memory("restored");
    let mut world = World::open(&place.state());
    let ship = opened(&mut world, 1);
    world.take(&ship.data(1));
    // A handshake under way, of which nobody knows what became of it.
    let mut begun = Ship::new(0, "127.0.0.1:9".parse().unwrap());
    let reply = world.take(&begun.hello(9)).send.remove(0).1;
    begun.unit.hear_reply(&reply).unwrap();
    let backup = files(&place.state());
    world.take(&ship.data(2));
    let flight = ship.unit.flight().unwrap();
    let spent = world.take(&flight);
    assert!(spent.notes.iter().any(|(_, _, note)| *note == Note::Warned));
    drop(world);
    lay(&place.state(), [&backup[0], &backup[1]]);
    let mut world = World::with(&place.state(), Start::Restored);
    world.take(&begun.data_behind_finished(7));
    world.take(&ship.data(1));
    world.take(&ship.data(2));
    assert_eq!(numbers(&place.state()), [1, 2]);
    assert!(world.take(&flight).send.is_empty());
    drop(world);
    // It is remembered, until the ship opens again.
    let mut world = World::open(&place.state());
    assert!(world.take(&flight).send.is_empty());
    let ship = opened(&mut world, 2);
    assert_eq!(world.take(&ship.unit.flight().unwrap()).send.len(), 1);
}

/// Connections of another layout are refused; afresh, the ship says hello again, and its openings go on.
#[test]
fn another_layout() {
    let place = Place::in_memory("layout");
    let mut world = World::open(&place.state());
    let ship = opened(&mut world, 1);
    world.take(&ship.data(1));
    drop(world);
    let store = rusqlite::Connection::open(place.state().join("store.db")).unwrap();
    let sql = "UPDATE store SET layout = '1, 457 and 16 bytes'; UPDATE ships SET connection = x'00', tally = x'00'";
    store.execute_batch(sql).unwrap();
    let sessions =
        || vec![Session { id: identifier(0), secret: secret(0), width: 32, ship: name(0) }];
    let refused = Store::open(&place.at(), &sessions(), Start::AsItWas).err().unwrap();
    assert!(refused.what().contains("connections of layout 1, 457 and 16 bytes"), "{refused:?}");
    let mut world = World::with(&place.state(), Start::Afresh);
    world.take(&ship.data(2));
    assert_eq!(numbers(&place.state()), [1]);
    let ship = opened(&mut world, 2);
    world.take(&ship.data(1));
    drop(world);
    let mut world = World::open(&place.state());
    world.take(&ship.data(2));
    let found: Vec<(i64, u16)> =
        place.lines(&Wanted::all()).iter().map(|line| (line.opening, line.number)).collect();
    assert_eq!(found, [(1, 1), (2, 1), (2, 2)]);
}

fn reports(place: &Place, words: &[&str]) -> Output {
    let mut command = Command::new(env!("CARGO_BIN_EXE_reports"));
    command.arg("--state").arg(place.state()).args(words).output().unwrap()
}

fn said(place: &Place, words: &[&str]) -> String {
    let output = reports(place, words);
    let said = String::from_utf8(output.stdout).unwrap();
    assert!(output.status.success(), "{}", String::from_utf8_lossy(&output.stderr));
    said
}

/// The command `reports`, beside a running gateway and without one.
#[test]
fn what_reports_tells() {
    let place = Place::new("reports");
    place.plant(2);
    let mut gatewayd = Gatewayd::start(&place, ANY, &[]);
    let mut ships = [0, 1].map(|index| Ship::new(index, gatewayd.address));
    for ship in &mut ships {
        ship.open(1);
        for number in [1, 2, 4, 7] {
            ship.send(&ship.data(number));
        }
        wait_for("the reports", || place.listed(ship.index).len() == 4);
    }
    for running in [true, false] {
        let all = said(&place, &[]);
        assert_eq!(all.lines().count(), 8);
        let fields: Vec<&str> = all.lines().next().unwrap().split('\t').collect();
        assert_eq!((fields[0], fields[2], fields[3]), ("ship 0", "1", "1"));
        assert_eq!(fields[5], peer::hex::write(&text(0, 1)));
        let day = &fields[1][..10];
        assert_eq!(said(&place, &["--day", day, "--ship", "ship 1"]).lines().count(), 4);
        assert_eq!(said(&place, &["--day", "1999-01-01"]), "");
        assert_eq!(said(&place, &["--from", day, "--to", day]), "");
        assert_eq!(said(&place, &["--from", fields[1]]).lines().count(), 8);
        let json = said(&place, &["--format", "json"]);
        let first: serde_json::Value = serde_json::from_str(json.lines().next().unwrap()).unwrap();
        assert_eq!((&first["ship"], &first["number"]), (&"ship 0".into(), &1.into()));
        assert_eq!(said(&place, &["--format", "csv"]).lines().count(), 9);
        let gaps = "ship 0\t1\t3\t3\t1\nship 0\t1\t5\t6\t2\n";
        assert_eq!(said(&place, &["--missing", "--ship", "ship 0"]), gaps);
        assert_eq!(said(&place, &["--missing"]).lines().count(), 4);
        if running {
            follow(&place, &ships[0]);
            common::signal(&gatewayd.child, "TERM");
            assert_eq!(gatewayd.child.wait().unwrap().code(), Some(0));
        }
    }
    drop(gatewayd);
    let other = Place::new("reports-none");
    assert_eq!(reports(&other, &[]).status.code(), Some(4));
    assert_eq!(reports(&place, &["--nonsense"]).status.code(), Some(2));
    a_reader_without_rights(&place);
}

/// Gaps of a span: what came before it or after it is no gap, and where something came before, they begin with the lowest of the span.
#[test]
fn gaps_of_a_span() {
    let place = Place::in_memory("gaps");
    place.plant(3);
    Gatewayd::start(&place, ANY, &[]).end();
    let store = rusqlite::Connection::open(place.state().join("store.db")).unwrap();
    let day = |day: i64| 86_400_000 * day;
    let rows: [(usize, i64, i64, i64); 13] = [
        (0, 1, 1, 0),
        (0, 1, 2, 0),
        (0, 1, 4, 0),
        (1, 1, 2, 0),
        (0, 1, 3, 1),
        (0, 1, 6, 1),
        (0, 2, 3, 1),
        (0, 2, 4, 1),
        (1, 1, 900, 1),
        (1, 1, 902, 1),
        (2, 1, 1200, 1),
        (0, 2, 1, 2),
        (2, 1, 700, 2),
    ];
    for (ship, opening, number, on) in rows {
        let values = (&identifier(ship)[..], opening, number, day(on));
        let sql = "INSERT INTO reports (ship, opening, number, received, bytes) VALUES (?, ?, ?, ?, x'61')";
        store.execute(sql, values).unwrap();
    }
    let on = |day: &str| said(&place, &["--missing", "--day", day]);
    assert_eq!(on("1970-01-01"), "ship 1\t1\t1\t1\t1\n");
    let second = "ship 0\t1\t5\t5\t1\nship 0\t2\t2\t2\t1\nship 1\t1\t901\t901\t1\n";
    assert_eq!(
        on("1970-01-02"),
        format!("{second}ship 2\t1\t1\t699\t699\nship 2\t1\t701\t1199\t499\n")
    );
}

/// Somebody takes the row of a ship away: nothing is sent or listed that is not in the store.
#[test]
fn a_row_that_is_gone() {
    let place = Place::in_memory("row-gone");
    let mut world = World::open(&place.state());
    let ship = opened(&mut world, 1);
    let store = rusqlite::Connection::open(place.state().join("store.db")).unwrap();
    store.execute("DELETE FROM ships", []).unwrap();
    let way = Way { sender: "192.0.2.1:4000".parse().unwrap(), ours: None };
    let run = [Datagram { way, bytes: ship.data(1) }];
    let taken = world.shore.take(&run, false, &mut |what| panic!("{what}"));
    assert!(taken.err().unwrap().contains("the row of a ship is gone"));
    assert_eq!(numbers(&place.state()), [0; 0]);
}

/// What comes while it is followed is told, once; the report is then taken away for the comparisons that follow.
fn follow(place: &Place, ship: &Ship) {
    let mut child = Command::new(env!("CARGO_BIN_EXE_reports"))
        .arg("--state")
        .arg(place.state())
        .args(["--follow", "--ship", "ship 0"])
        .stdout(Stdio::from(fs::File::create(place.path.join("followed")).unwrap()))
        .spawn()
        .unwrap();
    let told = || fs::read_to_string(place.path.join("followed")).unwrap();
    wait_for("the first four", || told().lines().count() == 4);
    ship.send(&ship.data(8));
    wait_for("the next one", || told().lines().count() == 5);
    std::thread::sleep(Duration::from_millis(500));
    assert_eq!(told().lines().count(), 5);
    child.kill().unwrap();
    child.wait().unwrap();
    let store = rusqlite::Connection::open(place.state().join("store.db")).unwrap();
    store.busy_timeout(Duration::from_secs(5)).unwrap();
    store.execute("DELETE FROM reports WHERE number = 8", []).unwrap();
}

/// A planner who may read the files, and no more: the gateway does not run, and its log is still there.
fn a_reader_without_rights(place: &Place) {
    let may = |mode: &str, path: &Path| {
        Command::new("chmod").arg(mode).arg(path).status().unwrap().success()
    };
    for path in ["", "store.db", "store.db-wal", "store.db-shm"] {
        assert!(may("o+rX", &place.state().join(path)), "{path}");
    }
    let output = Command::new("setpriv")
        .args(["--reuid", "65534", "--regid", "65534", "--clear-groups", "--"])
        .args([env!("CARGO_BIN_EXE_reports"), "--state"])
        .arg(place.state())
        .output()
        .unwrap();
    let said = String::from_utf8(output.stderr).unwrap();
    if said.contains("setpriv") {
        println!("skipped: only root can be somebody else");
        return;
    }
    assert!(output.status.success(), "{said}");
    assert_eq!(String::from_utf8(output.stdout).unwrap().lines().count(), 8);
}
