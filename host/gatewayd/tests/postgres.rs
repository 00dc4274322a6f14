//! Two gateways on one PostgreSQL. `tests/postgres` runs these, where a server is installed.

mod common;

use common::{name, signal, text, wait_for, Gatewayd, Place, Ship};
use gatewayd::reports::Wanted;
use peer::rng::Rng;
use std::collections::BTreeSet;
use std::fs;
use std::net::{SocketAddr, UdpSocket};
use std::path::PathBuf;
use std::process::{Command, Output};
use std::sync::atomic::{AtomicBool, AtomicUsize, Ordering};
use std::thread;
use std::time::{Duration, Instant};

const ANY: &str = "127.0.0.1:0";
const SHIPS: usize = 4;
const SEED: u64 = 30;
/// So many kills of gateways, or as many as KILLS says; and one of the server in each so many.
const KILLS: usize = 60;
const SERVER_EACH: usize = 12;

/// A server of its own, in a directory of its own. It does not run as root.
struct Server {
    directory: PathBuf,
}

impl Server {
    fn start(place: &Place) -> Server {
        let directory = place.path.join("server");
        fs::create_dir(&directory).unwrap();
        let owner = Command::new("chown").arg("postgres").arg(&directory).status();
        assert!(owner.unwrap().success());
        let server = Server { directory };
        let data = server.data();
        server.run(&[
            "initdb",
            "-D",
            &data,
            "-A",
            "trust",
            "-U",
            "postgres",
            "--no-sync",
            "-E",
            "UTF8",
        ]);
        server.begin();
        server.sql("postgres", "CREATE DATABASE fleet");
        server
    }

    fn data(&self) -> String {
        self.directory.join("data").display().to_string()
    }

    fn begin(&self) {
        let words =
            format!("-k {} -c listen_addresses= -c max_connections=40", self.directory.display());
        let log = self.directory.join("log").display().to_string();
        self.run(&["pg_ctl", "-D", &self.data(), "-w", "-l", &log, "-o", &words, "start"]);
    }

    /// As a power cut would: nothing is written any more.
    fn stop(&self) {
        self.run(&["pg_ctl", "-D", &self.data(), "-m", "immediate", "stop"]);
    }

    fn run(&self, words: &[&str]) {
        let output = tool(words);
        let said = String::from_utf8_lossy(&output.stderr).into_owned();
        assert!(output.status.success(), "{words:?}: {said}");
    }

    fn address(&self, role: &str) -> String {
        format!("postgres:///fleet?host={}&user={role}", self.directory.display())
    }

    fn sql(&self, database: &str, sql: &str) -> String {
        let output = self.psql(database, "postgres", sql);
        assert!(output.status.success(), "{}", String::from_utf8_lossy(&output.stderr));
        String::from_utf8(output.stdout).unwrap()
    }

    fn psql(&self, database: &str, role: &str, sql: &str) -> Output {
        let host = self.directory.display().to_string();
        Command::new("psql")
            .args([
                "-qAt",
                "-v",
                "ON_ERROR_STOP=1",
                "-h",
                &host,
                "-U",
                role,
                "-d",
                database,
                "-c",
                sql,
            ])
            .output()
            .unwrap()
    }

    fn set_up(&self) {
        let script = Command::new(env!("CARGO_BIN_EXE_gatewayd")).arg("--set-up").output().unwrap();
        let file = self.directory.join("set-up");
        fs::write(&file, script.stdout).unwrap();
        let host = self.directory.display().to_string();
        let done = Command::new("psql")
            .args(["-q", "-h", &host, "-U", "postgres", "-d", "fleet", "-f"])
            .arg(file)
            .output()
            .unwrap();
        assert!(done.status.success(), "{}", String::from_utf8_lossy(&done.stderr));
    }
}

impl Drop for Server {
    fn drop(&mut self) {
        let _ = tool(&["pg_ctl", "-D", &self.data(), "-m", "immediate", "stop"]);
    }
}

/// One of the server's own programs, as its user.
fn tool(words: &[&str]) -> Output {
    let versions = fs::read_dir("/usr/lib/postgresql").unwrap();
    let newest = versions.map(|entry| entry.unwrap().path()).max().unwrap();
    let group = ["--reuid", "postgres", "--regid", "postgres", "--clear-groups", "--"];
    Command::new("setpriv")
        .args(group)
        .arg(newest.join("bin").join(words[0]))
        .args(&words[1..])
        .current_dir("/")
        .output()
        .unwrap()
}

/// A server with the tables, and a place whose gateways use it.
fn scene(name: &str, ships: usize) -> (Server, Place) {
    let mut place = Place::in_memory(name);
    place.plant(ships);
    let server = Server::start(&place);
    server.set_up();
    place.server = Some(server.address("gatewayd"));
    (server, place)
}

/// A ship that sends to one gateway or the other.
struct Spread {
    ship: Ship,
    other: UdpSocket,
}

impl Spread {
    fn new(index: usize, to: [SocketAddr; 2]) -> Spread {
        let ship = Ship::new(index, to[0]);
        let other = UdpSocket::bind(ANY).unwrap();
        other.connect(to[1]).unwrap();
        Spread { ship, other }
    }

    fn turn(&mut self) {
        std::mem::swap(&mut self.ship.socket, &mut self.other);
    }

    fn send(&mut self, datagram: &[u8], rng: &mut Rng) {
        if rng.percent(50) {
            self.turn();
        }
        self.ship.send(datagram);
        // Now and then both get it.
        if rng.percent(10) {
            self.turn();
            self.ship.send(datagram);
        }
    }

    fn hear(&mut self) -> bool {
        let wait = Duration::from_micros(100);
        let first = self.ship.hear(wait);
        self.turn();
        self.ship.hear(wait) || first
    }
}

/// Both gateways killed again and again, and the server, too; and the ships' datagrams spread over both.
#[test]
#[ignore]
fn two_gateways_and_their_server_killed() {
    let (server, place) = scene("pg-kill", SHIPS);
    let more = ["--warn-every", "0"];
    let wanted = std::env::var("KILLS").ok().map_or(KILLS, |count| count.parse().unwrap());
    let mut running = [0, 1].map(|_| Some(Gatewayd::start(&place, ANY, &more)));
    let to = [0, 1].map(|one: usize| running[one].as_ref().unwrap().address);
    let done = AtomicBool::new(false);
    let (kills, stops) = (AtomicUsize::new(0), AtomicUsize::new(0));
    let reports: Vec<u16> = thread::scope(|scope| {
        scope.spawn(|| {
            let mut rng = Rng::new(SEED);
            while !done.load(Ordering::Relaxed) {
                thread::sleep(Duration::from_micros(rng.between(1000, 80_000) as u64));
                let one = rng.under(2);
                running[one].take().unwrap().kill();
                running[one] = Some(Gatewayd::start_at_last(&place, &to[one].to_string(), &more));
                if kills.fetch_add(1, Ordering::Relaxed) % SERVER_EACH == SERVER_EACH - 1 {
                    server.stop();
                    thread::sleep(Duration::from_millis(rng.between(0, 600) as u64));
                    server.begin();
                    stops.fetch_add(1, Ordering::Relaxed);
                }
            }
            // The server may just have begun again: then a gateway ends with 6, as it says.
            for one in &mut running {
                let (status, _) = one.take().unwrap().end_as_it_may();
                assert!(matches!(status, Some(0 | 6)), "{status:?}");
            }
        });
        let _ends = SetAtEnd(&done);
        let mut rng = Rng::new(SEED + 1);
        let sailed = |index: usize| {
            let mut ship = Spread::new(index, to);
            let enough = || kills.load(Ordering::Relaxed) >= wanted * (index + 1) / SHIPS;
            sail(&mut ship, &place, &mut rng, enough)
        };
        (0..SHIPS).map(sailed).collect()
    });
    let (kills, stops) = (kills.into_inner(), stops.into_inner());
    assert!(kills >= wanted && stops >= wanted / SERVER_EACH, "{kills} kills, {stops} stops");
    for ship in 0..SHIPS {
        let mut listed = place.listed(ship);
        listed.sort();
        let expected: Vec<_> =
            (1..=reports[ship]).map(|number| (number, text(ship, number))).collect();
        assert_eq!(listed, expected, "ship {ship} after {kills} kills");
    }
    assert!(place.lines(&Wanted::all()).iter().all(|line| line.opening == 1));
    let tallies = Gatewayd::start(&place, ANY, &[]).end();
    for ship in 0..SHIPS {
        let line = tallies.lines().find(|line| line.ends_with(&name(ship))).unwrap();
        assert!(line.starts_with(&format!("{}\t", reports[ship])), "{line}");
    }
    println!("{kills} kills of a gateway, {stops} of the server; {reports:?} reports");
}

struct SetAtEnd<'a>(&'a AtomicBool);

impl Drop for SetAtEnd<'_> {
    fn drop(&mut self) {
        self.0.store(true, Ordering::Relaxed);
    }
}

/// Reports of a ship until it is enough; gives how many. What is not in the store is sent again, and some that is.
fn sail(spread: &mut Spread, place: &Place, rng: &mut Rng, enough: impl Fn() -> bool) -> u16 {
    let hello = spread.ship.hello(spread.ship.index as u8 + 1);
    let start = Instant::now();
    while !spread.hear() || spread.ship.random.is_empty() {
        assert!(start.elapsed() < Duration::from_secs(60), "no reply");
        spread.send(&hello, rng);
        thread::sleep(Duration::from_millis(5));
    }
    let (mut next, mut last) = (1, u16::MAX);
    let mut progress = (0, Instant::now());
    loop {
        spread.hear();
        let Some(listed) = listed(place, spread.ship.index) else { continue };
        if listed.len() > progress.0 {
            progress = (listed.len(), Instant::now());
        }
        let silent = progress.1.elapsed();
        assert!(silent < Duration::from_secs(60), "reports are missing for good");
        let missing = (1..next).find(|number| !listed.contains(number)).unwrap_or(next);
        if last == u16::MAX && enough() {
            last = next.max(40);
        }
        if missing > last {
            return last;
        }
        for _ in 0..rng.between(1, 6) {
            if next <= last && next < missing + 20 {
                next += 1;
                report(spread, next - 1, rng);
            }
        }
        for number in next.saturating_sub(24).max(1)..next {
            if !listed.contains(&number) || rng.percent(20) {
                report(spread, number, rng);
            }
        }
        thread::sleep(Duration::from_micros(rng.between(0, 4000) as u64));
    }
}

fn report(spread: &mut Spread, number: u16, rng: &mut Rng) {
    let datagram = match number < 40 || rng.percent(30) {
        true => spread.ship.data_behind_finished(number),
        false => spread.ship.data(number),
    };
    spread.send(&datagram, rng);
}

/// None while the server is away.
fn listed(place: &Place, ship: usize) -> Option<BTreeSet<u16>> {
    let mut engine = gatewayd::store::open_to_read(&place.at()).ok()?;
    let mut numbers = BTreeSet::new();
    let wanted = Wanted { ship: Some(name(ship)), ..Wanted::all() };
    let read = gatewayd::reports::each(engine.as_mut(), &wanted, 0, |line| {
        assert!(numbers.insert(line.number), "{} twice", line.number);
    });
    read.ok().map(|_| numbers)
}

/// What one gateway begins the other goes on with: hello and Finished, reports, a move, an end, a barred session.
#[test]
#[ignore]
fn any_gateway_takes_any_datagram() {
    let (_server, place) = scene("pg-any", 3);
    let one = Gatewayd::start(&place, ANY, &[]);
    let other = Gatewayd::start(&place, ANY, &[]);
    let to = [one.address, other.address];
    let mut ship = Spread::new(0, to);
    ship.ship.shake_hands(1);
    ship.turn();
    ship.ship.send(&ship.ship.data_behind_finished(1));
    wait_for("the report to the other", || place.listed(0).len() == 1);
    for number in 2..=40 {
        ship.turn();
        ship.ship.send(&ship.ship.data(number));
        thread::sleep(Duration::from_millis(3));
    }
    wait_for("reports to both", || place.listed(0).len() == 40);
    // A repeated one is repeated for both.
    for _ in 0..4 {
        ship.turn();
        ship.ship.send(&ship.ship.data(40));
    }
    // Closed at one, it opens at the other, once the one has taken the alert.
    let log = || fs::read_to_string(place.path.join("log")).unwrap();
    ship.ship.send(&ship.ship.alert(2, 0, 41));
    wait_for("the closing", || log().contains("closed by an alert, description 0"));
    ship.turn();
    ship.ship.open(2);
    ship.turn();
    // It may overtake the Finished.
    wait_for("the second opening", || {
        ship.ship.send(&ship.ship.data(1));
        place.listed(0).len() == 41
    });
    assert_eq!(place.lines(&Wanted::all()).last().map(|line| line.opening), Some(2));
    // Barred at one, it is out at the other.
    let mut barred = Spread::new(1, to);
    barred.ship.open(1);
    barred.ship.send(&barred.ship.alert(3, 40, 1));
    wait_for("the alert", || log().contains("session barred by a fatal alert"));
    barred.turn();
    let hello = barred.ship.hello(2);
    barred.ship.send(&hello);
    assert!(!barred.ship.hear(Duration::from_millis(300)));
    let tallies = other.end();
    assert!(tallies.contains("\tbarred\tship 1\n"), "{tallies}");
    let tallies = one.end();
    assert!(tallies.contains("41\t0\t0\t") && tallies.contains("\topen\tship 0\n"), "{tallies}");
}

/// The server is gone for a while: a line, nothing is answered, what arrives waits; and it goes on by itself.
#[test]
#[ignore]
fn the_server_gone_for_a_while() {
    let (server, place) = scene("pg-gone", 1);
    let mut gatewayd = Gatewayd::start(&place, ANY, &[]);
    let mut ship = Ship::new(0, gatewayd.address);
    ship.open(1);
    ship.send(&ship.data(1));
    wait_for("the report", || place.listed(0).len() == 1);
    server.stop();
    for number in 2..=100 {
        ship.send(&ship.data(number));
        thread::sleep(Duration::from_millis(5));
    }
    let log = || fs::read_to_string(place.path.join("log")).unwrap();
    wait_for("the line", || log().contains("; datagrams wait"));
    server.begin();
    wait_for("all reports", || place.listed(0).len() == 100);
    let expected: Vec<_> = (1..=100).map(|number| (number, text(0, number))).collect();
    assert_eq!(place.listed(0), expected);
    assert!(log().contains(" s without it; meanwhile the system dropped 0 datagrams"), "{}", log());
    // The end can be asked for while it is gone.
    server.stop();
    ship.send(&ship.data(101));
    wait_for("the line", || log().matches("; datagrams wait").count() == 2);
    signal(&gatewayd.child, "TERM");
    assert_eq!(gatewayd.child.wait().unwrap().code(), Some(6));
    server.begin();
}

/// The server is gone at the start: a line, what arrives waits, and when the server is back, the gateway goes on by itself.
#[test]
#[ignore]
fn the_server_gone_at_the_start() {
    let (server, place) = scene("pg-start", 2);
    let mut gatewayd = Gatewayd::start(&place, ANY, &[]);
    let address = gatewayd.address;
    let mut ships = [0, 1].map(|index| Ship::new(index, address));
    ships.iter_mut().for_each(|ship| ship.open(1));
    let report = |numbers: std::ops::RangeInclusive<u16>| {
        for number in numbers {
            ships.iter().for_each(|ship| ship.send(&ship.data(number)));
        }
    };
    let all = |count: usize| [0, 1].iter().all(|ship| place.listed(*ship).len() == count);
    report(1..=10);
    wait_for("reports", || all(10));
    let log = || fs::read_to_string(place.path.join("log")).unwrap();
    gatewayd.end();
    server.stop();
    gatewayd = thread::scope(|scope| {
        let starting = scope.spawn(|| Gatewayd::start(&place, &address.to_string(), &[]));
        wait_for("the line", || log().contains("; datagrams wait"));
        report(11..=60);
        thread::sleep(Duration::from_millis(300));
        server.begin();
        starting.join().unwrap()
    });
    wait_for("all reports", || all(60));
    for ship in [0, 1] {
        let expected: Vec<_> = (1..=60).map(|number| (number, text(ship, number))).collect();
        assert_eq!(place.listed(ship), expected);
    }
    assert!(log().contains(" s without it; meanwhile the system dropped 0 datagrams"), "{}", log());
    gatewayd.end();
    // The end can be asked for meanwhile.
    server.stop();
    let mut child = Gatewayd::spawn(&place, &address.to_string());
    wait_for("the line", || log().matches("; datagrams wait").count() == 2);
    signal(&child, "TERM");
    assert_eq!(child.wait().unwrap().code(), Some(6));
    server.begin();
}

/// No tables, another version, no rights: one line and status 4. Planners read reports and no connection.
#[test]
#[ignore]
fn roles_and_refusals_to_start() {
    let mut place = Place::in_memory("pg-roles");
    place.plant(1);
    let server = Server::start(&place);
    let refused = |address: &str, expected: &str| {
        let output = Command::new("timeout")
            .args([
                "20",
                env!("CARGO_BIN_EXE_gatewayd"),
                "--listen",
                ANY,
                "--store",
                address,
                "--sessions",
            ])
            .arg(place.sessions())
            .output()
            .unwrap();
        let said = String::from_utf8(output.stderr).unwrap();
        assert_eq!(output.status.code(), Some(4), "{said}");
        assert!(said.lines().count() == 1 && said.contains(expected), "{said}");
    };
    refused(&server.address("postgres"), "relation \"store\" does not exist");
    server.set_up();
    refused(&server.address("planner"), "permission denied");
    refused(&server.address("nobody"), "role \"nobody\" does not exist");
    server.sql("fleet", "UPDATE store SET version = 7");
    refused(&server.address("gatewayd"), "tables of version 7");
    server.sql("fleet", "UPDATE store SET version = 1");
    refused(
        &server.address("gatewayd").replace("/fleet", "/other"),
        "database \"other\" does not exist",
    );
    refused("postgres:///fleet?nonsense=1", "nonsense");
    place.server = Some(server.address("gatewayd"));
    let gatewayd = Gatewayd::start(&place, ANY, &[]);
    let mut ship = Ship::new(0, gatewayd.address);
    ship.open(1);
    ship.send(&ship.data(1));
    ship.send(&ship.data(3));
    wait_for("the reports", || place.listed(0).len() == 2);
    gatewayd.end();
    let told = |words: &[&str]| {
        let output = Command::new(env!("CARGO_BIN_EXE_reports"))
            .args(["--store", &server.address("planner")])
            .args(words)
            .output()
            .unwrap();
        assert!(output.status.success(), "{}", String::from_utf8_lossy(&output.stderr));
        String::from_utf8(output.stdout).unwrap()
    };
    assert_eq!(told(&[]).lines().count(), 2);
    assert_eq!(told(&["--missing"]), "ship 0\t1\t2\t2\t1\n");
    for forbidden in
        ["SELECT connection FROM ships", "SELECT handshakes FROM ships", "DELETE FROM reports"]
    {
        let output = server.psql("fleet", "planner", forbidden);
        let said = String::from_utf8(output.stderr).unwrap();
        assert!(said.contains("permission denied"), "{forbidden}: {said}");
    }
    let said = server.psql("fleet", "gatewayd", "DELETE FROM reports").stderr;
    assert!(String::from_utf8(said).unwrap().contains("permission denied"));
}
