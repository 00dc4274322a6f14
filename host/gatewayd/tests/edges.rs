//! The edges of the program: bursts, a log that nobody reads, signals, restarts that lose nothing,
//! many sessions, odd arguments, several own addresses.

mod common;

use common::{identifier, signal, text, wait_for, Gatewayd, Place, Ship};
use std::ffi::OsString;
use std::fs;
use std::io::{BufRead, BufReader, Read};
use std::net::UdpSocket;
use std::os::fd::OwnedFd;
use std::os::unix::ffi::OsStringExt;
use std::os::unix::fs::PermissionsExt;
use std::process::{Child, Command, Stdio};
use std::sync::atomic::{AtomicBool, Ordering};
use std::thread;
use std::time::{Duration, Instant};

const ANY: &str = "127.0.0.1:0";

/// 500 datagrams in one burst: all of them are listed.
#[test]
fn a_burst() {
    let place = Place::new("burst");
    place.plant(1);
    let gatewayd = Gatewayd::start(&place, ANY, &[]);
    let mut ship = Ship::new(0, gatewayd.address);
    ship.open(1);
    ship.hear(Duration::from_millis(50));
    let datagrams: Vec<_> = (1..=500).map(|number| ship.data(number)).collect();
    datagrams.iter().for_each(|datagram| ship.send(datagram));
    wait_for("the burst", || place.listed(0).len() == 500);
    gatewayd.end();
}

/// A stopped gateway's buffer fills: what the system dropped is told, in the log.
#[test]
fn what_the_system_drops_is_told() {
    let place = Place::new("dropped");
    place.plant(2);
    let mut gatewayd = Gatewayd::start(&place, ANY, &["--log-every", "0.1"]);
    let mut ship = Ship::new(0, gatewayd.address);
    ship.open(1);
    signal(&gatewayd.child, "STOP");
    let large = [0x64; 1400];
    for _ in 0..40_000 {
        ship.send(&large);
    }
    signal(&gatewayd.child, "CONT");
    let log = || fs::read_to_string(place.path.join("log")).unwrap();
    wait_for("the line", || {
        ship.send(&large);
        log().contains("the system dropped ")
    });
    ship.send(&ship.data(1));
    wait_for("the report", || place.listed(0).len() == 1);
    // Started anew it does not tell them again, but those that it drops from now on; and so after that.
    let mut other = Ship::new(1, gatewayd.address);
    other.open(1);
    let mut told = Vec::new();
    for turn in 1..=2_u16 {
        gatewayd.start_anew();
        told.push(dropped(&log()));
        other.send(&other.data(turn));
        ship.send(&ship.data(1 + turn));
        wait_for("reports", || {
            place.listed(0).len() + place.listed(1).len() == 1 + 2 * usize::from(turn)
        });
    }
    thread::sleep(Duration::from_millis(300));
    assert_eq!(told, [dropped(&log()), dropped(&log())]);
    signal(&gatewayd.child, "STOP");
    for _ in 0..40_000 {
        ship.send(&large);
    }
    signal(&gatewayd.child, "CONT");
    wait_for("more", || {
        ship.send(&large);
        dropped(&log()) > told[0]
    });
    let more = dropped(&log()) - told[0];
    assert!(more <= 41_000, "{more}");
    gatewayd.end();
}

/// How many dropped datagrams a log tells of.
fn dropped(log: &str) -> u64 {
    let counts = log.lines().filter_map(|line| line.split_once("the system dropped "));
    counts.map(|(_, count)| count.split(' ').next().unwrap().parse::<u64>().unwrap()).sum()
}

/// Two networks with one link between them, over which the far one sends a kilobit a second; all else that it sends waits in a queue.
/// In the near one the words go on with the process that holds the far one.
const SLOW_LINK: &str = "
unshare --net sleep 100 & far=$!
trap 'kill $far' EXIT
for _ in $(seq 100); do [ $(readlink /proc/$far/ns/net) = $(readlink /proc/self/ns/net) ] || break; sleep 0.05; done
{ ip link add near type veth peer name far && ip link set far netns $far && ip link set lo up && ip link set near up &&
  ip addr add 10.9.0.2/24 dev near && ip route add local 10.9.1.0/24 dev lo &&
  nsenter -t $far -n sh -c 'ip addr add 10.9.0.1/24 dev far && ip link set far up && ip route add 10.9.1.0/24 via 10.9.0.2 &&
    tc qdisc add dev far root tbf rate 1kbit burst 2000 limit 10000000'; } 2>/dev/null || exit 77
FAR=$far \"$@\"
";

/// A slow link, and hellos in a third ship's name, whose replies fill all that the system holds for it. The gateway does not wait for
/// it: the reports of both ships are listed meanwhile, and what was not sent is counted. Only root can make networks.
#[test]
fn a_send_does_not_wait() {
    let Ok(far) = std::env::var("FAR") else {
        let this = std::env::current_exe().unwrap();
        let within = ["--net", "sh", "-c", SLOW_LINK, "sh"];
        let words = ["--exact", "a_send_does_not_wait", "--nocapture"];
        let ran = Command::new("unshare").args(within).arg(this).args(words).output().unwrap();
        let said = [ran.stdout, ran.stderr].map(|text| String::from_utf8_lossy(&text).into_owned());
        match ran.status.code() {
            Some(0) => {}
            Some(1 | 77) if !said[0].contains("running 1 test") => {
                println!("skipped: no slow link can be made here")
            }
            _ => panic!("{}", said.concat()),
        }
        return;
    };
    let place = Place::new("slow-link");
    place.plant(3);
    // Without the right to more, the system holds what it holds for everybody.
    let words = [
        "nsenter",
        "-t",
        &far,
        "-n",
        "setpriv",
        "--bounding-set=-net_admin",
        "--inh-caps=-net_admin",
    ];
    let gatewayd = Gatewayd::start_behind(&place, &words, "10.9.0.1:9202");
    let at = |host: String| {
        let socket = UdpSocket::bind(host).unwrap();
        socket.connect(gatewayd.address).unwrap();
        socket
    };
    let ship = |index: usize| {
        let mut ship = Ship::new(index, "127.0.0.1:9".parse().unwrap());
        ship.socket = at("10.9.0.2:0".to_string());
        ship
    };
    let mut ships = [ship(0), ship(1)];
    ships.iter_mut().for_each(|ship| ship.open(1));
    let hello = ship(2).hello(1);
    let strangers: Vec<_> = (1..=40).map(|host| at(format!("10.9.1.{host}:0"))).collect();
    let log = || fs::read_to_string(place.path.join("log")).unwrap();
    wait_for("what is not sent", || {
        strangers.iter().for_each(|stranger| assert!(stranger.send(&hello).is_ok()));
        log().contains("datagram not sent: ")
    });
    for number in 1..=20 {
        ships.iter().for_each(|ship| ship.send(&ship.data(number)));
    }
    wait_for("reports", || [0, 1].iter().all(|ship| place.listed(*ship).len() == 20));
    gatewayd.end();
    assert!(log().contains("; 1 so far\n"), "{}", log());
}

/// A gateway whose standard error is a pipe that nobody reads. 4,000 lines are said, of some 80 bytes
/// each; the pipe holds 64 kB, and 1,024 lines wait. The listing goes on.
fn with_unread_log(place: &Place) -> (Child, Ship, Vec<u8>) {
    place.plant(1);
    let mut child = Command::new(env!("CARGO_BIN_EXE_gatewayd"))
        .args(["--listen", ANY, "--log-every", "0", "--sessions"])
        .arg(place.sessions())
        .arg("--state")
        .arg(place.state())
        .stdout(Stdio::piped())
        .stderr(Stdio::piped())
        .spawn()
        .unwrap();
    let mut line = String::new();
    BufReader::new(child.stdout.as_mut().unwrap()).read_line(&mut line).unwrap();
    let address = line.split_whitespace().nth(4).unwrap().trim_end_matches(':').parse().unwrap();
    let mut ship = Ship::new(0, address);
    ship.open(1);
    let mut forged = ship.data(1);
    *forged.last_mut().unwrap() ^= 1;
    for number in 1..=40 {
        for _ in 0..100 {
            ship.send(&forged);
        }
        ship.send(&ship.data(number));
        wait_for("the report", || place.listed(0).len() == usize::from(number));
    }
    (child, ship, forged)
}

#[test]
fn a_log_that_nobody_reads() {
    let place = Place::new("unread");
    let (mut child, ..) = with_unread_log(&place);
    signal(&child, "TERM");
    let start = Instant::now();
    assert_eq!(child.wait().unwrap().code(), Some(0));
    assert!(start.elapsed() < Duration::from_secs(5));
    let mut log = String::new();
    child.stderr.take().unwrap().read_to_string(&mut log).unwrap();
    assert!(log.lines().count() < 2500, "{} lines", log.lines().count());
}

/// Lines that were dropped are counted when somebody reads again.
#[test]
fn dropped_lines_are_counted() {
    let place = Place::new("read-again");
    let (mut child, ship, forged) = with_unread_log(&place);
    let mut log = BufReader::new(child.stderr.take().unwrap()).lines();
    let told = (0..5000).any(|_| {
        ship.send(&forged);
        log.next().unwrap().unwrap().contains(" lines dropped: nobody read the log")
    });
    assert!(told);
    child.kill().unwrap();
    child.wait().unwrap();
}

/// SIGHUP: a new start in the same place, with the sessions as they are now; a bad sessions file
/// leaves it as it is.
#[test]
fn a_new_start() {
    let place = Place::new("sighup");
    place.plant(1);
    let gatewayd = Gatewayd::start(&place, ANY, &[]);
    let mut ship = Ship::new(0, gatewayd.address);
    ship.open(1);
    ship.send(&ship.data(1));
    wait_for("the report", || place.listed(0).len() == 1);
    let log = || fs::read_to_string(place.path.join("log")).unwrap();
    let good = fs::read(place.sessions()).unwrap();
    fs::write(place.sessions(), "nonsense\n").unwrap();
    signal(&gatewayd.child, "HUP");
    wait_for("the refusal", || log().contains("no new start: "));
    ship.send(&ship.data(2));
    wait_for("the second report", || place.listed(0).len() == 2);
    fs::write(place.sessions(), good).unwrap();
    place.plant(2);
    // Asked for many times, over several starts: some of them come while it starts.
    for _ in 0..300 {
        signal(&gatewayd.child, "HUP");
    }
    ship.send(&ship.data(3));
    wait_for("the third report", || place.listed(0).len() == 3);
    let mut new = Ship::new(1, gatewayd.address);
    new.open(1);
    new.send(&new.data(1));
    wait_for("the new ship's report", || place.listed(1).len() == 1);
    let tallies = gatewayd.end();
    assert!(tallies.contains("3\t0\t0\t0\t4 of 32\topen\tship 0\n"), "{tallies}");
    assert!(tallies.contains("1\t0\t0\t0\t2 of 32\topen\tship 1\n"), "{tallies}");
}

/// SIGHUP, and the program is not there any more, or is none: the old one goes on, says so in one line,
/// and neither ship loses anything. When it is there again, it is started.
#[test]
fn a_new_start_without_a_program() {
    let place = Place::new("no-program");
    place.plant(3);
    let program = place.path.join("gatewayd");
    let put_there = || {
        let new = place.path.join("new");
        fs::copy(env!("CARGO_BIN_EXE_gatewayd"), &new).unwrap();
        fs::rename(new, &program).unwrap();
    };
    put_there();
    let mut gatewayd = Gatewayd::start_program(&place, &program, ANY);
    let mut ships = [0, 1].map(|index| Ship::new(index, gatewayd.address));
    ships.iter_mut().for_each(|ship| ship.open(1));
    let report = |number: u16| {
        ships.iter().for_each(|ship| ship.send(&ship.data(number)));
        wait_for("reports", || {
            [0, 1].iter().all(|ship| place.listed(*ship).len() == usize::from(number))
        });
    };
    let told = || {
        let log = fs::read_to_string(place.path.join("log")).unwrap();
        log.lines().filter(|line| line.ends_with("the old program goes on")).count()
    };
    report(1);
    fs::remove_file(&program).unwrap();
    gatewayd.start_anew();
    report(2);
    assert_eq!(told(), 1);
    fs::create_dir(&program).unwrap();
    gatewayd.start_anew();
    report(3);
    assert_eq!(told(), 2);
    fs::remove_dir(&program).unwrap();
    put_there();
    gatewayd.start_anew();
    report(4);
    assert_eq!(told(), 2);
    gatewayd.end();
}

/// Reports go on, some 500 a second and each sent once, while the gateway is restarted ten times:
/// with a socket that is held for it, as systemd does, and by SIGHUP. None is lost.
#[test]
fn ten_restarts_without_a_report_lost() {
    let place = Place::new("restarts");
    place.plant(2);
    let socket = UdpSocket::bind(ANY).unwrap();
    socket.set_nonblocking(true).unwrap();
    let address = socket.local_addr().unwrap();
    let held: OwnedFd = socket.into();
    let mut gatewayd = Gatewayd::start_with(&place, &held);
    assert_eq!(gatewayd.address, address);
    let mut ships = [0, 1].map(|index| Ship::new(index, address));
    ships.iter_mut().for_each(|ship| ship.open(1));
    let done = AtomicBool::new(false);
    let sent = thread::scope(|scope| {
        let sending = scope.spawn(|| {
            let mut number = 0;
            while !done.load(Ordering::Relaxed) {
                number += 1;
                for ship in &ships {
                    ship.send(&ship.data(number));
                }
                thread::sleep(Duration::from_millis(4));
            }
            number
        });
        for turn in 0..10 {
            thread::sleep(Duration::from_millis(150));
            if turn % 2 == 0 {
                gatewayd.end_at(turn);
                thread::sleep(Duration::from_millis(100));
                gatewayd = Gatewayd::start_with(&place, &held);
            } else {
                gatewayd.start_anew();
            }
        }
        done.store(true, Ordering::Relaxed);
        sending.join().unwrap()
    });
    assert!(sent > 100, "{sent}");
    for ship in 0..2 {
        wait_for("all reports", || place.listed(ship).len() >= sent.into());
        let expected: Vec<_> = (1..=sent).map(|number| (number, text(ship, number))).collect();
        assert_eq!(place.listed(ship), expected);
    }
    println!("{sent} reports of each of two ships over ten restarts");
    gatewayd.end();
}

/// A reply comes from the address to which the hello went.
#[test]
fn several_own_addresses() {
    let place = Place::new("addresses");
    place.plant(3);
    let gatewayd = Gatewayd::start(&place, "0.0.0.0:0", &["--warn-every", "0"]);
    for (index, ours) in ["127.0.0.1", "127.0.0.2", "127.0.0.3"].into_iter().enumerate() {
        let to = format!("{ours}:{}", gatewayd.address.port()).parse().unwrap();
        let mut ship = Ship::new(index, to);
        ship.open(1);
        ship.send(&ship.unit.flight().unwrap());
        // A connected socket hears nobody else. The warning, too, comes from there.
        for _ in 0..50 {
            ship.hear(Duration::from_millis(20));
        }
        assert!(ship.warnings >= 1);
    }
    gatewayd.end();
}

#[test]
fn odd_arguments() {
    let odd = OsString::from_vec(b"\xff\xfe".to_vec());
    for words in [vec![odd.clone()], vec!["--listen".into(), odd.clone()], vec![odd.clone(); 3]] {
        let output = Command::new(env!("CARGO_BIN_EXE_gatewayd")).args(words).output().unwrap();
        let said = String::from_utf8(output.stderr).unwrap();
        assert_eq!(output.status.code(), Some(2), "{said}");
        assert!(said.lines().count() == 1 && said.contains("is not UTF-8"), "{said}");
    }
}

/// A sessions file of somebody else is refused; root's is not. Where the tests do not run as root,
/// they cannot give a file away.
#[test]
fn the_owner_of_the_sessions() {
    let place = Place::new("owner");
    place.plant(1);
    let given = Command::new("chown").arg("12345").arg(place.sessions()).output().unwrap();
    if !given.status.success() {
        println!("skipped: only root can give a file away");
        return;
    }
    let output = Command::new(env!("CARGO_BIN_EXE_gatewayd"))
        .args(["--listen", ANY, "--sessions"])
        .arg(place.sessions())
        .arg("--state")
        .arg(place.state())
        .output()
        .unwrap();
    let said = String::from_utf8(output.stderr).unwrap();
    assert_eq!(output.status.code(), Some(3), "{said}");
    assert!(said.lines().count() == 1 && said.contains("belongs to user 12345"), "{said}");
}

/// 100,000 sessions are read in a few seconds, with the time of a test's build to spare.
#[test]
fn many_sessions() {
    let place = Place::in_memory("many");
    let hex = peer::hex::write;
    let line = |ship: usize| {
        format!("{} {} ship {ship}\n", hex(&identifier(ship)), hex(&common::secret(ship)))
    };
    fs::write(place.sessions(), (0..100_000).map(line).collect::<String>()).unwrap();
    fs::set_permissions(place.sessions(), fs::Permissions::from_mode(0o600)).unwrap();
    let start = Instant::now();
    let gatewayd = Gatewayd::start(&place, ANY, &[]);
    let took = start.elapsed();
    println!("100,000 sessions: {took:?}");
    assert!(took < Duration::from_secs(20), "{took:?}");
    let mut ship = Ship::new(99_999, gatewayd.address);
    ship.open(1);
    ship.send(&ship.data(1));
    wait_for("the report", || place.listed(99_999).len() == 1);
    gatewayd.kill();
}
