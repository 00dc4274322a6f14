//! A gateway in a directory of its own, and a ship for it.
#![allow(dead_code)]

use gatewayd::reports::{each, Line, Wanted};
use gatewayd::store::{open_to_read, Where};
use peer::keys::Kind;
use peer::unit::{Hello, Unit};
use peer::wire::Content;
use std::collections::HashMap;
use std::fs;
use std::io::{BufRead, BufReader, Read};
use std::net::{SocketAddr, UdpSocket};
use std::os::fd::OwnedFd;
use std::os::unix::fs::PermissionsExt;
use std::path::{Path, PathBuf};
use std::process::{Child, ChildStdout, Command, Stdio};
use std::time::Duration;

pub struct Place {
    pub path: PathBuf,
    /// A server for the store; else it is in the state directory.
    pub server: Option<String>,
}

impl Place {
    pub fn new(name: &str) -> Place {
        Place::within(std::env::temp_dir(), name)
    }

    /// Where the system has its disk in memory: for tests that bring thousands of files to it.
    pub fn in_memory(name: &str) -> Place {
        let memory = PathBuf::from("/dev/shm");
        Place::within(if memory.is_dir() { memory } else { std::env::temp_dir() }, name)
    }

    fn within(directory: PathBuf, name: &str) -> Place {
        let path = directory.join(format!("gatewayd-{name}-{}", std::process::id()));
        let _ = fs::remove_dir_all(&path);
        fs::create_dir_all(&path).unwrap();
        Place { path, server: None }
    }

    pub fn sessions(&self) -> PathBuf {
        self.path.join("sessions")
    }

    pub fn state(&self) -> PathBuf {
        self.path.join("state")
    }

    pub fn plant(&self, ships: usize) {
        let lines: String = (0..ships).map(session_line).collect();
        fs::write(self.sessions(), lines).unwrap();
        fs::set_permissions(self.sessions(), fs::Permissions::from_mode(0o600)).unwrap();
    }

    pub fn at(&self) -> Where {
        match &self.server {
            Some(address) => Where::Server(address.clone()),
            None => Where::Directory(self.state()),
        }
    }

    /// The reports in the store, in the order of arrival. A gateway that starts may hold readers up for a moment.
    pub fn lines(&self, wanted: &Wanted) -> Vec<Line> {
        if self.server.is_none() && !self.state().join("store.db").exists() {
            return Vec::new();
        }
        for _ in 0..100 {
            let mut lines = Vec::new();
            let read = open_to_read(&self.at()).and_then(|mut engine| {
                each(engine.as_mut(), wanted, 0, |line| lines.push(line.clone()))
                    .map_err(|fault| fault.what().to_string())
            });
            if read.is_ok() {
                return lines;
            }
            std::thread::sleep(Duration::from_millis(10));
        }
        panic!("the store cannot be read: {:?}", open_to_read(&self.at()).err());
    }

    /// Number and bytes of each report of a ship.
    pub fn listed(&self, ship: usize) -> Vec<(u16, Vec<u8>)> {
        let wanted = Wanted { ship: Some(name(ship)), ..Wanted::all() };
        self.lines(&wanted).into_iter().map(|line| (line.number, line.bytes)).collect()
    }
}

impl Drop for Place {
    fn drop(&mut self) {
        if !std::thread::panicking() {
            let _ = fs::remove_dir_all(&self.path);
        }
    }
}

pub fn name(ship: usize) -> String {
    format!("ship {ship}")
}

pub fn identifier(ship: usize) -> [u8; 8] {
    (ship as u64 + 0x0102030405060708).to_be_bytes()
}

pub fn secret(ship: usize) -> [u8; 20] {
    let mut secret = [(ship as u8).wrapping_add(1); 20];
    secret[..8].copy_from_slice(&identifier(ship));
    secret
}

fn session_line(ship: usize) -> String {
    let hex = peer::hex::write;
    format!("{} {} {}\n", hex(&identifier(ship)), hex(&secret(ship)), name(ship))
}

pub struct Gatewayd {
    pub child: Child,
    pub address: SocketAddr,
    out: BufReader<ChildStdout>,
}

impl Gatewayd {
    fn command(place: &Place, listen: &str, more: &[&str]) -> Command {
        let log =
            fs::OpenOptions::new().create(true).append(true).open(place.path.join("log")).unwrap();
        let mut command = Command::new(env!("CARGO_BIN_EXE_gatewayd"));
        command.args(["--listen", listen, "--sessions"]).arg(place.sessions());
        match &place.server {
            Some(address) => command.arg("--store").arg(address),
            None => command.arg("--state").arg(place.state()),
        };
        command.args(more).stdout(Stdio::piped()).stderr(log);
        command
    }

    /// Killed so long after it was called, which may be before it listens.
    pub fn start_and_kill(place: &Place, listen: &str, more: &[&str], after: Duration) {
        let mut child = Gatewayd::command(place, listen, more).spawn().unwrap();
        std::thread::sleep(after);
        child.kill().unwrap();
        child.wait().unwrap();
    }

    /// Not waited for.
    pub fn spawn(place: &Place, listen: &str) -> Child {
        Gatewayd::command(place, listen, &[]).spawn().unwrap()
    }

    pub fn start(place: &Place, listen: &str, more: &[&str]) -> Gatewayd {
        Gatewayd::begin(place, Gatewayd::command(place, listen, more))
    }

    /// The program at another path.
    pub fn start_program(place: &Place, program: &Path, listen: &str) -> Gatewayd {
        let plain = Gatewayd::command(place, listen, &[]);
        let log = fs::OpenOptions::new().append(true).open(place.path.join("log")).unwrap();
        let mut command = Command::new(program);
        command.args(plain.get_args()).stdout(Stdio::piped()).stderr(log);
        Gatewayd::begin(place, command)
    }

    /// Behind other words, which say where and as whom it runs.
    pub fn start_behind(place: &Place, words: &[&str], listen: &str) -> Gatewayd {
        let plain = Gatewayd::command(place, listen, &[]);
        let log = fs::OpenOptions::new().append(true).open(place.path.join("log")).unwrap();
        let mut command = Command::new(words[0]);
        command.args(&words[1..]).arg(plain.get_program()).args(plain.get_args());
        command.stdout(Stdio::piped()).stderr(log);
        Gatewayd::begin(place, command)
    }

    /// On a disk that takes so many bytes in a file, until `room` is made.
    pub fn start_on_small_disk(place: &Place, listen: &str, bytes: usize) -> Gatewayd {
        let plain = Gatewayd::command(place, listen, &[]);
        let limits = format!("ulimit -S -f {}; trap '' XFSZ; exec \"$@\"", bytes / 512);
        let log = fs::OpenOptions::new().append(true).open(place.path.join("log")).unwrap();
        let mut command = Command::new("sh");
        command.args(["-c", &limits, "sh"]).arg(plain.get_program()).args(plain.get_args());
        command.stdout(Stdio::piped()).stderr(log);
        Gatewayd::begin(place, command)
    }

    pub fn room(&self) {
        let limit = ["--fsize=unlimited:unlimited", "--pid"];
        let made = Command::new("prlimit").args(limit).arg(self.child.id().to_string()).status();
        assert!(made.unwrap().success());
    }

    /// With a socket that outlives it, as systemd hands one over.
    pub fn start_with(place: &Place, socket: &OwnedFd) -> Gatewayd {
        let plain = Gatewayd::command(place, "127.0.0.1:1", &[]);
        let over = "exec 3<&0 </dev/null; LISTEN_FDS=1 LISTEN_PID=$$ exec \"$@\"";
        let log = fs::OpenOptions::new().append(true).open(place.path.join("log")).unwrap();
        let mut command = Command::new("sh");
        command.args(["-c", over, "sh"]).arg(plain.get_program()).args(plain.get_args());
        command.stdin(socket.try_clone().unwrap()).stdout(Stdio::piped()).stderr(log);
        Gatewayd::begin(place, command)
    }

    /// Ended by one signal or the other, whichever the turn.
    pub fn end_at(&mut self, turn: usize) {
        signal(&self.child, if turn % 4 == 0 { "TERM" } else { "INT" });
        assert_eq!(self.child.wait().unwrap().code(), Some(0));
    }

    /// SIGHUP; waits until it listens again.
    pub fn start_anew(&mut self) {
        signal(&self.child, "HUP");
        let mut line = String::new();
        self.out.read_line(&mut line).unwrap();
        assert!(line.contains(&format!(" listens on {}:", self.address)), "{line}");
    }

    /// Started as often as it needs: the store may be away.
    pub fn start_at_last(place: &Place, listen: &str, more: &[&str]) -> Gatewayd {
        for _ in 0..500 {
            let mut child = Gatewayd::command(place, listen, more).spawn().unwrap();
            let mut out = BufReader::new(child.stdout.take().unwrap());
            let mut line = String::new();
            out.read_line(&mut line).unwrap();
            if line.contains(" listens on ") {
                return Gatewayd { child, address: listen.parse().unwrap(), out };
            }
            child.wait().unwrap();
            std::thread::sleep(Duration::from_millis(20));
        }
        panic!("it does not start: {}", fs::read_to_string(place.path.join("log")).unwrap());
    }

    fn begin(place: &Place, mut command: Command) -> Gatewayd {
        let mut child = command.spawn().unwrap();
        let mut out = BufReader::new(child.stdout.take().unwrap());
        let mut line = String::new();
        out.read_line(&mut line).unwrap();
        let log = || fs::read_to_string(place.path.join("log")).unwrap();
        let address = line.split_whitespace().nth(4).unwrap_or_else(|| panic!("{line} {}", log()));
        let address = address.trim_end_matches(':').parse().unwrap();
        Gatewayd { child, address, out }
    }

    /// SIGTERM; gives what it prints at its end.
    pub fn end(self) -> String {
        let (status, text) = self.end_as_it_may();
        assert_eq!(status, Some(0));
        text
    }

    /// The same where the store may be away: its status, too.
    pub fn end_as_it_may(mut self) -> (Option<i32>, String) {
        signal(&self.child, "TERM");
        let mut text = String::new();
        self.out.read_to_string(&mut text).unwrap();
        (self.child.wait().unwrap().code(), text)
    }

    pub fn kill(mut self) {
        self.child.kill().unwrap();
        self.child.wait().unwrap();
    }
}

/// A test that fails leaves no gateway behind.
impl Drop for Gatewayd {
    fn drop(&mut self) {
        let _ = self.child.kill();
        let _ = self.child.wait();
    }
}

pub fn signal(child: &Child, name: &str) {
    let sent = Command::new("kill").arg(format!("-{name}")).arg(child.id().to_string()).status();
    assert!(sent.unwrap().success());
}

/// A ship with a socket, over a link without faults.
pub struct Ship {
    pub index: usize,
    pub unit: Unit,
    pub socket: UdpSocket,
    /// Everything that the gateway sent, by what must make it unique: for a reply the hello, for
    /// the rest the server random, type and number. Another content under the same is a number
    /// used twice.
    seen: HashMap<Vec<u8>, Vec<u8>>,
    pub random: Vec<u8>,
    pub warnings: usize,
    pub notices: usize,
}

impl Ship {
    pub fn new(index: usize, to: SocketAddr) -> Ship {
        let socket = UdpSocket::bind("127.0.0.1:0").unwrap();
        socket.connect(to).unwrap();
        let unit = Unit::new(&identifier(index), &secret(index));
        Ship {
            index,
            unit,
            socket,
            seen: HashMap::new(),
            random: Vec::new(),
            warnings: 0,
            notices: 0,
        }
    }

    /// The same ship with another socket: a modem that registers again, another port of a
    /// translator.
    pub fn move_to(&mut self, address: &str) {
        let to = self.socket.peer_addr().unwrap();
        self.socket = UdpSocket::bind(address).unwrap();
        self.socket.connect(to).unwrap();
    }

    pub fn hello(&mut self, random: u8) -> Vec<u8> {
        let message =
            Hello::plain(&[random; 16], &identifier(self.index), Kind::Sha80, 3).message();
        self.unit.say_hello(&message)
    }

    /// A gateway that is down is a link that loses.
    pub fn send(&self, datagram: &[u8]) {
        let _ = self.socket.send(datagram);
    }

    /// Takes what has come; true if a reply was among it.
    pub fn hear(&mut self, wait: Duration) -> bool {
        let mut replied = false;
        let mut buffer = [0; 2048];
        self.socket.set_read_timeout(Some(wait)).unwrap();
        while let Ok(size) = self.socket.recv(&mut buffer) {
            let datagram = buffer[..size].to_vec();
            let is_reply = datagram[0] == 0xc3;
            if is_reply && self.unit.hear_reply(&datagram).is_err() {
                continue; // it comes late, and answers an earlier hello
            }
            let key = match is_reply {
                true => self.unit.last_hello().to_vec(),
                false => [&self.random, &datagram[..3]].concat(),
            };
            let first = self.seen.entry(key).or_insert_with(|| datagram.clone());
            assert_eq!(*first, datagram, "one number, two contents");
            if is_reply {
                self.random = datagram[9..25].to_vec();
                replied = true;
            } else {
                let content = self.unit.hear(&datagram).unwrap();
                self.warnings += usize::from(content.starts_with(&[1, 57]));
                self.notices += usize::from(content.starts_with(&[2, 0]));
            }
        }
        replied
    }

    /// Says hello until a reply comes.
    pub fn shake_hands(&mut self, random: u8) {
        let hello = self.hello(random);
        for _ in 0..2000 {
            self.send(&hello);
            if self.hear(Duration::from_millis(5)) {
                return;
            }
            // A gateway that is down is heard of at once.
            std::thread::sleep(Duration::from_millis(2));
        }
        panic!("no reply");
    }

    /// Shakes hands and opens.
    pub fn open(&mut self, random: u8) {
        self.shake_hands(random);
        self.send(&self.unit.flight().unwrap());
    }

    pub fn data(&self, number: u16) -> Vec<u8> {
        self.unit.protect(Content::Data, false, number, &text(self.index, number)).unwrap()
    }

    /// Data behind change cipher spec and Finished (10.4), whose record has a length or two.
    pub fn data_behind_finished(&self, number: u16) -> Vec<u8> {
        let change = self.unit.clear(Content::ChangeCipherSpec, true, 1, &[1]);
        [change, self.unit.finished(true, 0).unwrap(), self.data(number)].concat()
    }

    pub fn alert(&self, level: u8, description: u8, number: u16) -> Vec<u8> {
        let content = self.unit.alert(level, description);
        self.unit.protect(Content::Alert, false, number, &content).unwrap()
    }
}

pub fn text(ship: usize, number: u16) -> Vec<u8> {
    format!("report {number} of {}", name(ship)).repeat(1 + usize::from(number) % 4).into_bytes()
}

/// Waits until it holds.
pub fn wait_for(what: &str, holds: impl Fn() -> bool) {
    for _ in 0..2000 {
        if holds() {
            return;
        }
        std::thread::sleep(Duration::from_millis(5));
    }
    panic!("waited in vain for {what}");
}

/// What the store takes on the disk.
pub fn store_size(state: &Path) -> u64 {
    let size = |name: &str| fs::metadata(state.join(name)).map_or(0, |found| found.len());
    size("store.db") + size("store.db-wal")
}
