//! The benchmark of gatewayd, over loopback: how many reports a second it takes without a loss.
//!
//! ```text
//! gateway-speed GATEWAYD DIRECTORY DATAGRAMS REPETITIONS [ADDRESS]
//! ```
//!
//! Ships send data; at most a window of datagrams is under way, and one counts as taken when its row is in the store, so nothing is
//! lost and each is on the disk. The store is SQLite in the directory, or the PostgreSQL at the address, whose tables are emptied.
//! Beside it, in the same run, the same datagrams go to a bare UDP echo in a process of its own and come back, and the same rows are
//! inserted by a program that does nothing else. SHIPS says how many ships: `1 100 10000` if not said. They count in step; with
//! APART, whatever it says, each is at numbers of its own. Not a test.

use gatewayd::store::engine::{Engine, Value};
use gatewayd::store::postgres::Postgres;
use gatewayd::store::sqlite::Sqlite;
use gatewayd::store::{open_to_read, place, Where};
use peer::hex;
use peer::keys::Kind;
use peer::unit::{Hello, Unit};
use peer::wire::Content;
use std::fs;
use std::io::{self, BufRead, BufReader};
use std::net::{Ipv4Addr, SocketAddr, UdpSocket};
use std::os::unix::fs::PermissionsExt;
use std::path::{Path, PathBuf};
use std::process::{Child, Command, Stdio};
use std::thread;
use std::time::{Duration, Instant};

/// Datagrams under way at most. 128 small ones fit into a socket's buffer as Linux has it.
const WINDOW: usize = 128;
const REPORT_SIZE: usize = 100;
const PATIENCE: Duration = Duration::from_secs(10);

type Outcome<T> = Result<T, Box<dyn std::error::Error>>;

fn main() -> Outcome<()> {
    let words: Vec<String> = std::env::args().skip(1).collect();
    if words.first().is_some_and(|word| word == "echo") {
        return Ok(echo()?);
    }
    let [gatewayd, directory, datagrams, repetitions, ..] = &words[..] else {
        return Err("GATEWAYD DIRECTORY DATAGRAMS REPETITIONS [ADDRESS]".into());
    };
    let (datagrams, repetitions): (usize, usize) = (datagrams.parse()?, repetitions.parse()?);
    println!("reports of {REPORT_SIZE} bytes, {datagrams} datagrams, at most {WINDOW} under way");
    println!("medians of {repetitions}");
    println!(
        "ships  reports/s    echo/s  ratio  inserts/s  ratio  processor/report  memory    start"
    );
    let counts = std::env::var("SHIPS").unwrap_or("1 100 10000".to_string());
    for ships in counts.split_whitespace().map(str::parse) {
        let ships: usize = ships?;
        let mut figures: [Vec<f64>; 8] = Default::default();
        for repetition in 0..repetitions {
            let work = Path::new(directory).join(format!("{ships}-{repetition}"));
            let at = match words.get(4) {
                Some(address) => Where::Server(address.clone()),
                None => Where::Directory(work.join("state")),
            };
            let taken = measure(Path::new(gatewayd), &work, &at, ships, datagrams)?;
            let echo = measure_echo(ships.min(100), datagrams)?;
            let inserts = measure_inserts(&at, ships, datagrams)?;
            let ratios = [taken.rate / echo, taken.rate / inserts];
            let time = 1e6 * taken.time / datagrams as f64;
            let all =
                [taken.rate, echo, ratios[0], inserts, ratios[1], time, taken.memory, taken.start];
            figures.iter_mut().zip(all).for_each(|(figures, figure)| figures.push(figure));
            fs::remove_dir_all(work)?;
        }
        let [rate, echo, to_echo, inserts, to_inserts, time, memory, start] = figures.map(median);
        println!(
            "{ships:5}  {rate:9.0}  {echo:8.0}  {to_echo:5.2}  {inserts:9.0}  {to_inserts:5.2}  \
             {time:13.1} us  {memory:.0} kB  {start:.3} s"
        );
    }
    Ok(())
}

fn median(mut figures: Vec<f64>) -> f64 {
    figures.sort_by(f64::total_cmp);
    figures[figures.len() / 2]
}

/// A program that does not outlive its use.
struct Running(Child);

impl Drop for Running {
    fn drop(&mut self) {
        let _ = self.0.kill();
        let _ = self.0.wait();
    }
}

/// A ship that is open.
struct Ship {
    socket: UdpSocket,
    unit: Unit,
    number: u16,
}

/// Reports a second; and of the gateway the seconds of a processor, the memory, and how long it takes to start with these ships.
struct Taken {
    rate: f64,
    time: f64,
    memory: f64,
    start: f64,
}

fn measure(
    gatewayd: &Path,
    work: &Path,
    at: &Where,
    ships: usize,
    datagrams: usize,
) -> Outcome<Taken> {
    fs::create_dir_all(work)?;
    let sessions = plant(work, ships)?;
    empty(at)?;
    let (gateway, address, _) = started(gatewayd, at, &sessions)?;
    let mut fleet = open(ships, address)?;
    // Once more, with all ships open.
    drop(gateway);
    let (gateway, again, start) = started(gatewayd, at, &sessions)?;
    for ship in &fleet {
        ship.socket.connect(again)?;
    }
    let mut store = Counted { engine: open_to_read(at)?, reports: 0 };
    store.wait_for(ships)?;
    if std::env::var_os("APART").is_some() {
        fleet
            .iter_mut()
            .enumerate()
            .for_each(|(index, ship)| ship.number += (index * 601 % 40_000) as u16);
    }
    // Made before the clock runs: the ships' work is not the gateway's.
    let made: Vec<(usize, Vec<u8>)> =
        (0..datagrams).map(|turn| (turn % ships, fleet[turn % ships].data())).collect();
    let before = processor(&gateway.0)?;
    let began = Instant::now();
    for (sent, (ship, datagram)) in made.iter().enumerate() {
        store.wait_for(ships + (sent + 1).saturating_sub(WINDOW))?;
        fleet[*ship].socket.send(datagram)?;
    }
    store.wait_for(ships + datagrams)?;
    let rate = datagrams as f64 / began.elapsed().as_secs_f64();
    let time = processor(&gateway.0)? - before;
    Ok(Taken { rate, time, memory: most_memory(&gateway.0)? as f64, start })
}

fn started(gatewayd: &Path, at: &Where, sessions: &Path) -> Outcome<(Running, SocketAddr, f64)> {
    let began = Instant::now();
    let mut command = Command::new(gatewayd);
    command.args(["--listen", "127.0.0.1:0", "--sessions"]).arg(sessions);
    match at {
        Where::Directory(state) => command.arg("--state").arg(state),
        Where::Server(address) => command.arg("--store").arg(address),
    };
    let mut gateway = Running(command.stdout(Stdio::piped()).stderr(Stdio::null()).spawn()?);
    let address = first_address(&mut gateway.0)?;
    Ok((gateway, address, began.elapsed().as_secs_f64()))
}

/// The store, to write.
fn to_write(at: &Where) -> Outcome<Box<dyn Engine>> {
    let told = |fault: gatewayd::store::engine::Fault| fault.what().to_string();
    Ok(match at {
        Where::Directory(state) => Box::new(Sqlite::open(&place::file(state)).map_err(told)?),
        Where::Server(address) => Box::new(Postgres::open(address, false).map_err(told)?),
    })
}

fn empty(at: &Where) -> Outcome<()> {
    if let Where::Server(_) = at {
        let sql = "TRUNCATE ships, reports, refusals RESTART IDENTITY";
        to_write(at)?.query(sql, &[]).map_err(|fault| fault.what().to_string())?;
    }
    Ok(())
}

fn session(ship: usize) -> ([u8; 8], [u8; 20]) {
    ((ship as u64 + 1).to_be_bytes(), [ship as u8 | 1; 20])
}

fn plant(work: &Path, ships: usize) -> Outcome<PathBuf> {
    let line = |ship| {
        let (id, secret) = session(ship);
        format!("{} {} ship {ship}\n", hex::write(&id), hex::write(&secret))
    };
    let path = work.join("sessions");
    fs::write(&path, (0..ships).map(line).collect::<String>())?;
    fs::set_permissions(&path, fs::Permissions::from_mode(0o600))?;
    Ok(path)
}

fn first_address(child: &mut Child) -> Outcome<SocketAddr> {
    let mut line = String::new();
    BufReader::new(child.stdout.as_mut().ok_or("no output")?).read_line(&mut line)?;
    let word =
        line.split_whitespace().find(|word| word.contains("127.0.0.1:")).ok_or("no address")?;
    Ok(word.trim_end_matches(':').parse()?)
}

/// Each on a host of its own: hellos from one host are not all answered at once.
fn connected(ship: usize, to: SocketAddr) -> io::Result<UdpSocket> {
    let socket = UdpSocket::bind((Ipv4Addr::from(0x7f01_0001 + ship as u32), 0))?;
    socket.connect(to)?;
    socket.set_read_timeout(Some(PATIENCE))?;
    Ok(socket)
}

/// All ships shake hands, some at a time; the first report goes with the Finished.
fn open(ships: usize, to: SocketAddr) -> Outcome<Vec<Ship>> {
    let mut fleet = Vec::new();
    let all: Vec<usize> = (0..ships).collect();
    for some in all.chunks(WINDOW / 2) {
        let mut begun = Vec::new();
        for index in some {
            let (id, secret) = session(*index);
            let mut unit = Unit::new(&id, &secret);
            let hello = unit.say_hello(&Hello::plain(&[7; 16], &id, Kind::Sha80, 6).message());
            let socket = connected(*index, to)?;
            socket.send(&hello)?;
            begun.push((socket, unit, hello));
        }
        for (socket, mut unit, hello) in begun {
            let mut buffer = [0; 2048];
            let size = said_until_heard(&socket, &hello, &mut buffer)?;
            unit.hear_reply(&buffer[..size])?;
            let mut ship = Ship { socket, unit, number: 1 };
            let change = ship.unit.clear(Content::ChangeCipherSpec, true, 1, &[1]);
            let finished = ship.unit.finished(true, 0).ok_or("no reply")?;
            let first = [change, finished, ship.data()].concat();
            ship.socket.send(&first)?;
            fleet.push(ship);
        }
    }
    // The last ones are still to be committed.
    thread::sleep(Duration::from_millis(500));
    Ok(fleet)
}

fn said_until_heard(socket: &UdpSocket, hello: &[u8], buffer: &mut [u8]) -> io::Result<usize> {
    socket.set_read_timeout(Some(Duration::from_millis(500)))?;
    let mut heard = socket.recv(buffer);
    for _ in 0..20 {
        if heard.is_ok() {
            break;
        }
        socket.send(hello)?;
        heard = socket.recv(buffer);
    }
    heard
}

impl Ship {
    fn data(&mut self) -> Vec<u8> {
        let datagram = self.unit.protect(Content::Data, false, self.number, &[0x61; REPORT_SIZE]);
        self.number += 1;
        datagram.expect("a reply came")
    }
}

/// The store as it grows.
struct Counted {
    engine: Box<dyn Engine>,
    reports: i64,
}

impl Counted {
    fn wait_for(&mut self, reports: usize) -> Outcome<()> {
        let start = Instant::now();
        while self.reports < reports as i64 {
            let found = self.engine.query("SELECT MAX(id) FROM reports", &[]);
            let found = found.map_err(|fault| fault.what().to_string())?;
            self.reports = found[0][0].int().unwrap_or(0);
            if self.reports < reports as i64 {
                if start.elapsed() > PATIENCE {
                    return Err(format!("lost: {} of {reports} reports", self.reports).into());
                }
                thread::sleep(Duration::from_micros(50));
            }
        }
        Ok(())
    }
}

/// The same rows by a program that only inserts them: as many in a transaction as are under way at most.
fn measure_inserts(at: &Where, ships: usize, datagrams: usize) -> Outcome<f64> {
    let mut engine = to_write(at)?;
    let row = |turn: usize| -> Vec<Value> {
        let (id, _) = session(turn % ships);
        let number = (turn / ships % 65_535) as i64;
        vec![id[..].into(), 1000.into(), number.into(), 0.into(), [0x61; REPORT_SIZE][..].into()]
    };
    let rows: Vec<Vec<Value>> = (0..datagrams).map(row).collect();
    let began = Instant::now();
    for some in rows.chunks(WINDOW) {
        let mut insert = || {
            engine.begin()?;
            let into = "INSERT INTO reports (ship, opening, number, received, bytes)";
            engine.put(into, some, "")?;
            engine.commit()
        };
        insert().map_err(|fault: gatewayd::store::engine::Fault| fault.what().to_string())?;
    }
    Ok(datagrams as f64 / began.elapsed().as_secs_f64())
}

/// User and system time so far. Less than the rate does it depend on what else the machine does.
fn processor(child: &Child) -> Outcome<f64> {
    let stat = fs::read_to_string(format!("/proc/{}/stat", child.id()))?;
    let fields = stat.rsplit(')').next().unwrap_or_default().split_whitespace();
    let ticks = fields.skip(11).take(2).map(str::parse::<f64>).sum::<Result<f64, _>>()?;
    Ok(ticks / 100.0)
}

fn most_memory(child: &Child) -> Outcome<u64> {
    let status = fs::read_to_string(format!("/proc/{}/status", child.id()))?;
    let line = status.lines().find(|line| line.starts_with("VmHWM:")).ok_or("no VmHWM")?;
    Ok(line.split_whitespace().nth(1).ok_or("no number")?.parse()?)
}

/// A bare UDP echo: says where it listens, and sends back what comes.
fn echo() -> io::Result<()> {
    let socket = UdpSocket::bind("127.0.0.1:0")?;
    println!("listens on {}:", socket.local_addr()?);
    let mut buffer = [0; 2048];
    loop {
        let (size, from) = socket.recv_from(&mut buffer)?;
        socket.send_to(&buffer[..size], from)?;
    }
}

fn measure_echo(ships: usize, datagrams: usize) -> Outcome<f64> {
    let mut echo =
        Running(Command::new(std::env::current_exe()?).arg("echo").stdout(Stdio::piped()).spawn()?);
    let address = first_address(&mut echo.0)?;
    let sockets =
        (0..ships).map(|ship| connected(ship, address)).collect::<io::Result<Vec<_>>>()?;
    // As long as a protected record with the report: header 3, code 10.
    let datagram = [0x61; 3 + REPORT_SIZE + 10];
    let mut buffer = [0; 2048];
    let start = Instant::now();
    for turn in 0..datagrams {
        if turn >= WINDOW {
            sockets[(turn - WINDOW) % ships].recv(&mut buffer)?;
        }
        sockets[turn % ships].send(&datagram)?;
    }
    for turn in datagrams.saturating_sub(WINDOW)..datagrams {
        sockets[turn % ships].recv(&mut buffer)?;
    }
    Ok(datagrams as f64 / start.elapsed().as_secs_f64())
}
