//! Both ends against each other: a shore's console and a ship's, over a link that loses, repeats,
//! delays, reorders and damages in both directions. The consoles may be the models or programs.
//!
//! Of each handshake it is checked that the data handed out at either end is what the other end sent,
//! as it was sent, each at most once, and that each datagram whose first arrival comes before any
//! other numbered higher by the window's width or more is handed out by that arrival. On a link
//! without faults it is checked that each step succeeds at once.

use std::collections::{BTreeMap, BTreeSet};
use std::fmt;
use std::io::{BufRead, BufReader, Write};
use std::process::{Child, ChildStdin, ChildStdout, Command, Stdio};

use crate::capture::{Capture, Way};
use crate::console::Console;
use crate::day::word;
use crate::hex;
use crate::rng::Rng;
use crate::shipconsole::ShipConsole;

/// A console: a line in, its lines out.
pub trait Lines {
    fn line(&mut self, line: &str) -> Result<Vec<String>, String>;
}

impl Lines for Console {
    fn line(&mut self, line: &str) -> Result<Vec<String>, String> {
        Ok(Console::line(self, line.as_bytes()))
    }
}

impl Lines for ShipConsole {
    fn line(&mut self, line: &str) -> Result<Vec<String>, String> {
        Ok(ShipConsole::line(self, line.as_bytes()))
    }
}

impl Lines for Box<dyn Lines> {
    fn line(&mut self, line: &str) -> Result<Vec<String>, String> {
        (**self).line(line)
    }
}

/// A console that is a program; it answers each line before it is given the next.
pub struct Program {
    child: Child,
    stdin: ChildStdin,
    stdout: BufReader<ChildStdout>,
}

impl Program {
    pub fn start(program: &str) -> Result<Program, String> {
        let told = |error: std::io::Error| format!("{program}: {error}");
        let mut command = Command::new(program);
        command.stdin(Stdio::piped()).stdout(Stdio::piped());
        let mut child = command.spawn().map_err(told)?;
        let stdin = child.stdin.take().ok_or("stdin is piped")?;
        let stdout = BufReader::new(child.stdout.take().ok_or("stdout is piped")?);
        Ok(Program { child, stdin, stdout })
    }
}

impl Lines for Program {
    fn line(&mut self, line: &str) -> Result<Vec<String>, String> {
        let told = |error: std::io::Error| error.to_string();
        self.stdin.write_all(format!("{line}\n").as_bytes()).map_err(told)?;
        self.stdin.flush().map_err(told)?;
        let mut lines = Vec::new();
        loop {
            let mut written = String::new();
            if self.stdout.read_line(&mut written).map_err(told)? == 0 {
                return Err(format!("the program ended at {line}"));
            }
            let written = written.trim_end_matches('\n').to_string();
            let last = written == "bad line" || written.starts_with("state ");
            lines.push(written);
            if last {
                return Ok(lines);
            }
        }
    }
}

impl Drop for Program {
    fn drop(&mut self) {
        // It is our own child, and may have ended already.
        let _ = self.child.kill();
        let _ = self.child.wait();
    }
}

/// What a run had to say.
#[derive(Default, Debug)]
pub struct Done {
    pub seed: u64,
    pub handshakes: u64,
    pub faultless: u64,
    pub hellos: u64,
    pub repeated_by_the_ship: u64,
    /// Times that both ends were started again, since nothing could come of the handshake any more.
    pub started_again: u64,
    /// Of these, times that an end had closed: a Finished over a hello that was damaged on its way.
    pub closed: u64,
    pub reports: Course,
    pub orders: Course,
    pub link: Faults,
}

/// Data of one course.
#[derive(Default, Debug)]
pub struct Course {
    pub sent: u64,
    pub handed_out: u64,
}

#[derive(Default, Debug)]
pub struct Faults {
    pub carried: u64,
    pub lost: u64,
    pub repeated: u64,
    pub delayed: u64,
    pub damaged: u64,
}

impl fmt::Display for Done {
    fn fmt(&self, to: &mut fmt::Formatter) -> fmt::Result {
        let Done { seed, handshakes, faultless, .. } = self;
        writeln!(
            to,
            "peer: seed {seed}, {handshakes} handshakes, {faultless} of them without faults"
        )?;
        writeln!(
            to,
            "hellos {}, said again by the ship {}, both ends started again {}, of it after 17: {}",
            self.hellos, self.repeated_by_the_ship, self.started_again, self.closed
        )?;
        let Faults { carried, lost, repeated, delayed, damaged } = self.link;
        writeln!(
            to,
            "datagrams {carried}, lost {lost}, repeated {repeated}, delayed {delayed}, damaged {damaged}"
        )?;
        let course = |course: &Course| format!("{} of {}", course.handed_out, course.sent);
        writeln!(
            to,
            "handed out ashore {}, on board {}",
            course(&self.reports),
            course(&self.orders)
        )
    }
}

/// A datagram under way.
#[derive(Clone)]
struct Packet {
    due: u64,
    bytes: Vec<u8>,
    damaged: bool,
    /// The opening that it was sent under, and what it is.
    tag: Option<(u64, Tag)>,
}

#[derive(Clone, Copy, PartialEq, Eq)]
enum Tag {
    Flight,
    Number(u16),
}

/// Per cent of the datagrams.
#[derive(Clone, Copy, Default)]
struct Rates {
    lose: usize,
    repeat: usize,
    delay: usize,
    damage: usize,
}

/// What an end has received since it opened.
#[derive(Default)]
struct Inbox {
    opening: Option<u64>,
    width: u32,
    arrived: BTreeSet<u16>,
    handed_out: BTreeSet<u16>,
}

struct Run<'a, A: Lines, B: Lines> {
    rng: Rng,
    shore: &'a mut A,
    ship: &'a mut B,
    shore_state: String,
    ship_state: String,
    rates: Rates,
    now: u64,
    to_shore: Vec<Packet>,
    to_ship: Vec<Packet>,
    /// Counts the ship's flights.
    opening: u64,
    ashore: Inbox,
    aboard: Inbox,
    /// Data that was sent: opening and number, the bytes.
    reports: BTreeMap<(u64, u16), Vec<u8>>,
    orders: BTreeMap<(u64, u16), Vec<u8>>,
    /// Whether the shore has heard a Finished again and has not yet said so.
    owes_warning: bool,
    /// Gets each datagram that arrives.
    capture: Option<Capture>,
    done: Done,
}

/// The ship says its datagram again so many ticks after the last, and so often.
const TIMER: u64 = 4;
const MOST_AGAIN: u64 = 30;
/// A handshake and its data take no longer.
const MOST_TICKS: u64 = 20_000;

/// Runs so many handshakes, each with a few data records both ways; an Err says what was wrong. What
/// arrives is written to a capture file, where one is wanted.
pub fn run<A: Lines, B: Lines>(
    seed: u64,
    handshakes: u64,
    shore: &mut A,
    ship: &mut B,
    capture: Option<Capture>,
) -> Result<Done, String> {
    let mut run = Run {
        rng: Rng::new(seed),
        shore,
        ship,
        shore_state: String::new(),
        ship_state: String::new(),
        rates: Rates::default(),
        now: 0,
        to_shore: Vec::new(),
        to_ship: Vec::new(),
        opening: 0,
        ashore: Inbox::default(),
        aboard: Inbox::default(),
        reports: BTreeMap::new(),
        orders: BTreeMap::new(),
        owes_warning: false,
        capture,
        done: Done { seed, handshakes, ..Done::default() },
    };
    for handshake in 0..handshakes {
        run.handshake(handshake)
            .map_err(|what| format!("peer: seed {seed}, handshake {handshake}: {what}"))?;
    }
    Ok(run.done)
}

/// Without their newline: is the call done, and what did it put out.
fn out(lines: &[String]) -> Option<Vec<u8>> {
    let text = lines.iter().find_map(|line| line.strip_prefix("out "))?;
    hex::read(text.as_bytes())
}

fn state(lines: &[String]) -> String {
    let last = lines.last().map_or("", |line| line.as_str());
    last.split(' ').nth(1).unwrap_or_default().to_string()
}

impl<A: Lines, B: Lines> Run<'_, A, B> {
    fn on_shore(&mut self, line: &str) -> Result<Vec<String>, String> {
        let lines = self.shore.line(line)?;
        self.shore_state = state(&lines);
        Ok(lines)
    }

    fn on_ship(&mut self, line: &str) -> Result<Vec<String>, String> {
        let lines = self.ship.line(line)?;
        self.ship_state = state(&lines);
        Ok(lines)
    }

    fn handshake(&mut self, index: u64) -> Result<(), String> {
        let faultless = index % 4 == 0;
        self.rates = match faultless {
            true => Rates::default(),
            false => {
                let mut rate = |most| self.rng.between(0, most);
                Rates { lose: rate(35), repeat: rate(20), delay: rate(30), damage: rate(10) }
            }
        };
        self.done.faultless += u64::from(faultless);
        self.begin(index)?;
        if faultless {
            self.to_shore.clear();
            self.to_ship.clear();
        }
        self.say_hello()?;
        let (mut said_at, mut said) = (self.now, 0);
        let (mut reports, mut orders) = (self.rng.between(1, 6), self.rng.between(1, 6));
        let end = self.now + MOST_TICKS;
        while reports + orders > 0 || self.ship_state != "Open" || self.under_way() {
            self.now += 1;
            if self.now > end {
                return Err(format!(
                    "no end: shore {}, ship {}",
                    self.shore_state, self.ship_state
                ));
            }
            self.deliver(faultless)?;
            if self.shore_state == "Closed" || self.ship_state == "Closed" {
                // A refresh changed on its way leaves the key of number 0 as it is, and so gives 17.
                self.done.closed += 1;
                self.start_again()?;
                (said_at, said) = (self.now, 0);
            }
            if self.waits() && self.now >= said_at + TIMER {
                if said == MOST_AGAIN {
                    self.start_again()?;
                    (said_at, said) = (self.now, 0);
                    continue;
                }
                (said_at, said) = (self.now, said + 1);
                self.say_again()?;
            }
            if matches!(&self.ship_state[..], "Opening" | "Open") && reports > 0 {
                reports -= usize::from(self.rng.percent(50) && self.report()?);
            }
            if self.shore_state == "Open" {
                self.warn()?;
                orders -= usize::from(orders > 0 && self.rng.percent(50) && self.order()?);
            }
        }
        self.end(faultless)
    }

    /// New sessions for both, or the old one started again.
    fn begin(&mut self, index: u64) -> Result<(), String> {
        if index > 0 && self.rng.percent(30) {
            return self.both_started();
        }
        let (session, secret) = (word(&self.rng.bytes(8)), word(&self.rng.bytes(20)));
        self.ashore.width = self.rng.between(32, 64) as u32;
        self.aboard.width = self.rng.between(32, 64) as u32;
        let shore = format!("fresh {session} {secret} {}", self.ashore.width);
        let ship = format!("fresh {session} {secret} {}", self.aboard.width);
        self.wants(true, &shore, "fresh ok")?;
        self.wants(false, &ship, "fresh ok")
    }

    fn both_started(&mut self) -> Result<(), String> {
        for line in ["close", "start"] {
            self.wants(true, line, &format!("{line} ok"))?;
            self.wants(false, line, &format!("{line} ok"))?;
        }
        Ok(())
    }

    fn wants(&mut self, ashore: bool, line: &str, wanted: &str) -> Result<(), String> {
        let lines = if ashore { self.on_shore(line)? } else { self.on_ship(line)? };
        match lines[0] == wanted {
            true => Ok(()),
            false => Err(format!("{line}: {lines:?}")),
        }
    }

    fn start_again(&mut self) -> Result<(), String> {
        self.done.started_again += 1;
        self.both_started()?;
        self.say_hello()
    }

    fn say_hello(&mut self) -> Result<(), String> {
        (self.ashore.opening, self.aboard.opening, self.owes_warning) = (None, None, false);
        let random = word(&self.rng.bytes(16));
        let macs = self.rng.pick(&["02", "03", "0203", "0302"]);
        let any = self.rng.byte();
        let refresh = self.rng.pick(&[0, 1, 2, 3, 4, 8, 15, 16, any]);
        let lines = self.on_ship(&format!("hello {random} {macs} {refresh} 45"))?;
        let hello = out(&lines).ok_or(format!("no hello: {lines:?}"))?;
        self.done.hellos += 1;
        self.enter(true, hello, None);
        Ok(())
    }

    /// Whether the ship has something to say again.
    fn waits(&self) -> bool {
        matches!(&self.ship_state[..], "Sent" | "Replied" | "Spec" | "Opening")
    }

    fn say_again(&mut self) -> Result<(), String> {
        let flight = (self.ship_state == "Opening").then_some((self.opening, Tag::Flight));
        let lines = self.on_ship("again 45")?;
        let datagram = out(&lines).ok_or(format!("nothing again: {lines:?}"))?;
        self.done.repeated_by_the_ship += 1;
        self.enter(true, datagram, flight);
        Ok(())
    }

    fn report(&mut self) -> Result<bool, String> {
        let length = self.rng.between(1, 40);
        let bytes = self.rng.bytes(length);
        let lines = self.on_ship(&format!("send {} 128", word(&bytes)))?;
        let record = out(&lines).ok_or(format!("not sent: {lines:?}"))?;
        let number = u16::from_be_bytes([record[1], record[2]]);
        let opening = self.opening;
        self.reports.insert((opening, number), bytes);
        self.done.reports.sent += 1;
        self.enter(true, record, Some((opening, Tag::Number(number))));
        Ok(true)
    }

    fn order(&mut self) -> Result<bool, String> {
        let Some(opening) = self.ashore.opening else { return Ok(false) };
        let length = self.rng.between(1, 40);
        let bytes = self.rng.bytes(length);
        let lines = self.on_shore(&format!("send {} 128", word(&bytes)))?;
        let record = out(&lines).ok_or(format!("not sent: {lines:?}"))?;
        let number = u16::from_be_bytes([record[1], record[2]]);
        self.orders.insert((opening, number), bytes);
        self.done.orders.sent += 1;
        self.enter(false, record, Some((opening, Tag::Number(number))));
        Ok(true)
    }

    /// The warning 57 on a repeated Finished (10.4).
    fn warn(&mut self) -> Result<(), String> {
        let Some(opening) = self.ashore.opening.filter(|_| self.owes_warning) else {
            return Ok(());
        };
        self.owes_warning = false;
        let lines = self.on_shore("alert protected 1 57 - 128")?;
        let record = out(&lines).ok_or(format!("not warned: {lines:?}"))?;
        let number = u16::from_be_bytes([record[1], record[2]]);
        self.enter(false, record, Some((opening, Tag::Number(number))));
        Ok(())
    }

    fn under_way(&self) -> bool {
        !self.to_shore.is_empty() || !self.to_ship.is_empty()
    }

    /// A datagram enters the link.
    fn enter(&mut self, to_shore: bool, bytes: Vec<u8>, tag: Option<(u64, Tag)>) {
        let copies = if self.rng.percent(self.rates.repeat) { 2 } else { 1 };
        self.done.link.repeated += copies - 1;
        for _ in 0..copies {
            self.done.link.carried += 1;
            if self.rng.percent(self.rates.lose) {
                self.done.link.lost += 1;
                continue;
            }
            let mut packet =
                Packet { due: self.now + 1, bytes: bytes.clone(), damaged: false, tag };
            if self.rng.percent(self.rates.damage) {
                self.done.link.damaged += 1;
                packet.damaged = true;
                let place = self.rng.under(packet.bytes.len());
                packet.bytes[place] ^= 1 << self.rng.under(8);
            }
            if self.rng.percent(self.rates.delay) {
                self.done.link.delayed += 1;
                packet.due += self.rng.between(1, 60) as u64;
            }
            let way = if to_shore { &mut self.to_shore } else { &mut self.to_ship };
            way.push(packet);
        }
    }

    fn deliver(&mut self, faultless: bool) -> Result<(), String> {
        for packet in due(&mut self.to_shore, self.now) {
            self.note(Way::ToShore, &packet.bytes)?;
            self.deliver_ashore(packet, faultless)?;
        }
        for packet in due(&mut self.to_ship, self.now) {
            self.note(Way::ToShip, &packet.bytes)?;
            self.deliver_aboard(packet, faultless)?;
        }
        Ok(())
    }

    fn note(&mut self, way: Way, datagram: &[u8]) -> Result<(), String> {
        let noted = self.capture.as_mut().map_or(Ok(()), |capture| capture.add(way, datagram));
        noted.map_err(|error| format!("capture: {error}"))
    }

    fn deliver_ashore(&mut self, packet: Packet, faultless: bool) -> Result<(), String> {
        let random = word(&self.rng.bytes(16));
        let before = self.shore_state.clone();
        let lines = self.on_shore(&format!("receive {} {random} 128", word(&packet.bytes)))?;
        let has = |answer: &str| lines.iter().any(|line| line == answer);
        if has("1 open") {
            let Some((opening, Tag::Flight)) = packet.tag else {
                return Err(format!("it opened by no flight: {lines:?}"));
            };
            self.ashore.opened(opening);
        } else if packet.tag.is_some_and(|(_, tag)| tag == Tag::Flight) && before == "Open" {
            self.owes_warning |= has("1 refused 11");
        }
        if let Some(reply) = out(&lines) {
            self.enter(false, reply, None);
        }
        if faultless && before != "Open" {
            let fine = lines.iter().any(|line| line.starts_with("0 reply ") || line == "1 open");
            fine.then_some(()).ok_or(format!("in order, and yet: {lines:?}"))?;
        }
        self.ashore.heard(&packet, &lines, &self.reports, &mut self.done.reports.handed_out)
    }

    fn deliver_aboard(&mut self, packet: Packet, faultless: bool) -> Result<(), String> {
        let before = self.ship_state.clone();
        let lines = self.on_ship(&format!("receive {} 128", word(&packet.bytes)))?;
        if lines.iter().any(|line| line.contains(" open ")) {
            self.opening += 1;
            self.aboard.opened(self.opening);
            let flight = out(&lines).ok_or(format!("no flight: {lines:?}"))?;
            self.enter(true, flight, Some((self.opening, Tag::Flight)));
        }
        if faultless && before == "Sent" {
            let fine =
                lines[1] == "0 hello" && lines[2] == "1 spec" && lines[3].starts_with("2 open ");
            fine.then_some(()).ok_or(format!("in order, and yet: {lines:?}"))?;
        }
        self.aboard.heard(&packet, &lines, &self.orders, &mut self.done.orders.handed_out)
    }

    /// On a link without faults all that was sent is handed out.
    fn end(&mut self, faultless: bool) -> Result<(), String> {
        let all = |sent: &BTreeMap<(u64, u16), Vec<u8>>, inbox: &Inbox| {
            let sent = sent.keys().filter(|(opening, _)| Some(*opening) == inbox.opening);
            sent.count() == inbox.handed_out.len()
        };
        if faultless && !(all(&self.reports, &self.ashore) && all(&self.orders, &self.aboard)) {
            return Err("in order, and yet not all was handed out".to_string());
        }
        self.reports.clear();
        self.orders.clear();
        Ok(())
    }
}

/// Takes out what is due, in its order.
fn due(way: &mut Vec<Packet>, now: u64) -> Vec<Packet> {
    let (mut out, left): (Vec<_>, Vec<_>) =
        std::mem::take(way).into_iter().partition(|packet| packet.due <= now);
    *way = left;
    out.sort_by_key(|packet| packet.due);
    out
}

impl Inbox {
    fn opened(&mut self, opening: u64) {
        self.opening = Some(opening);
        self.arrived.clear();
        self.handed_out.clear();
    }

    /// A datagram came to this end: what is handed out must have been sent, and what is due must be
    /// handed out.
    fn heard(
        &mut self,
        packet: &Packet,
        lines: &[String],
        sent: &BTreeMap<(u64, u16), Vec<u8>>,
        handed_out: &mut u64,
    ) -> Result<(), String> {
        let data = lines.iter().find(|line| line.starts_with("0 data "));
        let number = match packet.tag {
            Some((opening, Tag::Number(number))) if Some(opening) == self.opening => Some(number),
            _ => None,
        };
        let Some((number, opening)) = number.filter(|_| !packet.damaged).zip(self.opening) else {
            return match data {
                Some(_) => Err(format!("handed out, and never sent: {lines:?}")),
                None => Ok(()),
            };
        };
        let highest = self.arrived.last().map_or(0, |number| u32::from(*number));
        let is_due = u32::from(number) + self.width > highest && self.arrived.insert(number);
        let Some(bytes) = sent.get(&(opening, number)) else { return Ok(()) };
        match data {
            Some(line) => {
                let place: Vec<usize> =
                    line.split(' ').skip(2).filter_map(|word| word.parse().ok()).collect();
                let shown = &packet.bytes[place[0]..place[0] + place[1]];
                if shown != bytes || !self.handed_out.insert(number) || !is_due {
                    return Err(format!("handed out twice, or otherwise than sent: {lines:?}"));
                }
                *handed_out += 1;
                Ok(())
            }
            None if is_due => Err(format!("number {number} came in time: {lines:?}")),
            None => Ok(()),
        }
    }
}
