//! The gateway at work: datagrams in runs, each run committed, then answered.

use crate::fleet::{Fleet, Rules};
use crate::inbox::{Inbox, WAIT};
use crate::log::{say, Log, Progress};
use crate::messages::Messages;
use crate::note::Note;
use crate::options::Options;
use crate::randoms::Randoms;
use crate::sessions;
use crate::shore::{Shore, Told};
use crate::signals::{self, Asked};
use crate::socket::{self, Datagram, Socket};
use crate::store::engine::Fault;
use crate::store::{Opened, Store};
use crate::waiting::Waiting;
use crate::way::Way;
use gateway::State;
use std::fmt;
use std::io::{self, IsTerminal};
use std::path::PathBuf;
use std::time::{Duration, Instant};

/// Why the gateway ended, in one line, and the exit status that stands for it.
pub struct Failure {
    pub status: u8,
    pub what: String,
}

/// How it ended, if nothing failed.
pub enum Ended {
    ForGood,
    /// To be started anew, with the same sockets.
    WithSuccessor(Vec<Socket>),
}

/// How many datagrams are saved at once, about.
const RUN: usize = 256;
/// What was only counted is saved so often.
const COUNTS_EVERY: Duration = Duration::from_secs(10);
/// Short messages have an inbox of their own, which is looked into so often while nothing comes to the other.
const MESSAGES_WAIT: Duration = Duration::from_millis(5);
/// The pause in which more datagrams may join a run, as a part of what the last one took.
const PAUSE_PART: u32 = 16;
const LONGEST_PAUSE: Duration = Duration::from_millis(1);

struct Gateway {
    socket: Socket,
    inbox: Inbox,
    messages: Option<Messages>,
    shore: Shore,
    log: Log,
    sessions: PathBuf,
    datagrams: u64,
    /// Datagrams of ours that the system did not take.
    not_sent: u64,
    told_dropped: (u64, Instant),
    saved_counts: Instant,
    /// How long the last run took.
    last_run: Duration,
    log_every: Duration,
    on_terminal: bool,
}

pub fn run(options: &Options) -> Result<Ended, Failure> {
    signals::listen();
    let failure = |status: u8| move |what: String| Failure { status, what };
    let sessions = sessions::load(&options.sessions).map_err(failure(3))?;
    let listen =
        |error: io::Error| Failure { status: 5, what: format!("{}: {error}", options.listen) };
    let most = 1 + u32::from(options.listen_messages.is_some());
    let mut given = socket::handed_over(most).map_err(listen)?.into_iter();
    let socket = given.next().map_or_else(|| Socket::bind(options.listen), Ok).map_err(listen)?;
    let address = socket.address().map_err(listen)?;
    let messages = open_messages(options, given.next())?;
    let randoms = Randoms::open().map_err(failure(6))?;
    let mut log = Log::new(options.log_every);
    let attempt = || match Store::open(&options.store, &sessions, options.start) {
        Ok(opened) => Ok(Ok(opened)),
        Err(Fault::Again(what) | Fault::Away(what)) => Ok(Err(what)),
        Err(Fault::Broken(what)) => Err(Failure { status: 4, what }),
    };
    // Nothing is taken out of the socket for a store that cannot be used.
    let mut opened = attempt()?;
    let inbox = Inbox::open(&socket).map_err(listen)?;
    let mut waiting = Waiting::new(&mut log, &inbox, options.log_every);
    let Opened { store, ships } = loop {
        match opened {
            Ok(opened) => break opened,
            Err(what) if waiting.goes_on(&what) => opened = attempt()?,
            Err(what) => return Err(Failure { status: 6, what }),
        }
    };
    waiting.end();
    if socket.before > 0 {
        log.line(&format!("before this start the system dropped {} datagrams", socket.before));
    }

    let rules = Rules { warn_every: options.warn_every, hint_every: options.hint_every };
    let shore = Shore::new(Fleet::new(ships, rules), store, randoms);
    let version = env!("CARGO_PKG_VERSION");
    let also = match &messages {
        Some(messages) => format!("; short messages on {}", messages.address().map_err(listen)?),
        None => String::new(),
    };
    say(format!("gatewayd {version} listens on {address}: {}{also}\n", states(&shore.fleet)));
    let now = Instant::now();
    let mut gateway = Gateway {
        socket,
        inbox,
        messages,
        shore,
        log,
        sessions: options.sessions.clone(),
        datagrams: 0,
        not_sent: 0,
        told_dropped: (0, now),
        saved_counts: now,
        last_run: Duration::ZERO,
        log_every: options.log_every,
        on_terminal: io::stderr().is_terminal(),
    };
    let worked = gateway.work();
    gateway.tell_dropped();
    gateway.tell_work();
    gateway.log.end();
    worked.map(|asked| gateway.end(asked)).map_err(failure(6))
}

impl Gateway {
    /// Takes datagrams until something else is asked for.
    fn work(&mut self) -> Result<Asked, String> {
        let asked = loop {
            match signals::asked() {
                Asked::Nothing => {}
                Asked::NewStart if self.on_terminal => break Asked::End,
                Asked::NewStart if !self.may_start_anew() => signals::refuse_new_start(),
                asked => break asked,
            }
            let run = self.next()?;
            let counts = self.saved_counts.elapsed() >= COUNTS_EVERY;
            if !run.is_empty() || counts {
                self.take(&run, counts)?;
            }
            if self.told_dropped.1.elapsed() >= self.log_every {
                self.tell_dropped();
            }
            self.show_progress();
        };
        // What was received is still taken; what was not waits in the socket.
        self.inbox.close();
        if let Some(messages) = &mut self.messages {
            messages.close();
        }
        loop {
            let run = self.next()?;
            let last = run.is_empty();
            self.take(&run, last)?;
            if last {
                return Ok(asked);
            }
        }
    }

    /// A commit is shared by what has arrived: where it takes long, what follows closely is waited for.
    fn next(&mut self) -> Result<Vec<Datagram>, String> {
        let pause = (self.last_run / PAUSE_PART).min(LONGEST_PAUSE);
        let wait = if self.messages.is_some() { MESSAGES_WAIT } else { WAIT };
        let told = |error: io::Error| error.to_string();
        let mut shown = self.next_messages().map_err(told)?;
        let run = match shown.is_empty() {
            true => self.inbox.next(RUN, pause, wait),
            false => self.inbox.poll(RUN),
        };
        shown.extend(run.map_err(told)?);
        Ok(shown)
    }

    /// The datagrams that short messages show. What is said of messages is logged at once.
    fn next_messages(&mut self) -> io::Result<Vec<Datagram>> {
        let Some(messages) = &mut self.messages else { return Ok(Vec::new()) };
        let shown = messages.next(RUN)?;
        let now = Instant::now();
        for (sender, note) in shown.notes {
            self.log.note(None, sender, note, now);
        }
        Ok(shown.run)
    }

    /// Sends a datagram back the way that one came: to a relay as a short message.
    fn send(&self, way: Way, bytes: &[u8]) -> io::Result<()> {
        let sent = self.messages.as_ref().and_then(|messages| messages.send(way, bytes));
        sent.unwrap_or_else(|| self.socket.send(way, bytes))
    }

    /// A sessions file that cannot be used would be the end: better go on with the one that was.
    fn may_start_anew(&mut self) -> bool {
        let fault = sessions::load(&self.sessions).err();
        if let Some(what) = &fault {
            self.log.line(&format!("no new start: {what}"));
        }
        fault.is_none()
    }

    /// Takes a run of datagrams. The order is the point: committed, and only then sent.
    fn take(&mut self, run: &[Datagram], counts: bool) -> Result<(), String> {
        let now = Instant::now();
        let mut waiting = Waiting::new(&mut self.log, &self.inbox, self.log_every);
        let told = self.shore.take(run, counts, &mut |what| waiting.goes_on(what));
        waiting.end();
        let Told { send, mut notes } = told.map_err(|what| format!("store: {what}"))?;
        self.last_run = now.elapsed();
        if counts {
            self.saved_counts = now;
        }
        self.datagrams += run.len() as u64;
        for (way, bytes) in send {
            // A datagram that cannot be sent is one that the link lost.
            if let Err(error) = self.send(way, &bytes) {
                self.not_sent += 1;
                let note = Note::NotSent { kind: error.kind(), so_far: self.not_sent };
                notes.push((None, way.sender, note));
            }
        }
        for (ship, sender, note) in notes {
            let ship = ship.map(|index| (index, &self.shore.fleet.ships[index].session.ship[..]));
            self.log.note(ship, sender, note, now);
        }
        Ok(())
    }

    /// A line if the system has dropped more than was told.
    fn tell_dropped(&mut self) {
        let (told, _) = self.told_dropped;
        let dropped = self.dropped();
        if dropped > told {
            let more = dropped - told;
            self.log.line(&format!("the system dropped {more} datagrams ({dropped} in all)"));
        }
        self.told_dropped = (dropped, Instant::now());
    }

    /// At the end: what the datagrams have cost.
    fn tell_work(&mut self) {
        let (taken, work) = (self.datagrams, self.shore.fleet.work());
        self.log.line(&format!("{taken} datagrams taken, {work}"));
    }

    fn show_progress(&mut self) {
        let now = Instant::now();
        if self.log.wants_progress(now) {
            let counts = self.counts();
            self.log.progress(&counts, now);
        }
    }

    /// How many datagrams and messages the system has dropped.
    fn dropped(&self) -> u64 {
        self.inbox.dropped() + self.messages.as_ref().map_or(0, Messages::dropped)
    }

    fn counts(&self) -> Progress {
        let dropped = self.dropped();
        let (datagrams, not_sent) = (self.datagrams, self.not_sent);
        let mut counts = Progress { datagrams, dropped, not_sent, ..Progress::default() };
        for ship in &self.shore.fleet.ships {
            counts.handed_out += u64::from(ship.tally.handed_out());
            counts.forged += u64::from(ship.tally.forged());
            counts.too_old += u64::from(ship.tally.too_old());
            counts.repeated += u64::from(ship.tally.repeated());
        }
        counts
    }

    /// The clean end: everything is in the store, tallies too. The tally of each ship.
    fn end(self, asked: Asked) -> Ended {
        if asked == Asked::NewStart {
            let messages = self.messages.map(Messages::into_socket);
            return Ended::WithSuccessor([self.socket].into_iter().chain(messages).collect());
        }
        say(Tallies(&self.shore.fleet).to_string());
        Ended::ForGood
    }
}

fn open_messages(options: &Options, given: Option<Socket>) -> Result<Option<Messages>, Failure> {
    let Some(address) = options.listen_messages else { return Ok(None) };
    let socket = given.map_or_else(|| Socket::bind(address), Ok);
    let opened = socket.and_then(|socket| Messages::open(socket, options.gather_for));
    opened.map(Some).map_err(|error| Failure { status: 5, what: format!("{address}: {error}") })
}

fn states(fleet: &Fleet) -> String {
    let open = fleet.ships.iter().filter(|ship| ship.is_open()).count();
    let barred = fleet.ships.iter().filter(|ship| ship.barred).count();
    format!("{} ships, {open} open, {barred} barred", fleet.ships.len())
}

/// The tally of each ship, one to a line, and how many of the newest numbers had arrived.
struct Tallies<'a>(&'a Fleet);

impl fmt::Display for Tallies<'_> {
    fn fmt(&self, f: &mut fmt::Formatter) -> fmt::Result {
        writeln!(f, "handed out\tforged\ttoo old\trepeated\tarrived\tstate\tship")?;
        for ship in &self.0.ships {
            let tally = &ship.tally;
            let state = match ship.connection.state() {
                _ if ship.barred => "barred",
                State::Open => "open",
                _ if !ship.started.is_empty() => "replied",
                _ => "idle",
            };
            writeln!(
                f,
                "{}\t{}\t{}\t{}\t{} of {}\t{state}\t{}",
                tally.handed_out(),
                tally.forged(),
                tally.too_old(),
                tally.repeated(),
                ship.connection.arrived(),
                ship.connection.width(),
                ship.session.ship
            )?;
        }
        Ok(())
    }
}
