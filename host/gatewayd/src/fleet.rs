//! All ships, and what a datagram does to them. Nothing here touches the disk or the network: what
//! is to be saved, sent and logged comes back, and the caller does it in that order.

use crate::budget::Shares;
use crate::datagram;
use crate::handshakes::{self, Handshakes};
use crate::hints::Hints;
use crate::note::Note;
use crate::routes::Routes;
use crate::search::{self, Arrival, Found, Known, Target, Trials};
use crate::sessions::Identifier;
use crate::ship::{Handshake, Ship};
use crate::store::row::{Clocks, Saved};
use crate::throttle::Throttle;
use crate::trial::{self, Trial, Worth};
use crate::way::{self, Way};
use gateway::{Answer, Refusal, Refused, Sense, State, Tally, REPLY_ROOM};
use std::collections::HashMap;
use std::time::{Duration, Instant};

const WARNING: u32 = 1;
const DUPLICATE_FINISHED_RECEIVED: u32 = 57;

/// Hellos answered for one share of the hosts, and for all.
const HELLOS_OF_A_SHARE: u32 = 100;
const HELLOS_EACH_SECOND: u32 = 4_000;

pub struct Rules {
    /// At most one warning 57 for each ship in this time.
    pub warn_every: Duration,
    /// At most one no_connection to a sender in this time; none at all, if none.
    pub hint_every: Option<Duration>,
}

pub struct Fleet {
    pub ships: Vec<Ship>,
    by_identifier: HashMap<Identifier, usize>,
    routes: Routes,
    handshakes: Handshakes,
    warnings: Throttle<usize>,
    hints: Option<Hints>,
    hellos: Shares,
    trials: Trials,
    /// Handshakes that an alert in the clear has closed, since the start of the gateway.
    closed_in_clear: u64,
    /// Hellos that were answered.
    answered: u64,
}

#[derive(Clone, PartialEq, Eq, Debug)]
pub struct Report {
    pub number: u16,
    pub bytes: Vec<u8>,
}

/// What a datagram did.
#[derive(Default)]
pub struct Taken {
    /// The ship that it was for.
    pub ship: Option<usize>,
    /// Others that must be saved, too.
    pub also: Vec<usize>,
    /// Whether the ship must be saved before anything is sent.
    pub changed: bool,
    /// The ship's tally before it, if it was counted.
    pub before: Option<Tally>,
    pub reports: Vec<Report>,
    pub send: Vec<(Way, Vec<u8>)>,
    pub notes: Vec<Note>,
}

impl Fleet {
    pub fn new(mut ships: Vec<Ship>, rules: Rules) -> Fleet {
        let by_identifier =
            ships.iter().enumerate().map(|(index, ship)| (ship.session.id, index)).collect();
        let mut handshakes = Handshakes::default();
        for index in 0..ships.len() {
            for handshake in std::mem::take(&mut ships[index].started) {
                handshakes.add(&mut ships, index, handshake);
            }
        }
        let mut fleet = Fleet {
            ships,
            by_identifier,
            routes: Routes::default(),
            handshakes,
            warnings: Throttle::new(rules.warn_every),
            hints: rules.hint_every.map(Hints::new),
            hellos: Shares::new(HELLOS_EACH_SECOND, HELLOS_OF_A_SHARE),
            trials: Trials::default(),
            closed_in_clear: 0,
            answered: 0,
        };
        for index in 0..fleet.ships.len() {
            fleet.set_route(index);
        }
        fleet
    }

    /// The ship with an identifier.
    pub fn index(&self, identifier: &Identifier) -> Option<usize> {
        self.by_identifier.get(identifier).copied()
    }

    /// Makes a ship what the store has of it.
    pub fn restore(&mut self, index: usize, saved: &Saved, clocks: Clocks) -> Result<(), String> {
        self.handshakes.end_all_of(&mut self.ships, index);
        let restored = saved.restore(&mut self.ships[index], clocks);
        for handshake in std::mem::take(&mut self.ships[index].started) {
            self.handshakes.add(&mut self.ships, index, handshake);
        }
        self.set_route(index);
        restored
    }

    /// Takes a datagram. The random must be fresh.
    pub fn take(&mut self, way: Way, datagram: &[u8], random: &[u8; 16], now: Instant) -> Taken {
        let arrival = Arrival { way, datagram, random, now };
        match datagram::hello(datagram) {
            Some(hello) => self.take_hello(&hello, &arrival),
            None => self.take_records(&arrival),
        }
    }

    /// How often a datagram was tried on a connection in search of its ship.
    pub fn trials(&self) -> u64 {
        self.trials.made
    }

    /// The work that strangers can ask for, since the start, in one line.
    pub fn work(&self) -> String {
        let Trials { made, codes, .. } = &self.trials;
        format!("{made} trials, {codes} codes compared, {} hellos answered", self.answered)
    }
}

/// Hellos. Each is for the ship that it names and is answered to its sender; no route moves.
impl Fleet {
    fn take_hello(&mut self, hello: &datagram::Hello, arrival: &Arrival) -> Taken {
        let Some(index) = self.by_identifier.get(&hello.session).copied() else {
            return noted(None, Note::UnknownSession);
        };
        let ship = &self.ships[index];
        if ship.barred {
            return noted(Some(index), Note::Refused { refusal: Refusal::Ended, record: 0 });
        }
        let same = |handshake: &Handshake| handshake.hello == hello.message;
        let under_way = ship.started.iter().position(same);
        let is_of_open = ship.is_open() && ship.hello == hello.message;
        let alone = hello.record.len() == arrival.datagram.len();
        if !self.may_answer(index, arrival) {
            return noted(Some(index), Note::HelloPassedOver);
        }
        if is_of_open || alone || !self.ships[index].is_open() {
            return self.answer(index, under_way, is_of_open, hello, arrival);
        }
        // Beside an open connection what stands behind the hello is not all for the handshake.
        if let Err(whole) = arrival.tried_on(&self.ships[index], Target::Settled(index)) {
            return noted(Some(index), refused_whole(whole));
        }
        let first = Arrival { datagram: hello.record, ..*arrival };
        let mut taken = self.answer(index, under_way, false, hello, &first);
        let started = self.ships[index].started.iter().find(|one| one.hello == hello.message);
        let serial = started.map(|handshake| handshake.serial);
        taken.add(self.each_beside_open(index, serial, arrival, 1));
        taken
    }

    /// Answers the hello of a ship: the open connection's, one of a handshake under way, or a new one.
    fn answer(
        &mut self,
        index: usize,
        under_way: Option<usize>,
        is_of_open: bool,
        hello: &datagram::Hello,
        arrival: &Arrival,
    ) -> Taken {
        let taken = match under_way {
            _ if is_of_open => self.say_again(Target::Settled(index), arrival),
            Some(place) => self.say_again(Target::Started(index, place), arrival),
            None => self.start(index, hello, arrival),
        };
        self.answered += u64::from(taken.notes.contains(&Note::Answered));
        taken
    }

    /// Hellos from the ship's own host have a budget that no other host can use up.
    fn may_answer(&mut self, index: usize, arrival: &Arrival) -> bool {
        let host = way::host(arrival.way.sender);
        match handshakes::is_home(&self.ships[index], host) {
            true => self.ships[index].hellos.spend(1, arrival.now),
            false => self.hellos.spend(host, 1, arrival.now),
        }
    }

    /// The hello of the open connection, or of a handshake under way, once more: the same reply, and
    /// nothing starts.
    fn say_again(&mut self, target: Target, arrival: &Arrival) -> Taken {
        let index = target.ship();
        if let Target::Started(_, place) = target {
            self.handshakes.said_again(&mut self.ships, index, place, arrival.way.sender);
        }
        match arrival.tried_on(&self.ships[index], target) {
            Ok(trial) => {
                let answered = trial.has_reply().then_some(Note::Answered);
                let mut taken = self.settle(target, trial, arrival);
                taken.notes.extend(answered.filter(|_| !taken.send.is_empty()));
                taken
            }
            Err(refused) => noted(Some(index), refused_whole(refused)),
        }
    }

    /// A new hello: a handshake of its own, beside all others.
    fn start(&mut self, index: usize, hello: &datagram::Hello, arrival: &Arrival) -> Taken {
        let sender = arrival.way.sender;
        let Some(room) = self.handshakes.room(&self.ships, index, sender, arrival.now) else {
            return noted(Some(index), Note::HelloPassedOver);
        };
        let ship = &self.ships[index];
        let Some(connection) = ship.base() else { return Taken::default() };
        let trial = match trial::on(&connection, ship.tally, arrival.datagram, arrival.random) {
            Ok(trial) => trial,
            Err(refused) => return noted(Some(index), refused_whole(refused)),
        };
        let mut taken = Taken { ship: Some(index), ..Taken::default() };
        tell(arrival, &trial, &mut taken, &mut self.closed_in_clear);
        // Nothing is kept of a hello that is refused, or that is taken back by what follows it.
        let under_way = matches!(trial.connection.state(), State::Replied | State::Spec);
        if trial.has_reply() && under_way {
            let newcomer = Handshake {
                serial: 0,
                hello: hello.message.to_vec(),
                senders: vec![sender],
                connection: trial.connection,
                at: arrival.now,
            };
            self.handshakes.start(&mut self.ships, index, room, newcomer);
            taken.changed = true;
            taken.notes.push(Note::Answered);
        }
        taken
    }
}

/// Everything else. It is for the ship whose keys made it.
impl Fleet {
    fn take_records(&mut self, arrival: &Arrival) -> Taken {
        if datagram::is_change_alone(arrival.datagram) {
            if let Some(taken) = self.take_change(arrival) {
                return taken;
            }
        }
        let known =
            Known { ships: &self.ships, routes: &self.routes, handshakes: &self.handshakes };
        match search::find(&known, &mut self.trials, arrival) {
            Found::Genuine(target, trial) | Found::Refused(target, trial) => match target {
                Target::Started(index, place) if self.ships[index].is_open() => {
                    let serial = self.ships[index].started[place].serial;
                    self.each_beside_open(index, Some(serial), arrival, 0)
                }
                _ => self.settle(target, trial, arrival),
            },
            Found::RefusedWhole(ship, refused) => noted(ship, refused_whole(refused)),
            Found::Nobodys => self.pass_over(arrival),
        }
    }

    /// The records of a datagram for a handshake beside an open connection, from one on. Each is judged by itself, as the library does
    /// it where both are in one connection (02, P6).
    fn each_beside_open(
        &mut self,
        index: usize,
        serial: Option<u64>,
        arrival: &Arrival,
        from: usize,
    ) -> Taken {
        let mut all = Taken { ship: Some(index), ..Taken::default() };
        for (place, record) in datagram::records(arrival.datagram).enumerate().skip(from) {
            let one = Arrival { datagram: record, ..*arrival };
            let mut taken = match self.beside_open(index, serial, &one) {
                _ if place > 0 && datagram::is_hello(record) => {
                    let refusal = Refusal::NotAllowed;
                    noted(Some(index), Note::Refused { refusal, record: 0 })
                }
                Ok((target, trial)) => self.settle(target, trial, &one),
                Err(whole) => noted(Some(index), refused_whole(whole)),
            };
            taken.notes.iter_mut().for_each(|note| note.is_of(place));
            all.add(taken);
        }
        all
    }

    /// Whose one record is. In the clear it is the handshake's. Protected it is the open connection's, but for a handshake record with
    /// a right code under the keys of the handshake: the code decides.
    fn beside_open<'d>(
        &mut self,
        index: usize,
        serial: Option<u64>,
        one: &Arrival<'d>,
    ) -> Result<(Target, Trial<'d>), Refused> {
        let ship = &self.ships[index];
        let open = Target::Settled(index);
        let protected = datagram::is_protected(one.datagram);
        let place = serial.and_then(|serial| handshakes::place_of(ship, serial));
        let started = place.map(|place| Target::Started(index, place));
        let may = !protected || datagram::is_protected_handshake(one.datagram);
        if let Some(started) = started.filter(|_| may) {
            self.trials.count(u64::from(protected));
            let trial = one.tried_on(ship, started)?;
            if !protected || trial.worth != Worth::Nothing {
                return Ok((started, trial));
            }
        }
        self.trials.count(u64::from(protected));
        Ok((open, one.tried_on(ship, open)?))
    }

    /// A change cipher spec alone in a datagram says nothing of whose it is: it is for all handshakes that were begun at this address
    /// and wait for one. Each waits once, so there are no more trials in this than hellos that were answered.
    fn take_change(&mut self, arrival: &Arrival) -> Option<Taken> {
        let mut all: Option<Taken> = None;
        for (index, serial) in self.handshakes.waiting_at(arrival.way.sender) {
            let ship = &self.ships[index];
            let Some(place) = handshakes::place_of(ship, serial) else { continue };
            if ship.started[place].connection.state() != State::Replied {
                continue;
            }
            let target = Target::Started(index, place);
            self.trials.count(0);
            let Ok(trial) = arrival.tried_on(ship, target) else { continue };
            let taken = self.settle(target, trial, arrival);
            match &mut all {
                Some(all) => all.also.push(index),
                None => all = Some(taken),
            }
        }
        all
    }

    /// Nobody's. The sender may be told, if the operator wants it.
    fn pass_over(&mut self, arrival: &Arrival) -> Taken {
        let mut taken = noted(None, Note::Stranger);
        let first = datagram::records(arrival.datagram).next();
        let protected = first.filter(|record| datagram::is_protected(record));
        if let (Some(hints), Some(record)) = (&mut self.hints, protected) {
            if let Some(hint) = hints.answer(arrival.way.sender, record, arrival.now) {
                taken.send.push((arrival.way, hint));
                taken.notes.push(Note::Hinted);
            }
        }
        taken
    }

    /// What comes of a datagram in the connection that takes it.
    fn settle(&mut self, target: Target, trial: Trial, arrival: &Arrival) -> Taken {
        let index = target.ship();
        if self.is_anybodys_end(target, &trial) {
            return noted(Some(index), Note::AlertPassedOver);
        }
        let mut taken = Taken { ship: Some(index), ..Taken::default() };
        tell(arrival, &trial, &mut taken, &mut self.closed_in_clear);
        let ship = &mut self.ships[index];
        taken.before = Some(ship.tally);
        ship.tally = trial.tally;
        if trial.opens() {
            ship.opening += 1;
            ship.mute = false;
        }
        let mut moved = false;
        if let Worth::New(number) = trial.worth {
            moved = ship.route != Some(arrival.way.sender);
            if moved {
                let until_now = ship.recent.clone();
                ship.move_route(arrival.way.sender);
                self.routes.set_recent(index, &until_now, &ship.recent);
            }
            ship.ours = arrival.way.ours;
            ship.heard = arrival.now;
            ship.newest = if trial.opens() { number } else { number.max(ship.newest) };
        }
        let differs = match target {
            Target::Settled(_) => ship.connection != trial.connection,
            Target::Started(_, place) => ship.started[place].connection != trial.connection,
        };
        taken.changed = moved || differs || !taken.reports.is_empty();
        self.put(target, &trial, &mut taken);
        // Who is heard on the open connection long after a hello has not rebooted: what strangers began beside it goes.
        if matches!((target, trial.worth), (Target::Settled(_), Worth::New(_))) {
            self.handshakes.end_old_of(&mut self.ships, index, arrival.now);
        }
        if matches!(target, Target::Settled(_)) || trial.opens() {
            self.warn_of_repeated(index, arrival, &trial, &mut taken);
        }
        self.set_route(index);
        taken
    }

    /// An alert in the clear that would end a handshake whose hello several have said. Each of them
    /// has the reply, and so what such an alert must carry (10.2); and one of them may be the ship.
    fn is_anybodys_end(&self, target: Target, trial: &Trial) -> bool {
        let Target::Started(index, place) = target else { return false };
        let shared = self.ships[index].started[place].senders.len() > 1;
        let ended = trial.connection.state() == State::Closed;
        shared && ended && trial.worth == Worth::Nothing
    }

    /// Puts a connection where it belongs after a datagram. A handshake that opens takes the place
    /// of what was there, and those before it end. A ship may have rebooted once more since.
    fn put(&mut self, target: Target, trial: &Trial, taken: &mut Taken) {
        let index = target.ship();
        let state = trial.connection.state();
        if let Target::Started(_, place) = target {
            if !trial.opens() && state != State::Barred {
                self.ships[index].replace_started(place, &trial.connection);
                if state == State::Closed {
                    self.handshakes.end(&mut self.ships, index, place);
                }
                return;
            }
            if self.ships[index].is_open() {
                taken.notes.push(Note::Replaced);
            }
            self.ships[index].hello = self.ships[index].started[place].hello.clone();
            self.handshakes.end_until(&mut self.ships, index, place);
        }
        let ship = &mut self.ships[index];
        ship.connection = trial.connection.clone();
        match state {
            // A closed connection is of no use: the next hello is to find it started again. (From
            // Closed, start again is never refused.) What was started beside it ends with it.
            State::Closed => {
                let _ = ship.connection.start();
                self.handshakes.end_all_of(&mut self.ships, index);
            }
            State::Barred => {
                ship.barred = true;
                self.handshakes.end_all_of(&mut self.ships, index);
            }
            State::Idle | State::Replied | State::Spec | State::Open => {}
        }
    }

    /// The warning 57 of 10.4, at most one in its time: each spends one of our 65,535 numbers. It
    /// goes where the ship is known to be.
    fn warn_of_repeated(
        &mut self,
        index: usize,
        arrival: &Arrival,
        trial: &Trial,
        taken: &mut Taken,
    ) {
        let ship = &mut self.ships[index];
        let Some(finished) = repeated_finished(arrival.datagram, &trial.answers) else { return };
        let Some(sender) = ship.route else { return };
        if !ship.is_open() || ship.mute || self.warnings.pass(index, arrival.now).is_none() {
            return;
        }
        let mut out = [0; REPLY_ROOM];
        let sent = ship.connection.send_alert(
            Sense::Protected,
            WARNING,
            DUPLICATE_FINISHED_RECEIVED,
            finished,
            &mut out,
        );
        match sent {
            Ok(warning) => {
                taken.send.push((Way { sender, ours: ship.ours }, warning.to_vec()));
                taken.notes.push(Note::Warned);
                taken.changed = true;
            }
            Err(refusal) => taken.notes.push(Note::AlertRefused { refusal }),
        }
    }

    /// Routes are looked up for open ships only.
    fn set_route(&mut self, index: usize) {
        let ship = &self.ships[index];
        let route = ship.route.filter(|_| ship.is_open()).map(|route| (route, ship.newest));
        self.routes.set(index, route);
    }
}

impl Taken {
    /// What a later record of the same datagram did.
    fn add(&mut self, later: Taken) {
        self.also.extend(later.also);
        self.changed |= later.changed;
        self.before = self.before.or(later.before);
        self.reports.extend(later.reports);
        self.send.extend(later.send);
        self.notes.extend(later.notes);
    }
}

fn noted(ship: Option<usize>, note: Note) -> Taken {
    Taken { ship, notes: vec![note], ..Taken::default() }
}

fn refused_whole(Refused { refusal, offset }: Refused) -> Note {
    Note::RefusedWhole { refusal, offset }
}

/// Puts down what each answer is for the outside.
fn tell(arrival: &Arrival, trial: &Trial, taken: &mut Taken, closed_in_clear: &mut u64) {
    for (record, answer) in trial.answers.iter().enumerate() {
        match *answer {
            Answer::Reply(_) | Answer::Resent(_) => {
                taken.send.push((arrival.way, trial.reply.clone()));
            }
            Answer::Data { number, bytes, .. } => {
                taken.reports.push(Report { number, bytes: bytes.to_vec() });
            }
            Answer::Open => taken.notes.push(Note::Opened),
            Answer::Critical(description) | Answer::Fatal(description) => {
                taken.notes.push(match datagram::records(arrival.datagram).nth(record) {
                    Some(alert) if !datagram::is_protected(alert) => {
                        *closed_in_clear += 1;
                        Note::ClosedInClear { description, so_far: *closed_in_clear }
                    }
                    _ => Note::ClosedByAlert { description },
                });
            }
            Answer::Barred(description) => taken.notes.push(Note::BarredByAlert { description }),
            Answer::Refused(refusal) => {
                taken.notes.push(Note::Refused { refusal, record });
                if refusal == Refusal::WrongFinished {
                    taken.notes.push(Note::ClosedByWrongFinished);
                }
            }
            Answer::Spec | Answer::Again | Answer::Warning(_) => {}
        }
    }
}

/// The record that is the unit's Finished once more: "again" under a new number; under its old
/// number repeated or, later, too old. (Both are said only of records whose code is right.)
fn repeated_finished<'d>(datagram: &'d [u8], answers: &[Answer]) -> Option<&'d [u8]> {
    let records = datagram::records(datagram);
    let repeated = |(answer, record): &(&Answer, &[u8])| match answer {
        Answer::Again => true,
        Answer::Refused(Refusal::TooOld | Refusal::Repeated) => {
            datagram::is_protected_handshake(record)
        }
        _ => false,
    };
    answers.iter().zip(records).find(repeated).map(|(_, record)| record)
}
