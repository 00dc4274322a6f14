//! Seeded random days of a ship: its calls, what a shore sends it over a link that loses, repeats,
//! delays and reorders, strangers on it, and a caller who makes mistakes. Every call goes to the
//! model first, since the shore must hear what the ship would say.

mod calls;
mod records;
mod replies;

use crate::coast::Coast;
use crate::day::{word, Sink};
use crate::hex;
use crate::rng::Rng;
use crate::ship::State;
use crate::shipconsole::ShipConsole;
use crate::shiplines;
use crate::shore::Checksum;
use crate::wire;

/// One random day.
pub fn random(seed: u64, model: &mut ShipConsole, sink: &mut Sink) {
    let mut day = Day::new(seed, model, sink);
    day.morning();
    let steps = day.rng.between(20, 300);
    for _ in 0..steps {
        if day.over {
            return;
        }
        day.step();
    }
}

/// A day on which the protected or the clear sending numbers run out.
pub fn spent(seed: u64, protected: bool, model: &mut ShipConsole, sink: &mut Sink) {
    let mut day = Day::new(seed, model, sink);
    day.fresh();
    let opening = day.rng.pick(&[State::Opening, State::Open]);
    let early = day.rng.pick(&[State::Sent, State::Replied, State::Spec]);
    day.reach(if protected { opening } else { early });
    while !day.over && !day.is_spent(protected) {
        day.spend(protected);
    }
    for _ in 0..60 {
        match day.rng.percent(50) {
            true => day.send(),
            false => day.alert(),
        }
    }
    (0..60).for_each(|_| day.step());
}

struct Day<'a> {
    rng: Rng,
    model: &'a mut ShipConsole,
    sink: &'a mut Sink<'a>,
    over: bool,
    session: Vec<u8>,
    secret: Vec<u8>,
    coast: Coast,
    /// The shore's next protected number.
    next: u32,
    /// Datagrams on their way, and those that arrived.
    link: Vec<Vec<u8>>,
    arrived: Vec<Vec<u8>>,
    /// ServerHellos said, also to earlier hellos; and what the ship put out last.
    server_hellos: Vec<Vec<u8>>,
    put_out: Vec<Vec<u8>>,
    last_line: Vec<u8>,
    /// Checksums of records that the ship sent and no longer goes by, the latest last.
    forgotten: Vec<Checksum>,
    /// How many of a thousand numbers are not simply the next.
    disorder: usize,
    /// How many datagrams may be on their way.
    delay: usize,
    /// Whether connections are closed again soon, so that there are many handshakes.
    restless: bool,
}

/// How many forgotten checksums a day goes on naming.
const FORGOTTEN: usize = 6;
const KEPT_DATAGRAMS: usize = 60;

impl<'a> Day<'a> {
    fn new<'b>(seed: u64, model: &'a mut ShipConsole, sink: &'a mut Sink<'b>) -> Day<'a>
    where
        'b: 'a,
    {
        let mut rng = Rng::new(seed);
        let (session, secret) = (rng.bytes(8), rng.bytes(20));
        Day {
            coast: Coast::new(&secret),
            disorder: rng.weigh(&[(3, 10), (4, 100), (3, 400)]),
            delay: rng.under(6),
            restless: rng.percent(40),
            rng,
            model,
            sink,
            over: false,
            session,
            secret,
            next: 0,
            link: Vec::new(),
            arrived: Vec::new(),
            server_hellos: Vec::new(),
            put_out: Vec::new(),
            last_line: Vec::new(),
            forgotten: Vec::new(),
        }
    }

    /// Makes a call; the shore follows what came of it.
    fn call(&mut self, line: Vec<u8>) {
        let before = self.records_sent();
        let expected = self.model.line(&line);
        self.forget(before);
        self.follow(&line, &expected);
        if !self.over {
            self.over = !(self.sink)(&line, expected);
        }
        self.last_line = line;
    }

    /// What the ship puts out must satisfy the shore, and the ServerHello that the ship takes is the
    /// one that the shore goes by.
    fn follow(&mut self, line: &[u8], lines: &[String]) {
        let out = lines.iter().find_map(|line| line.strip_prefix("out "));
        let out = out.map(|text| hex::read(text.as_bytes()).expect("the model writes hex"));
        match lines[0].as_str() {
            "fresh ok" | "start ok" => self.coast.forget(),
            "hello ok" => {
                let hello = out.as_ref().expect("a hello is written");
                self.coast.hear_hello(hello, &self.session).expect("the shore reads the hello");
            }
            "send ok" | "alert ok" => {
                let record = out.as_ref().expect("a record is written");
                self.coast.hear(record).expect("the shore reads what the ship sends");
            }
            _ => self.follow_receive(line, lines, out.as_deref()),
        }
        self.put_out.extend(out);
        if self.put_out.len() > 10 {
            self.put_out.remove(0);
        }
    }

    fn follow_receive(&mut self, line: &[u8], lines: &[String], out: Option<&[u8]>) {
        if lines.get(1).is_some_and(|answer| answer == "0 hello") {
            let datagram = line.split(|byte| *byte == b' ').nth(1).expect("a receive");
            let datagram = hex::read(datagram).expect("the ship read it");
            let records = wire::frame(&datagram).expect("the ship read it");
            self.coast.adopt(&datagram[records[0].fragment.clone()]);
            self.next = 0;
            let left = self.rng.under(2);
            self.link.truncate(left);
        }
        if lines.iter().any(|answer| answer.contains(" open ")) {
            let flight = out.expect("a flight is written");
            self.coast.hear_flight(flight).expect("the shore takes the flight");
        }
    }

    fn state(&self) -> State {
        self.model.state().unwrap_or(State::Barred)
    }

    /// The checksums that the ship goes by, the newest first.
    fn records_sent(&self) -> Vec<Checksum> {
        self.model.ship().map_or(Vec::new(), |ship| ship.records_sent().to_vec())
    }

    /// Those of `before` that the ship no longer goes by: one too many, or from before a start.
    fn forget(&mut self, before: Vec<Checksum>) {
        let now = self.records_sent();
        self.forgotten.extend(before.iter().rev().filter(|sum| !now.contains(sum)));
        let many = self.forgotten.len().saturating_sub(FORGOTTEN);
        self.forgotten.drain(..many);
    }

    /// The first calls: some before there is a ship, then a fresh one.
    fn morning(&mut self) {
        let early = [
            "close",
            "start",
            "send 00 14",
            "alert clear 1 0 - 9",
            "receive 430000000000 128",
            "again 100",
            "hello 101112131415161718191a1b1c1d1e1f 02 3 100",
        ];
        if self.model.ship().is_none() {
            for line in early {
                self.call(line.into());
                self.wrong_fresh();
            }
        }
        self.fresh();
    }

    fn step(&mut self) {
        match self.rng.under(100) {
            0..=5 => self.replay(),
            6..=11 => self.damage(),
            12..=13 => self.garbage(),
            14..=16 => self.odd_line(),
            17..=18 => self.odd_receive(),
            19..=22 => self.call_ship(),
            23 if self.rng.percent(15) => self.fresh(),
            23 => self.wrong_fresh(),
            24 => self.boundary(),
            25 => self.wrong_hello(),
            26 => self.reflect(),
            27 => self.again(),
            _ => self.ordinary(),
        }
    }

    /// Ordinary steps until the ship is in the state.
    fn reach(&mut self, state: State) {
        while !self.over && self.state() != state {
            self.ordinary();
        }
    }

    fn ordinary(&mut self) {
        match self.state() {
            State::Idle => self.ordinary_idle(),
            State::Sent => self.ordinary_sent(),
            State::Replied => self.ordinary_replied(),
            State::Spec => self.ordinary_spec(),
            State::Opening => self.ordinary_opening(),
            State::Open => self.ordinary_open(),
            State::Closed => self.ordinary_closed(),
            State::Barred => self.ordinary_barred(),
        }
    }

    fn ordinary_idle(&mut self) {
        match self.rng.under(100) {
            0..=59 => self.hello(),
            60..=67 => self.wrong_hello(),
            68..=77 => self.hello_request(),
            78..=83 => self.old_reply(),
            84..=89 => self.traffic(),
            90..=92 => self.clear_alert(),
            93 => self.again(),
            _ => self.call_ship(),
        }
    }

    fn ordinary_sent(&mut self) {
        match self.rng.under(100) {
            0..=13 => self.reply(),
            14..=20 => self.odd_reply(),
            21..=44 => self.server_hello(),
            45..=57 => self.wrong_server_hello(),
            58..=70 => self.clear_alert(),
            71 => self.earlier_records(),
            72..=76 => self.hello_request(),
            77..=80 => self.again(),
            81..=83 => self.traffic(),
            84..=85 => self.change_cipher_spec(),
            86..=87 => self.finished(),
            88..=89 => self.old_reply(),
            _ => self.call_ship(),
        }
    }

    fn ordinary_replied(&mut self) {
        match self.rng.under(100) {
            0..=24 => self.change_cipher_spec(),
            25..=28 => self.rest_of_the_reply(),
            29..=33 => self.reply(),
            34..=38 => self.odd_reply(),
            39..=44 => self.server_hello(),
            45..=56 => self.wrong_server_hello(),
            57..=69 => self.clear_alert(),
            70..=71 => self.earlier_records(),
            72..=77 => self.hello_request(),
            78..=81 => self.again(),
            82..=87 => self.traffic(),
            88..=89 => self.finished(),
            _ => self.call_ship(),
        }
    }

    fn ordinary_spec(&mut self) {
        match self.rng.under(100) {
            0..=13 => self.finished(),
            14..=45 => self.traffic(),
            46..=49 => self.reply(),
            50..=53 => self.odd_reply(),
            54..=57 => self.server_hello(),
            58..=66 => self.wrong_server_hello(),
            67..=76 => self.clear_alert(),
            77..=78 => self.earlier_records(),
            79..=84 => self.hello_request(),
            85..=87 => self.again(),
            88..=89 => self.change_cipher_spec(),
            _ => self.call_ship(),
        }
    }

    fn ordinary_opening(&mut self) {
        match self.rng.under(100) {
            0..=39 => self.traffic(),
            40..=49 => self.again(),
            50..=53 => self.finished(),
            54..=58 => self.hello_request(),
            59..=61 => self.reply(),
            62..=63 => self.clear_alert(),
            64 => self.change_cipher_spec(),
            65..=66 => self.wrong_server_hello(),
            67 if self.restless => self.close(),
            _ => self.call_ship(),
        }
    }

    fn ordinary_open(&mut self) {
        match self.rng.under(100) {
            0..=19 if self.restless => self.close(),
            0..=69 => self.traffic(),
            70..=71 => self.finished(),
            72..=73 => self.hello_request(),
            74..=75 => self.reply(),
            76 => self.clear_alert(),
            77 => self.wrong_server_hello(),
            78 => self.again(),
            79..=95 => self.call_ship(),
            _ if self.next > 65000 => self.close(),
            96 => self.close(),
            _ => self.deliver(),
        }
    }

    fn ordinary_closed(&mut self) {
        match self.rng.under(12) {
            0..=5 => self.start(),
            6 => self.traffic(),
            7 => self.reply(),
            8 => self.close(),
            9 => self.again(),
            10 => self.hello(),
            _ => self.call_ship(),
        }
    }

    fn ordinary_barred(&mut self) {
        match self.rng.under(12) {
            0..=4 => self.fresh(),
            5 => self.traffic(),
            6 => self.reply(),
            7 => self.close(),
            8 => self.start(),
            9 => self.again(),
            10 => self.hello(),
            _ => self.call_ship(),
        }
    }

    fn odd_line(&mut self) {
        let good = self.last_line.clone();
        let line = shiplines::odd(&mut self.rng, &good);
        // A hello or a fresh that came out otherwise is not one that the shore can follow.
        if good.starts_with(b"fresh") {
            let lines = self.model.line(&line);
            if !self.over {
                self.over = !(self.sink)(&line, lines);
            }
            return self.fresh();
        }
        self.call(line);
    }

    fn receive(&mut self, datagram: &[u8]) {
        let room = self.rng.weigh(&[(8, 128), (1, 129), (1, 2048)]);
        self.receive_with(datagram, room);
    }

    fn receive_with(&mut self, datagram: &[u8], room: usize) {
        self.call(format!("receive {} {room}", word(datagram)).into_bytes());
        self.arrived.push(datagram.to_vec());
        if self.arrived.len() > KEPT_DATAGRAMS {
            self.arrived.remove(0);
        }
    }
}
