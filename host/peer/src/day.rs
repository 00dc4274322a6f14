//! Seeded random days: a unit and a shore over a link that loses, repeats, delays and reorders,
//! strangers on it, and a caller who makes mistakes. Every call goes to the model first, since
//! the unit must hear what the shore would say.

mod asks;
mod reboots;
mod records;
mod sent;
mod short;
mod traffic;
mod voices;

use crate::alert;
use crate::console::Console;
use crate::hex;
use crate::lines;
use crate::rng::Rng;
use crate::sets;
use crate::shore::{Checksum, State};
use crate::unit::Unit;
use crate::wire;
use voices::Voice;

/// Takes each line with the lines that it must give; false once no more are wanted.
pub type Sink<'a> = dyn FnMut(&[u8], Vec<String>) -> bool + 'a;

/// One random day.
pub fn random(seed: u64, model: &mut Console, sink: &mut Sink) {
    Day::new(seed, model, sink).whole();
}

/// One on which the caller asks, before each receive, why each record of the datagram would be refused.
/// No datagram comes by short messages.
pub fn asking(seed: u64, model: &mut Console, sink: &mut Sink) {
    let mut day = Day::new(seed, model, sink);
    (day.asking, day.by_messages) = (true, 0);
    day.whole();
}

/// Which sending numbers run out.
#[derive(Clone, Copy, PartialEq, Eq, Debug)]
pub enum Spent {
    Protected,
    Clear,
    /// The clear ones of a handshake that is started beside an open one.
    Started,
}

impl Spent {
    pub const ALL: [Spent; 3] = [Spent::Protected, Spent::Clear, Spent::Started];
}

/// A day on which sending numbers run out.
pub fn spent(seed: u64, which: Spent, model: &mut Console, sink: &mut Sink) {
    let mut day = Day::new(seed, model, sink);
    day.by_messages = 0;
    day.fresh();
    day.reach(if which == Spent::Clear { State::Replied } else { State::Open });
    while !day.over && which == Spent::Started && day.started().is_none() {
        day.reach(State::Open);
        day.hello();
    }
    while !day.over && !day.is_spent(which) {
        day.spend(which);
    }
    for _ in 0..60 {
        match day.rng.percent(50) {
            true => day.send(),
            false => day.alert(),
        }
    }
    (0..60).for_each(|_| day.step());
}

struct Day<'a> {
    rng: Rng,
    model: &'a mut Console,
    sink: &'a mut Sink<'a>,
    over: bool,
    session: Vec<u8>,
    secret: Vec<u8>,
    unit: Unit,
    /// The unit's next protected number.
    next: u32,
    /// The connection that the unit had before it lost its power.
    other: Option<Voice>,
    /// Datagrams on their way, and those that arrived.
    link: Vec<Vec<u8>>,
    arrived: Vec<Vec<u8>>,
    hellos: Vec<Vec<u8>>,
    last_line: Vec<u8>,
    /// Checksums of records that the shore sent and no longer goes by, the latest last.
    forgotten: Vec<Checksum>,
    /// How many of a thousand numbers are not simply the next.
    disorder: usize,
    /// How many datagrams may be on their way.
    delay: usize,
    /// Whether connections are closed again soon, so that there are many handshakes.
    restless: bool,
    /// How many of a hundred datagrams come as short messages, the messages on their way, those that
    /// came, and the last reference.
    by_messages: usize,
    messages: Vec<Vec<u8>>,
    came: Vec<Vec<u8>>,
    reference: u8,
    /// Whether the caller asks why.
    asking: bool,
}

impl<'a> Day<'a> {
    fn new<'b>(seed: u64, model: &'a mut Console, sink: &'a mut Sink<'b>) -> Day<'a>
    where
        'b: 'a,
    {
        let mut rng = Rng::new(seed);
        let (session, secret) = (rng.bytes(8), rng.bytes(20));
        Day {
            unit: Unit::new(&session, &secret),
            disorder: rng.weigh(&[(3, 10), (4, 100), (3, 400)]),
            delay: rng.under(6),
            restless: rng.percent(40),
            by_messages: rng.weigh(&[(4, 0), (2, 30), (4, 90)]),
            messages: Vec::new(),
            came: Vec::new(),
            reference: rng.byte(),
            asking: false,
            rng,
            model,
            sink,
            over: false,
            session,
            secret,
            next: 0,
            other: None,
            link: Vec::new(),
            arrived: Vec::new(),
            hellos: Vec::new(),
            last_line: Vec::new(),
            forgotten: Vec::new(),
        }
    }

    fn whole(&mut self) {
        self.morning();
        let steps = self.rng.between(20, 300);
        for _ in 0..steps {
            if self.over {
                return;
            }
            self.step();
        }
    }

    /// Makes a call, and gives the bytes that the shore put out.
    fn call(&mut self, line: Vec<u8>) -> Option<Vec<u8>> {
        let before = self.records_sent();
        let expected = self.model.line(&line);
        self.forget(before);
        let out = expected.iter().find_map(|line| line.strip_prefix("out "));
        let out = out.map(|text| hex::read(text.as_bytes()).expect("the model writes hex"));
        if !self.over {
            self.over = !(self.sink)(&line, expected);
        }
        self.last_line = line;
        out
    }

    fn state(&self) -> State {
        self.model.state().unwrap_or(State::Barred)
    }

    /// The first calls: some before there is a fresh connection, then that.
    fn morning(&mut self) {
        if self.model.shore().is_none() {
            let receive = format!("receive 44000000 {} 128", word(&self.rng.bytes(16)));
            for line in ["close", "start", "send 00 14", "alert clear 1 0 - 9", &receive] {
                self.call(line.into());
                self.wrong_fresh();
            }
        } else if self.rng.percent(20) {
            let line = self.rng.pick(&["close", "start", "send 00 14", "alert clear 1 0 - 9"]);
            self.call(line.into());
            self.wrong_fresh();
        }
        self.fresh();
    }

    fn step(&mut self) {
        self.choose_voice();
        if self.asking && self.is_worth_asking() {
            return self.worth_asking();
        }
        match self.rng.under(100) {
            0..=5 => self.replay(),
            6..=12 => self.damage(),
            13..=15 => self.garbage(),
            16..=18 => self.odd_line(),
            19..=20 => self.odd_receive(),
            21..=24 => self.call_shore(),
            25 if self.rng.percent(15) => self.fresh(),
            27..=32 if self.by_messages > 0 => self.odd_message(),
            25 => self.wrong_fresh(),
            26 => self.boundary(),
            27 if self.rng.percent(30) => self.mac(),
            27 => self.set_line(),
            _ => self.ordinary(),
        }
    }

    /// Ordinary steps until the connection is in the state.
    fn reach(&mut self, state: State) {
        while !self.over && self.state() != state {
            self.ordinary();
        }
    }

    fn ordinary(&mut self) {
        match self.state() {
            State::Idle => self.ordinary_idle(),
            State::Replied => self.ordinary_replied(),
            State::Spec => self.ordinary_spec(),
            State::Open => self.ordinary_open(),
            State::Closed => self.ordinary_closed(),
            State::Barred => self.ordinary_barred(),
        }
    }

    fn ordinary_idle(&mut self) {
        match self.rng.under(100) {
            0..=54 => self.hello(),
            55..=69 => self.wrong_hello(),
            70..=77 => self.all_at_once(),
            78..=85 => self.resend_hello(),
            86..=93 => self.traffic(),
            _ => self.call_shore(),
        }
    }

    fn ordinary_replied(&mut self) {
        match self.rng.under(100) {
            0..=29 => self.flight(),
            30..=39 => self.change_cipher_spec(),
            40..=48 => self.resend_hello(),
            49..=53 => self.hello(),
            54..=60 => self.wrong_hello(),
            61..=79 => self.clear_alert(),
            80 => self.earlier_records(),
            81..=84 => self.resend_hello_and_more(),
            85..=88 => self.traffic(),
            _ => self.call_shore(),
        }
    }

    fn ordinary_spec(&mut self) {
        match self.rng.under(100) {
            0..=29 => self.finished(),
            30..=54 => self.traffic(),
            55..=63 => self.resend_hello(),
            64..=68 => self.hello(),
            69..=73 => self.wrong_hello(),
            74..=83 => self.clear_alert(),
            84 => self.earlier_records(),
            85..=88 => self.flight(),
            89..=90 => self.resend_hello_and_more(),
            _ => self.call_shore(),
        }
    }

    fn ordinary_open(&mut self) {
        if self.started().is_some() && self.rng.percent(70) {
            return self.ordinary_started();
        }
        match self.rng.under(100) {
            0..=19 if self.restless => self.close(),
            0..=59 => self.traffic(),
            60..=69 => self.reboot(),
            70..=73 => self.flight(),
            74..=75 => self.resend_hello(),
            76 => self.wrong_hello(),
            77..=78 => self.clear_alert(),
            79 => self.finished(),
            80..=95 => self.call_shore(),
            _ if self.next > 65000 => self.close(),
            96 => self.close(),
            _ => self.deliver(),
        }
    }

    fn ordinary_closed(&mut self) {
        match self.rng.under(10) {
            0..=5 => {
                self.call(b"start".to_vec());
            }
            6 => self.traffic(),
            7 => self.resend_hello(),
            8 => self.close(),
            _ => self.call_shore(),
        }
    }

    fn ordinary_barred(&mut self) {
        match self.rng.under(10) {
            0..=4 => self.fresh(),
            5 => self.traffic(),
            6 => self.resend_hello(),
            7 => self.close(),
            8 => {
                self.call(b"start".to_vec());
            }
            _ => self.call_shore(),
        }
    }
}

/// The calls themselves.
impl Day<'_> {
    fn fresh(&mut self) {
        let any = self.rng.between(32, 64);
        let width = self.rng.weigh(&[(1, 32), (1, 64), (4, any)]);
        let line = format!("fresh {} {} {width}", word(&self.session), word(&self.secret));
        self.call(line.into_bytes());
    }

    /// A fresh that is refused, by its width or by its sizes: the connection goes on.
    fn wrong_fresh(&mut self) {
        let (identifier, secret, width) = match self.rng.percent(50) {
            true => {
                let far = self.rng.pick(&[0, 1, 16, 66, 128, 255, 256, 288, 65568, 999_999_999]);
                (8, 20, self.rng.weigh(&[(1, 31), (1, 65), (2, far)]))
            }
            false => {
                let sizes = [(8, 19), (8, 21), (7, 20), (9, 20), (0, 0), (20, 8)];
                let (identifier, secret) = self.rng.pick(&sizes);
                (identifier, secret, self.rng.pick(&[32, 64, 45, 31]))
            }
        };
        let (identifier, secret) = (vec![1; identifier], vec![2; secret]);
        let line = format!("fresh {} {} {width}", word(&identifier), word(&secret));
        self.call(line.into_bytes());
    }

    fn close(&mut self) {
        self.call(b"close".to_vec());
    }

    /// An explicit parameter set, sound or wrong.
    fn set_line(&mut self) {
        let suite = sets::suite(&mut self.rng);
        let set = match self.rng.percent(50) {
            true => sets::sound(&mut self.rng, suite),
            false => sets::wrong(&mut self.rng, suite),
        };
        self.call(format!("set {suite} {}", word(&set)).into_bytes());
    }

    fn odd_line(&mut self) {
        let good = self.last_line.clone();
        let line = lines::odd(&mut self.rng, &good);
        self.call(line);
        if good.starts_with(b"fresh") {
            self.fresh();
        }
    }

    /// Lends a datagram to the shore; the unit hears the reply unless it is lost.
    fn receive(&mut self, datagram: &[u8]) {
        let random = self.random();
        let room = self.rng.weigh(&[(8, 128), (1, 129), (1, 2048)]);
        if self.rng.percent(self.by_messages) {
            return self.by_messages(datagram);
        }
        self.receive_with(datagram, &random, room);
    }

    fn receive_with(&mut self, datagram: &[u8], random: &[u8], room: usize) {
        if self.asking {
            self.ask(datagram, random);
        }
        let line = format!("receive {} {} {room}", word(datagram), word(random));
        let out = self.call(line.into_bytes());
        self.took(datagram, out);
    }

    /// The shore took a datagram, and may have replied.
    fn took(&mut self, datagram: &[u8], out: Option<Vec<u8>>) {
        self.arrived.push(datagram.to_vec());
        if self.arrived.len() > 60 {
            self.arrived.remove(0);
        }
        if let Some(reply) = out {
            if self.rng.percent(93) {
                self.hear_reply(datagram, &reply);
            }
        }
    }

    /// The reply to the unit's own hello must satisfy the unit.
    fn hear_reply(&mut self, datagram: &[u8], reply: &[u8]) {
        let records = wire::frame(datagram).expect("the shore replied to a sound datagram");
        let own = datagram[records[0].fragment.clone()] == *self.unit.last_hello();
        let before = self.voice();
        match self.unit.hear_reply(reply) {
            Ok(()) => self.go_by(before),
            Err(error) => assert!(!own, "the unit refuses the model's reply: {error}"),
        }
    }

    /// A receive with a random or a room out of range.
    fn odd_receive(&mut self) {
        let datagram = self.some_datagram();
        let random = self.rng.weigh(&[(4, 16), (1, 0), (1, 15), (1, 17), (1, 32)]);
        let random = self.rng.bytes(random);
        let room = self.rng.weigh(&[(2, 127), (1, 0), (1, 128), (1, 1)]);
        self.receive_with(&datagram, &random, room);
    }

    fn mac(&mut self) {
        let edition = self.rng.pick(&[0, 1, 1, 1, 2, 2, 2, 3, 255, 256]);
        let number = self.rng.between(0, 9);
        self.call(format!("mac {edition} {number}").into_bytes());
    }

    fn call_shore(&mut self) {
        match self.rng.under(20) {
            0 => self.close(),
            1 => {
                self.call(b"start".to_vec());
            }
            2..=10 => self.send(),
            _ => self.alert(),
        }
    }

    fn send(&mut self) {
        let length = match self.rng.under(10) {
            0 => self.rng.pick(&[0, 1, 1299, 1300, 1301, 1400]),
            1 => self.rng.between(1, 1300),
            _ => self.rng.between(1, 60),
        };
        let data = self.rng.bytes(length);
        let room = self.room(3 + length + self.code_size());
        let out = self.call(format!("send {} {room}", word(&data)).into_bytes());
        self.hear(out);
    }

    fn alert(&mut self) {
        let protected = self.rng.percent(50);
        let how = if protected { "protected" } else { "clear" };
        let level = self.rng.weigh(&[(6, 1), (5, 2), (5, 3), (1, 0), (1, 4), (1, 255)]);
        let description = self.description();
        let record = match self.rng.under(8) {
            0 => {
                let length = self.rng.pick(&[0, 1, 3, 4, 5, 1399, 1400, 1401, 2000]);
                self.rng.bytes(length)
            }
            1 => Vec::new(),
            _ => self.some_datagram(),
        };
        let room = self.room(9 + if protected { self.code_size() } else { 0 });
        let line = format!("alert {how} {level} {description} {} {room}", word(&record));
        let out = self.call(line.into_bytes());
        self.hear(out);
    }

    /// Exactly what is needed, one less, or something else.
    fn room(&mut self, needed: usize) -> usize {
        let any = self.rng.under(2049);
        let room =
            self.rng.weigh(&[(12, needed), (3, needed - 1), (2, needed + 1), (1, any), (1, 0)]);
        room.min(2048)
    }

    fn code_size(&self) -> usize {
        let keys = self.model.shore().and_then(|shore| shore.handshake().keys());
        keys.map_or(10, |keys| keys.kind.code_size())
    }

    /// Mostly assigned.
    fn description(&mut self) -> u8 {
        let any = self.rng.byte();
        match self.rng.percent(88) {
            true => (any..=255).chain(0..any).find(|d| alert::is_assigned(*d)).unwrap_or(0),
            false => any,
        }
    }

    fn is_spent(&self, which: Spent) -> bool {
        let Some(shore) = self.model.shore() else { return true };
        let numbers = match which {
            Spent::Started => shore.started().and_then(|one| one.handshake.next_numbers()),
            Spent::Protected | Spent::Clear => shore.handshake().next_numbers(),
        };
        match numbers {
            Some((protected, _)) if which == Spent::Protected => protected == 65536,
            Some((_, clear)) => clear == 65536,
            None => true,
        }
    }

    fn spend(&mut self, which: Spent) {
        let line = match which {
            Spent::Clear | Spent::Started => "alert clear 1 0 - 9",
            Spent::Protected if self.next % 50 == 49 => "alert protected 1 90 - 2048",
            Spent::Protected => "send 2a 24",
        };
        self.next += 1;
        self.call(line.into());
    }
}

/// A byte string as a word of the console.
pub fn word(bytes: &[u8]) -> String {
    match bytes {
        [] => "-".to_string(),
        _ => hex::write(bytes),
    }
}

/// The next number, or the last once there is no next.
fn clamped(next: u32) -> u16 {
    next.min(65535) as u16
}
