//! A day written by hand: its lines in order, and the model beside them, so that the unit hears
//! what the shore says.

use crate::console::Console;
use crate::day::word;
use crate::hex;
use crate::keys::Kind;
use crate::unit::{Connection, Hello, Unit};
use crate::wire::{self, Content};

pub struct Script {
    pub unit: Unit,
    session: Vec<u8>,
    secret: Vec<u8>,
    console: Console,
    input: String,
    output: Vec<String>,
    receives: u8,
}

impl Script {
    pub fn new(session: &[u8], secret: &[u8]) -> Script {
        Script {
            unit: Unit::new(session, secret),
            session: session.to_vec(),
            secret: secret.to_vec(),
            console: Console::default(),
            input: String::new(),
            output: Vec::new(),
            receives: 0,
        }
    }

    pub fn input(&self) -> &str {
        &self.input
    }

    pub fn output(&self) -> &[String] {
        &self.output
    }

    pub fn session(&self) -> &[u8] {
        &self.session
    }

    /// One line, and the lines that it gives.
    pub fn line(&mut self, line: &str) -> Vec<String> {
        self.input += line;
        self.input.push('\n');
        let lines = self.console.line(line.as_bytes());
        self.output.extend(lines.iter().cloned());
        lines
    }

    /// A heading for whoever reads the day. The console has no such call and says `bad line`.
    pub fn heading(&mut self, text: &str) {
        self.line(&format!("# {text}"));
    }

    /// A fresh connection of width 32.
    pub fn fresh(&mut self) -> Vec<String> {
        self.fresh_of(32)
    }

    pub fn fresh_of(&mut self, width: u32) -> Vec<String> {
        self.line(&format!("fresh {} {} {width}", word(&self.session), word(&self.secret)))
    }

    /// Lends a datagram with the next random and 128 bytes of room. The unit hears a reply.
    /// Gives the lines between the first and the state.
    pub fn receive(&mut self, datagram: &[u8]) -> Vec<String> {
        let random = self.next_random();
        self.receives += 1;
        self.receive_with(datagram, &random)
    }

    fn hear_reply(&mut self, lines: &[String]) {
        if let Some(reply) = lines.iter().find_map(|line| line.strip_prefix("out ")) {
            let reply = hex::read(reply.as_bytes()).expect("the model writes hex");
            self.unit.hear_reply(&reply).expect("the unit reads the model's reply");
        }
    }

    /// Lends a datagram that the unit did not send; it hears no reply.
    pub fn stranger(&mut self, datagram: &[u8]) -> Vec<String> {
        let random = self.next_random();
        self.receives += 1;
        self.line(&format!("receive {} {} 128", word(datagram), word(&random)))
    }

    /// Lends a datagram with this random. The unit hears a reply.
    pub fn receive_with(&mut self, datagram: &[u8], random: &[u8]) -> Vec<String> {
        let lines = self.line(&format!("receive {} {} 128", word(datagram), word(random)));
        self.hear_reply(&lines);
        lines
    }

    /// The same for a short message.
    pub fn message(&mut self, message: &[u8]) -> Vec<String> {
        let random = self.next_random();
        self.receives += 1;
        let lines = self.line(&format!("message {} {} 128", word(message), word(&random)));
        self.hear_reply(&lines);
        lines
    }

    /// 80..8f at first; each receive lends another, so that a resent reply cannot have used it.
    pub fn next_random(&self) -> Vec<u8> {
        let mut random: Vec<u8> = (0x80..0x90).collect();
        random[0] = 0x80u8.wrapping_add(self.receives);
        random
    }

    pub fn send(&mut self, line: &str) -> Vec<String> {
        let lines = self.line(line);
        if let Some(record) = lines.iter().find_map(|line| line.strip_prefix("out ")) {
            let record = hex::read(record.as_bytes()).expect("the model writes hex");
            self.unit.hear(&record).expect("the unit reads what the model sends");
        }
        lines
    }

    /// The unit says a plain hello with this first byte of its random.
    pub fn hello(&mut self, first: u8, kind: Kind, refresh: u8) -> Vec<String> {
        let datagram = self.hello_datagram(first, kind, refresh);
        self.receive(&datagram)
    }

    pub fn hello_datagram(&mut self, first: u8, kind: Kind, refresh: u8) -> Vec<u8> {
        let message = self.plain(first, kind, refresh).message();
        self.unit.say_hello(&message)
    }

    pub fn plain(&self, first: u8, kind: Kind, refresh: u8) -> Hello {
        let random: Vec<u8> = (first..first + 16).collect();
        Hello::plain(&random, &self.session, kind, refresh)
    }

    /// A hello that the unit does not mean: its own last hello stays.
    pub fn stray_hello(&mut self, message: &[u8]) -> Vec<String> {
        let datagram = self.unit.clear(Content::Handshake, false, 0, message);
        self.receive(&datagram)
    }

    /// The unit lost its power and says hello: what it knew till then, to be lent to `under`.
    pub fn reboot(&mut self, first: u8, kind: Kind, refresh: u8) -> Connection {
        let before = self.connection();
        self.hello(first, kind, refresh);
        before
    }

    pub fn connection(&self) -> Connection {
        self.unit.connection().expect("a reply was heard").clone()
    }

    /// What the unit does as another connection knows it.
    pub fn under<T>(&mut self, connection: &Connection, act: impl FnOnce(&mut Script) -> T) -> T {
        let now = self.unit.exchange(connection.clone()).expect("a reply was heard");
        let done = act(self);
        self.unit.exchange(now);
        done
    }

    pub fn flight(&mut self) -> Vec<String> {
        let flight = self.unit.flight().expect("a reply was heard");
        self.receive(&flight)
    }

    /// A protected record of the unit, alone in its datagram.
    pub fn protected(&mut self, content: Content, number: u16, bytes: &[u8]) -> Vec<String> {
        let record = self.record(content, number, bytes);
        self.receive(&record)
    }

    /// A protected record with its length, so that another may follow.
    pub fn part(&self, content: Content, number: u16, bytes: &[u8]) -> Vec<u8> {
        self.unit.protect(content, true, number, bytes).expect("a reply was heard")
    }

    pub fn record(&self, content: Content, number: u16, bytes: &[u8]) -> Vec<u8> {
        self.unit.protect(content, false, number, bytes).expect("a reply was heard")
    }

    pub fn data(&mut self, number: u16, text: &str) -> Vec<String> {
        self.protected(Content::Data, number, text.as_bytes())
    }

    /// The unit's Finished message.
    pub fn finished_message(&self) -> Vec<u8> {
        self.unit.connection().expect("a reply was heard").finished.clone()
    }

    pub fn clear_alert(&mut self, level: u8, description: u8) -> Vec<String> {
        let content = self.unit.alert(level, description);
        self.receive(&wire::write(wire::type_byte(Content::Alert, false, false), 2, &content))
    }

    pub fn protected_alert(&mut self, number: u16, level: u8, description: u8) -> Vec<String> {
        let content = self.unit.alert(level, description);
        self.protected(Content::Alert, number, &content)
    }
}
