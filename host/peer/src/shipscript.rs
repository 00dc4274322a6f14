//! A ship's day written by hand: its lines in order, and the model beside them, so that the shore
//! hears what the ship says.

use crate::coast::Coast;
use crate::day::word;
use crate::hex;
use crate::keys::Kind;
use crate::shipconsole::ShipConsole;
use crate::wire::{self, Content};

pub struct ShipScript {
    pub coast: Coast,
    session: Vec<u8>,
    secret: Vec<u8>,
    console: ShipConsole,
    input: String,
    output: Vec<String>,
}

impl ShipScript {
    pub fn new(session: &[u8], secret: &[u8]) -> ShipScript {
        ShipScript {
            coast: Coast::new(secret),
            session: session.to_vec(),
            secret: secret.to_vec(),
            console: ShipConsole::default(),
            input: String::new(),
            output: Vec::new(),
        }
    }

    pub fn input(&self) -> &str {
        &self.input
    }

    pub fn output(&self) -> &[String] {
        &self.output
    }

    pub fn session(&self) -> &[u8] {
        &self.session
    }

    /// One line, and the lines that it gives. The shore hears a hello, and goes by the ServerHello
    /// that the ship takes.
    pub fn line(&mut self, line: &str) -> Vec<String> {
        self.input += line;
        self.input.push('\n');
        let lines = self.console.line(line.as_bytes());
        self.output.extend(lines.iter().cloned());
        let out = lines.iter().find_map(|line| line.strip_prefix("out "));
        if let (Some(hello), "hello ok") = (out, &lines[0][..]) {
            let hello = hex::read(hello.as_bytes()).expect("the model writes hex");
            self.coast.hear_hello(&hello, &self.session).expect("the shore reads the hello");
        }
        lines
    }

    /// A heading for whoever reads the day. The console has no such call and says `bad line`.
    pub fn heading(&mut self, text: &str) {
        self.line(&format!("# {text}"));
    }

    /// A fresh ship of width 32.
    pub fn fresh(&mut self) -> Vec<String> {
        self.fresh_of(32)
    }

    pub fn fresh_of(&mut self, width: u32) -> Vec<String> {
        self.line(&format!("fresh {} {} {width}", word(&self.session), word(&self.secret)))
    }

    /// The ship says a hello with this first byte of its random.
    pub fn hello(&mut self, first: u8, macs: &[u8], refresh: u8) -> Vec<String> {
        let random: Vec<u8> = (first..first + 16).collect();
        self.line(&format!("hello {} {} {refresh} 100", word(&random), word(macs)))
    }

    /// Lends a datagram with 128 bytes of room.
    pub fn receive(&mut self, datagram: &[u8]) -> Vec<String> {
        let lines = self.line(&format!("receive {} 128", word(datagram)));
        if lines.get(1).is_some_and(|answer| answer == "0 hello") {
            let records = wire::frame(datagram).expect("the ship read it");
            self.coast.adopt(&datagram[records[0].fragment.clone()]);
        }
        lines
    }

    /// An acceptable ServerHello with this first byte of its random.
    pub fn server_hello(&self, first: u8, kind: Kind, refresh: u8) -> Vec<u8> {
        let random: Vec<u8> = (first..first + 16).collect();
        self.coast.plain(&random, &self.session, kind, refresh).message()
    }

    /// The whole reply with that ServerHello, as the shore writes it.
    pub fn reply(&self, first: u8, kind: Kind, refresh: u8) -> Vec<u8> {
        let message = self.server_hello(first, kind, refresh);
        self.coast.reply(&message).expect("a hello was said")
    }

    /// Hello and reply: the ship is in Opening.
    pub fn open(&mut self, first: u8, kind: Kind, refresh: u8) -> Vec<String> {
        self.hello(first, &[kind.number()], refresh);
        let reply = self.reply(0x80, kind, refresh);
        self.receive(&reply)
    }

    /// A clear record without a length.
    pub fn clear(&mut self, content: Content, number: u16, bytes: &[u8]) -> Vec<String> {
        let record = self.coast.clear(content, false, number, bytes);
        self.receive(&record)
    }

    /// A protected record of the shore, alone in its datagram.
    pub fn protected(&mut self, content: Content, number: u16, bytes: &[u8]) -> Vec<String> {
        let record = self.record(content, number, bytes);
        self.receive(&record)
    }

    pub fn record(&self, content: Content, number: u16, bytes: &[u8]) -> Vec<u8> {
        self.coast.protect(content, false, number, bytes).expect("a ServerHello was taken")
    }

    /// A protected record with its length, so that another may follow.
    pub fn part(&self, content: Content, number: u16, bytes: &[u8]) -> Vec<u8> {
        self.coast.protect(content, true, number, bytes).expect("a ServerHello was taken")
    }

    pub fn data(&mut self, number: u16, text: &str) -> Vec<String> {
        self.protected(Content::Data, number, text.as_bytes())
    }

    pub fn alert(&mut self, number: u16, level: u8, description: u8) -> Vec<String> {
        self.protected(Content::Alert, number, &[level, description, 0, 0, 0, 0])
    }

    /// The shore's Finished message.
    pub fn finished_message(&self) -> Vec<u8> {
        self.coast.connection().expect("a ServerHello was taken").finished.clone()
    }

    pub fn finished(&mut self, number: u16) -> Vec<String> {
        let message = self.finished_message();
        self.protected(Content::Handshake, number, &message)
    }

    /// A clear alert about a record that the ship sent: 0 is the latest, 1 the one before.
    pub fn clear_alert(&mut self, level: u8, description: u8, back: usize) -> Vec<String> {
        let sent = self.console.ship().map_or(&[][..], |ship| ship.records_sent());
        let checksum = sent.get(back).copied().unwrap_or_default();
        let content = [&[level, description][..], &checksum].concat();
        self.clear(Content::Alert, 2, &content)
    }
}
