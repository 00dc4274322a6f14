//! The ship's console as it must be: lines of calls in, lines of outcomes out. It has the form of
//! the shore's, with the ship's calls, answers and states.

use std::io::{self, BufRead, Write};

use crate::console::{
    bad_line, bytes, is_protected, number, refused, run_lines, write_done, write_sent,
    LONGEST_LINE, MOST_NUMBER, MOST_ROOM,
};
use crate::hex;
use crate::ship::{Answer, Judged, Received, Ship, State};
use crate::shore::Tally;

#[derive(Default)]
pub struct ShipConsole {
    ship: Option<Ship>,
    tally: Tally,
}

/// A line that could be read.
enum Call {
    Fresh { identifier: Vec<u8>, secret: Vec<u8>, width: u32 },
    Hello { random: Vec<u8>, macs: Vec<u8>, refresh: u32, room: usize },
    Again { room: usize },
    Receive { datagram: Vec<u8>, room: usize },
    Send { data: Vec<u8>, room: usize },
    Alert { protected: bool, level: u8, description: u8, record: Vec<u8>, room: usize },
    Close,
    Start,
}

/// Runs every line of the input.
pub fn run(input: impl BufRead, output: impl Write) -> io::Result<()> {
    let mut console = ShipConsole::default();
    run_lines(input, output, |line| console.line(line))
}

impl ShipConsole {
    /// The lines that one line, without its newline, gives.
    pub fn line(&mut self, line: &[u8]) -> Vec<String> {
        let Some(call) = read(line) else { return bad_line() };
        let mut lines = Vec::new();
        if let Call::Fresh { identifier, secret, width } = call {
            lines.push(self.fresh(&identifier, &secret, width));
        } else {
            let Some(ship) = &mut self.ship else { return bad_line() };
            run_call(ship, &mut self.tally, call, &mut lines);
        }
        lines.push(self.state_line());
        lines
    }

    pub fn state(&self) -> Option<State> {
        self.ship.as_ref().map(Ship::state)
    }

    pub fn ship(&self) -> Option<&Ship> {
        self.ship.as_ref()
    }

    /// A refused fresh leaves ship and tally as they were.
    fn fresh(&mut self, identifier: &[u8], secret: &[u8], width: u32) -> String {
        match Ship::fresh(identifier, secret, width) {
            Ok(ship) => {
                self.ship = Some(ship);
                self.tally = Tally::default();
                "fresh ok".to_string()
            }
            Err(refusal) => refused("fresh", refusal),
        }
    }

    fn state_line(&self) -> String {
        let Some(ship) = &self.ship else {
            return "state None n=- marks=0000000000000000 arrived=0 sent=-,- checksum=00000000 \
                    tally=0,0,0,0"
                .to_string();
        };
        let newest = ship.window().newest();
        let mask: u64 =
            newest.iter().zip(0u32..).filter(|(mark, _)| **mark).map(|(_, i)| 2u64.pow(i)).sum();
        let arrived = newest.iter().filter(|mark| **mark).count();
        let highest = ship.window().highest().map_or("-".to_string(), |n| n.to_string());
        let sent = match ship.next_numbers() {
            Some((Some(protected), clear)) => format!("{protected},{clear}"),
            Some((None, clear)) => format!("-,{clear}"),
            None => "-,-".to_string(),
        };
        let Tally { handed_out, forged, too_old, repeated } = self.tally;
        format!(
            "state {:?} n={highest} marks={mask:016x} arrived={arrived} sent={sent} checksum={} \
             tally={handed_out},{forged},{too_old},{repeated}",
            ship.state(),
            hex::write(&ship.last_checksum()),
        )
    }
}

fn run_call(ship: &mut Ship, tally: &mut Tally, call: Call, lines: &mut Vec<String>) {
    match call {
        Call::Fresh { .. } => unreachable!("fresh needs no ship"),
        Call::Hello { random, macs, refresh, room } => {
            write_sent("hello", ship.hello(&random, &macs, refresh, room), lines)
        }
        Call::Again { room } => write_sent("again", ship.again(room), lines),
        Call::Receive { datagram, room } => {
            write_received(ship.receive(&datagram, room, tally), lines)
        }
        Call::Send { data, room } => write_sent("send", ship.send(&data, room), lines),
        Call::Alert { protected, level, description, record, room } => {
            let sent = ship.alert(protected, level, description, &record, room);
            write_sent("alert", sent, lines)
        }
        Call::Close => write_done("close", ship.close(), lines),
        Call::Start => write_done("start", ship.start(), lines),
    }
}

fn write_received(received: Received, lines: &mut Vec<String>) {
    match received {
        Received::Refused(refusal) => lines.push(refused("receive", refusal)),
        Received::Unframed(fault) => {
            lines.push(format!("receive refused {} at {}", fault.refusal, fault.offset))
        }
        Received::Records { answers, out } => {
            lines.push(format!("receive records {}", answers.len()));
            for (index, answer) in answers.iter().enumerate() {
                lines.push(format!("{index} {}", answer_words(answer)));
            }
            if let Some(out) = out {
                lines.push(format!("out {}", hex::write(&out)));
            }
        }
    }
}

fn answer_words(answer: &Judged) -> String {
    match answer {
        Ok(Answer::Hello) => "hello".to_string(),
        Ok(Answer::Spec) => "spec".to_string(),
        Ok(Answer::Open(length)) => format!("open {length}"),
        Ok(Answer::Again) => "again".to_string(),
        Ok(Answer::Request) => "request".to_string(),
        Ok(Answer::Ignored) => "ignored".to_string(),
        Ok(Answer::Data { start, length }) => format!("data {start} {length}"),
        Ok(Answer::Warning(description)) => format!("warning {description}"),
        Ok(Answer::Critical(description)) => format!("critical {description}"),
        Ok(Answer::Fatal(description)) => format!("fatal {description}"),
        Ok(Answer::Barred(description)) => format!("barred {description}"),
        Err(refusal) => format!("refused {}", *refusal as u8),
    }
}

/// The call that a line makes; nothing for a bad line.
fn read(line: &[u8]) -> Option<Call> {
    if line.len() > LONGEST_LINE {
        return None;
    }
    let words: Vec<&[u8]> = line.split(|byte| *byte == b' ').collect();
    match words[..] {
        [b"fresh", identifier, secret, width] => Some(Call::Fresh {
            identifier: bytes(identifier)?,
            secret: bytes(secret)?,
            width: number(width, MOST_NUMBER)? as u32,
        }),
        [b"hello", random, macs, refresh, room] => Some(Call::Hello {
            random: bytes(random)?,
            macs: bytes(macs)?,
            refresh: number(refresh, MOST_NUMBER)? as u32,
            room: number(room, MOST_ROOM)?,
        }),
        [b"again", room] => Some(Call::Again { room: number(room, MOST_ROOM)? }),
        [b"receive", datagram, room] => {
            Some(Call::Receive { datagram: bytes(datagram)?, room: number(room, MOST_ROOM)? })
        }
        [b"send", data, room] => {
            Some(Call::Send { data: bytes(data)?, room: number(room, MOST_ROOM)? })
        }
        [b"alert", how, level, description, record, room] => Some(Call::Alert {
            protected: is_protected(how)?,
            level: number(level, 255)? as u8,
            description: number(description, 255)? as u8,
            record: bytes(record)?,
            room: number(room, MOST_ROOM)?,
        }),
        [b"close"] => Some(Call::Close),
        [b"start"] => Some(Call::Start),
        _ => None,
    }
}
