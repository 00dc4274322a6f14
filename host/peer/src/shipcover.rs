//! What the lines of a ship's day hold: each call and each kind of record, in each state, with each
//! outcome, and how often. The state that a record was judged in follows from the answers before it.

use std::collections::BTreeMap;
use std::fmt;

use crate::hex;
use crate::wire::{self, Content, Record};

/// What was called or came, in which state, and what came of it.
pub type Cell = (String, String, String);

#[derive(Default, Debug)]
pub struct Coverage {
    state: String,
    seen: BTreeMap<Cell, u64>,
}

impl Coverage {
    /// One line, and the lines that it gave.
    pub fn line(&mut self, line: &[u8], lines: &[String]) {
        if self.state.is_empty() {
            self.state = "None".to_string();
        }
        let words: Vec<&[u8]> = line.split(|byte| *byte == b' ').collect();
        let first: Vec<&str> = lines[0].split(' ').collect();
        match (words[0], &first[..]) {
            (_, ["bad", "line"]) => self.count("line", "bad line".to_string()),
            (b"receive", ["receive", "records", _]) => self.records(words[1], lines),
            (b"alert", _) => {
                let how = String::from_utf8_lossy(words[1]);
                self.count(&format!("alert {how}"), first[1..].join(" "));
            }
            (_, [call, "refused", number, ..]) => self.count(call, format!("refused {number}")),
            (_, [call, ..]) => self.count(call, first[1..].join(" ")),
            (_, []) => {}
        }
        if let Some(state) = lines.last().and_then(|line| line.strip_prefix("state ")) {
            self.state = state.split(' ').next().unwrap_or_default().to_string();
        }
    }

    fn records(&mut self, datagram: &[u8], lines: &[String]) {
        let datagram = hex::read(datagram).expect("the console read it");
        let records = wire::frame(&datagram).expect("the console read it");
        for (place, (record, line)) in records.iter().zip(&lines[1..]).enumerate() {
            let words: Vec<&str> = line.split(' ').collect();
            let outcome = match words[..] {
                [_, "refused", number] => format!("refused {number}"),
                [_, "warning", "57"] if record.protected => "warning 57".to_string(),
                [_, answer, ..] => answer.to_string(),
                _ => String::new(),
            };
            let kind = kind(&datagram, record, place);
            if let Some(next) = next_state(&self.state, &outcome) {
                self.count(&kind, outcome);
                self.state = next.to_string();
            } else {
                self.count(&kind, outcome);
            }
        }
    }

    fn count(&mut self, what: &str, outcome: String) {
        let cell = (what.to_string(), self.state.clone(), outcome);
        *self.seen.entry(cell).or_insert(0) += 1;
    }

    pub fn cells(&self) -> &BTreeMap<Cell, u64> {
        &self.seen
    }
}

/// The state behind an answer, where the answer changes it.
fn next_state(state: &str, outcome: &str) -> Option<&'static str> {
    match (state, outcome) {
        (_, "hello") => Some("Replied"),
        (_, "spec") => Some("Spec"),
        (_, "open") => Some("Opening"),
        ("Opening", "data" | "warning 57") => Some("Open"),
        (_, "critical" | "fatal" | "refused 17") => Some("Closed"),
        (_, "barred") => Some("Barred"),
        _ => None,
    }
}

/// The kind of a record, as the rules for a ship tell them apart.
fn kind(datagram: &[u8], record: &Record, place: usize) -> String {
    let first = datagram[record.fragment.start];
    let later = place > 0;
    match (record.protected, record.content) {
        (false, Content::Handshake) if first == 0 => "clear request",
        (false, Content::Handshake) if first == 2 && later => "clear hello, later",
        (false, Content::Handshake) if first == 2 => "clear hello",
        (false, Content::Handshake) => "clear handshake",
        (false, Content::ChangeCipherSpec) => "clear spec",
        (false, Content::Alert) => "clear alert",
        (false, Content::Data) => "clear data",
        (true, Content::Handshake) if first == 0 => "protected request",
        (true, Content::Handshake) => "protected handshake",
        (true, Content::ChangeCipherSpec) => "protected spec",
        (true, Content::Alert) => "protected alert",
        (true, Content::Data) => "protected data",
    }
    .to_string()
}

/// One line for each call or kind of record and state: `what, State: outcome count, ..`.
impl fmt::Display for Coverage {
    fn fmt(&self, to: &mut fmt::Formatter) -> fmt::Result {
        let mut rows: BTreeMap<(&str, &str), Vec<String>> = BTreeMap::new();
        for ((what, state, outcome), count) in &self.seen {
            rows.entry((what, state)).or_default().push(format!("{outcome} {count}"));
        }
        for ((what, state), outcomes) in rows {
            writeln!(to, "{what}, {state}: {}", outcomes.join(", "))?;
        }
        Ok(())
    }
}
