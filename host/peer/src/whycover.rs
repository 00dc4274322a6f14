//! What the `why` lines of a run held: each reason with each of its facts, in each state, and how
//! often. Each is held to the receive that follows it, and to the state line beside it.

use std::collections::BTreeMap;
use std::fmt;

use crate::console::Console;
use crate::day;
use crate::hex;
use crate::rng::Rng;
use crate::wire;

#[derive(Default)]
pub struct Cover {
    seen: BTreeMap<String, u64>,
    /// What was said of the datagram and the random that stand first, by index.
    datagram: (String, String),
    said: BTreeMap<usize, String>,
    /// Reasons that the receive after them bore out or, wrongly, did not.
    pub borne_out: u64,
    pub wrong: Vec<String>,
}

/// That of random days.
pub fn of_days(seed: u64, calls: u64) -> Cover {
    let mut seeds = Rng::new(seed);
    let (mut cover, mut model, mut made) = (Cover::default(), Console::default(), 0);
    while made < calls {
        day::asking(seeds.draw(), &mut model, &mut |line: &[u8], lines| {
            cover.line(line, &lines);
            made += 1;
            made < calls
        });
    }
    cover
}

impl fmt::Display for Cover {
    fn fmt(&self, to: &mut fmt::Formatter) -> fmt::Result {
        for (fact, count) in &self.seen {
            writeln!(to, "{count:>8}  {fact}")?;
        }
        let missing = self.missing();
        for fact in &missing {
            writeln!(to, " missing  {fact}")?;
        }
        for wrong in self.wrong.iter().take(5) {
            writeln!(to, "   wrong  {wrong}")?;
        }
        writeln!(
            to,
            "facts {}, due and missing {}; borne out by the receive {}, not borne out {}",
            self.seen.len(),
            missing.len(),
            self.borne_out,
            self.wrong.len()
        )
    }
}

impl Cover {
    pub fn line(&mut self, line: &[u8], lines: &[String]) {
        let text = String::from_utf8_lossy(line).to_string();
        let words: Vec<&str> = text.split(' ').collect();
        match (&words[..], &lines[0][..]) {
            (_, "bad line") => {}
            (["why", edition, datagram, random, index], said) => {
                self.said(edition, datagram, random, said, lines);
                let index = index.parse().unwrap_or(usize::MAX);
                self.ask(datagram, random, index, said);
            }
            (["receive", datagram, random, _], _) => self.receive(datagram, random, lines),
            _ => self.said.clear(),
        }
    }

    pub fn seen(&self) -> &BTreeMap<String, u64> {
        &self.seen
    }

    /// Those that are due and did not occur.
    pub fn missing(&self) -> Vec<String> {
        due().into_iter().filter(|fact| !self.seen.contains_key(fact)).collect()
    }

    fn count(&mut self, fact: String) {
        *self.seen.entry(fact).or_insert(0) += 1;
    }

    fn ask(&mut self, datagram: &str, random: &str, index: usize, said: &str) {
        let asked = (datagram.to_string(), random.to_string());
        if self.datagram != asked {
            self.said.clear();
            self.datagram = asked;
        }
        self.said.insert(index, said.to_string());
    }

    /// The receive must refuse what was named, and nothing else.
    fn receive(&mut self, datagram: &str, random: &str, lines: &[String]) {
        let said = std::mem::take(&mut self.said);
        if self.datagram != (datagram.to_string(), random.to_string()) {
            return;
        }
        for (index, said) in said {
            let Some(number) = reason(&said) else { continue };
            let given = match number_in(&lines[0]) {
                Some(6) => continue,
                Some(number) => Some(number),
                None => lines.get(index + 1).and_then(|line| number_in(line)),
            };
            match given.unwrap_or(0) == number {
                true => self.borne_out += 1,
                false => self.wrong.push(format!("{said}, but received: {lines:?}")),
            }
        }
    }

    /// Which fact a line shows.
    fn said(&mut self, edition: &str, datagram: &str, random: &str, said: &str, lines: &[String]) {
        let words: Vec<&str> = said.split(' ').collect();
        match words[..] {
            ["why", "refused", "16"] => {
                let random = if random.len() == 32 { "" } else { " random" };
                let edition = if matches!(edition, "1" | "2") { "" } else { " edition" };
                let index = if random.is_empty() && edition.is_empty() { " index" } else { "" };
                self.count(format!("16{random}{edition}{index}"));
            }
            ["why", "none"] => self.count("none".to_string()),
            ["why", number, "at", at, ref facts @ ..] => {
                let datagram = hex::read(datagram.as_bytes()).unwrap_or_default();
                let place = if at == "0" { "first" } else { "later" };
                self.count(format!("{number} {place}{}", framing(facts, &datagram)));
            }
            ["why", number, "state", state, "kind", kind, "place", place, ref facts @ ..] => {
                let beside = state_line(lines);
                if place == "0" && beside.state != state {
                    self.wrong.push(format!("{said}, but {lines:?}"));
                }
                self.record(number, state, kind, place != "0", facts, edition);
                if place == "0" {
                    self.against(&beside, said, facts);
                }
            }
            _ => self.wrong.push(format!("not known: {said}")),
        }
    }

    fn record(
        &mut self,
        number: &str,
        state: &str,
        kind: &str,
        later: bool,
        facts: &[&str],
        edition: &str,
    ) {
        let place = if later { "later" } else { "first" };
        match (number, facts) {
            ("7" | "8", []) => self.count(format!("{number} {state} {kind} {place}")),
            ("9", ["number", _, "fragment", size, "keys", keys]) => {
                self.count(format!("9 {state} {kind}"));
                let sizes: Vec<&str> = keys.split(['/', ',']).skip(1).step_by(2).collect();
                self.count(format!("9 {state} codes {}", sizes.join(",")));
                let short = size.parse::<usize>().is_ok_and(|size| size < 10);
                self.count(format!("9 fragment {}", if short { "short" } else { "whole" }));
                let apart = keys.split(',').map(|set| set.split('/').next()).collect::<Vec<_>>();
                if apart.len() == 2 && apart[0] != apart[1] {
                    self.count("9 key numbers that differ".to_string());
                }
            }
            ("10", ["under", under, "number", n, "highest", _, "limit", limit]) => {
                self.count(format!("10 {state} {kind} under {under}"));
                let at = if n == limit { "at the limit" } else { "below the limit" };
                self.count(format!("10 {at}"));
            }
            ("11", ["under", under, "number", _, "highest", _, "mark", mark]) => {
                self.count(format!("11 {state} {kind} under {under}"));
                let mark: usize = mark.parse().unwrap_or(99);
                let mark = [(0, 0), (1, 31), (32, 63), (64, 99)]
                    .iter()
                    .find(|(least, most)| (*least..=*most).contains(&mark));
                if let Some((least, most)) = mark {
                    self.count(format!("11 mark {least}..{most}"));
                }
            }
            ("12", ["field", field]) => {
                self.count(format!("12 {state} {kind} field"));
                self.count(format!("12 field {field}"));
            }
            ("12", ["under", under, "number", _, "content", ref said @ ..]) => {
                self.count(format!("12 {state} {kind} under {under} {}", content(said)));
            }
            ("12", ["content", ref said @ ..]) => {
                self.count(format!("12 {state} {kind} {}", content(said)));
            }
            ("13", ["first", condition, had]) => {
                self.count(format!("13 {state} {condition}"));
                self.condition(condition, had, edition);
            }
            ("14", ["checksum", _, "sent", sent]) => {
                self.count(format!("14 {state}"));
                self.count(format!("14 sent {}", sent.split(',').count()));
            }
            ("17", ["under", under, "number", _, "found", found]) if found.len() == 24 => {
                self.count(format!("17 {state} {kind} under {under}"));
            }
            _ => self.wrong.push(format!("facts not known: {number} {state} {kind} {facts:?}")),
        }
    }

    fn condition(&mut self, condition: &str, had: &str, edition: &str) {
        match condition {
            "session" if had == "-" => self.count("13 session of no bytes".to_string()),
            "session" => self.count("13 session of bytes".to_string()),
            "pair" => {
                for pair in had.split(',') {
                    let mac = pair.split_once('/').map_or("", |(_, mac)| mac);
                    let unlisted = mac.bytes().all(|byte| byte.is_ascii_digit());
                    let mac = if unlisted && mac != "4" { "unlisted" } else { mac };
                    self.count(format!("13 edition {edition} pair {mac}"));
                }
            }
            _ => {}
        }
    }

    /// The facts of a first record are those of the state line.
    fn against(&mut self, beside: &Beside, said: &str, facts: &[&str]) {
        let told = match facts {
            ["under", "open", "number", _, "highest", highest, "limit", _] => {
                *highest == beside.highest
            }
            ["under", "open", "number", _, "highest", highest, "mark", mark] => {
                let mark: u32 = mark.parse().unwrap_or(64);
                let set = u64::from_str_radix(beside.marks, 16).is_ok_and(|m| m >> mark & 1 == 1);
                *highest == beside.highest && set
            }
            ["checksum", _, "sent", sent] => sent.split(',').next() == Some(beside.checksum),
            _ => return,
        };
        match told {
            true => self.count("facts of the state line".to_string()),
            false => self.wrong.push(format!("{said}, but the state line says otherwise")),
        }
    }
}

struct Beside<'a> {
    state: String,
    highest: &'a str,
    marks: &'a str,
    checksum: &'a str,
}

fn state_line(lines: &[String]) -> Beside<'_> {
    let line = lines.last().map_or("", |line| &line[..]);
    let word =
        |name: &str| line.split(' ').find_map(|word| word.strip_prefix(name)).unwrap_or_default();
    let name = line.split(' ').nth(1).unwrap_or_default();
    let state = match word("started=").split(',').next() {
        Some("-") | None => name.to_string(),
        Some(phase) => format!("{name}+{phase}"),
    };
    Beside { state, highest: word("n="), marks: word("marks="), checksum: word("checksum=") }
}

/// The number that a reason names, 0 for none; nothing for a question that is refused.
fn reason(said: &str) -> Option<usize> {
    match said.split(' ').collect::<Vec<_>>()[..] {
        ["why", "refused", ..] => None,
        ["why", "none"] => Some(0),
        ["why", number, ..] => number.parse().ok(),
        _ => None,
    }
}

fn number_in(line: &str) -> Option<usize> {
    match line.split(' ').collect::<Vec<_>>()[..] {
        [_, "refused", number, ..] => number.parse().ok(),
        _ => None,
    }
}

fn framing(facts: &[&str], datagram: &[u8]) -> String {
    match *facts {
        ["size", "0"] => " empty".to_string(),
        ["size", _] => " over 1,400".to_string(),
        ["left", _, "needs", needs] => format!(" needs {needs}"),
        ["type", byte] => {
            let byte: u8 = byte.parse().unwrap_or(0);
            match byte {
                _ if byte & wire::RESERVED != 0 => " reserved".to_string(),
                _ if byte & wire::NUMBER == 0 => " no number".to_string(),
                _ => " content".to_string(),
            }
        }
        ["length", "0", "left", "0"] if !datagram.is_empty() => " nothing left".to_string(),
        ["length", "0", "left", _] => " length 0".to_string(),
        ["length", _, "left", _] => " past the end".to_string(),
        _ => String::new(),
    }
}

/// `content 6 level description`: which facts, by the size where it matters.
fn content(said: &[&str]) -> String {
    match *said {
        [_, "level", _, "description", _] => "level description".to_string(),
        [_, "type", _, "length", _] => "type length".to_string(),
        [_, "value", _] => "value".to_string(),
        ["0"] => "empty".to_string(),
        _ => "size".to_string(),
    }
}

/// All that is due. What follows the last colon are endings, each of which makes a fact with what
/// stands before.
const DUE: &str = "\
: none 16_random 16_edition 16_index 16_random_edition 5_later 1_first_empty 1_first_over_1,400
2 first: needs_3 needs_5
2 later: needs_3 needs_5
3 first: reserved no_number content
3 later: reserved no_number content
4 first: nothing_left length_0 past_the_end
4 later: nothing_left length_0 past_the_end
7 Closed: clear-hello_first clear-ccs_first clear-alert_first protected-handshake_later
7 Closed: protected-alert_first protected-data_first protected-data_later clear-data_first
7 Barred: clear-hello_first clear-ccs_first clear-alert_first protected-handshake_later
7 Barred: protected-alert_first protected-data_first protected-data_later
8 Idle: clear-hello_later clear-ccs_first clear-alert_first clear-handshake_first clear-data_first
8 Idle: protected-ccs_first protected-alert_first protected-handshake_first protected-data_first
8 Replied: clear-hello_later clear-handshake_first clear-data_first protected-ccs_first
8 Replied: protected-alert_first protected-handshake_first protected-data_first
8 Spec: clear-hello_later clear-ccs_first clear-handshake_first clear-data_first
8 Spec: protected-ccs_first protected-data_first protected-data_later
8 Open: clear-hello_later clear-ccs_first clear-alert_first clear-handshake_first clear-data_first
8 Open+Replied: clear-hello_later clear-handshake_first clear-data_first
8 Open+Spec: clear-hello_later clear-ccs_first clear-handshake_first clear-data_first
9 Spec: protected-alert protected-handshake codes_10 codes_20
9 Open: protected-ccs protected-alert protected-handshake protected-data codes_10 codes_20
9 Open+Replied: protected-alert protected-handshake protected-data codes_10 codes_20
9 Open+Spec: protected-alert protected-handshake protected-data codes_10 codes_20
9 Open+Spec codes: 10,10 10,20 20,10 20,20
9: fragment_short fragment_whole key_numbers_that_differ
10 Spec: protected-alert_under_started protected-handshake_under_started
10 Open: protected-ccs_under_open protected-alert_under_open protected-handshake_under_open
10 Open: protected-data_under_open
10 Open+Replied: protected-alert_under_open protected-handshake_under_open protected-data_under_open
10 Open+Spec: protected-alert_under_open protected-handshake_under_open protected-data_under_open
10 Open+Spec: protected-handshake_under_started
10: at_the_limit below_the_limit
11 Spec: protected-alert_under_started protected-handshake_under_started
11 Open: protected-ccs_under_open protected-alert_under_open protected-handshake_under_open
11 Open: protected-data_under_open
11 Open+Replied: protected-alert_under_open protected-handshake_under_open protected-data_under_open
11 Open+Spec: protected-alert_under_open protected-handshake_under_open protected-data_under_open
11 Open+Spec: protected-handshake_under_started
11 mark: 0..0 1..31 32..63
12 field: size header version random session client-ids trusted-ids suites compressions numbering
12 field: refresh end
12 Idle: clear-hello_field
12 Replied: clear-hello_field clear-ccs_value clear-ccs_size clear-alert_size
12 Replied: clear-alert_level_description
12 Spec: clear-hello_field clear-alert_size clear-alert_level_description
12 Spec protected-alert under started: empty size level_description
12 Spec protected-handshake under started: empty size type_length
12 Open: clear-hello_field
12 Open protected-ccs under open: empty value size
12 Open protected-alert under open: empty size level_description
12 Open protected-handshake under open: empty size type_length
12 Open protected-data under open: empty
12 Open+Replied: clear-hello_field clear-ccs_value clear-ccs_size clear-alert_size
12 Open+Replied: clear-alert_level_description
12 Open+Replied protected-ccs under open: empty value size
12 Open+Replied protected-alert under open: empty size level_description
12 Open+Replied protected-handshake under open: empty size type_length
12 Open+Replied protected-data under open: empty
12 Open+Spec: clear-hello_field clear-alert_size clear-alert_level_description
12 Open+Spec protected-ccs under open: empty value size
12 Open+Spec protected-alert under open: empty size level_description
12 Open+Spec protected-handshake under open: empty size type_length
12 Open+Spec protected-handshake under started: empty size type_length
12 Open+Spec protected-data under open: empty
13 Idle: version session pair compression numbering
13 Replied: version session pair compression numbering
13 Spec: version session pair compression numbering
13 Open: version session pair compression numbering
13 Open+Replied: version session pair compression numbering
13 Open+Spec: version session pair compression numbering
13 session of: bytes no_bytes
13 edition 1 pair: SHA_0 SHA_40 SHA_80 SHA SHA_XOR_40 MD5_40 MD5_80 MD5 unlisted
13 edition 2 pair: SHA_0 SHA_40 SHA_80 SHA 4 MD5_40 MD5_80 MD5 unlisted
14: Replied Spec Open+Replied Open+Spec sent_3 sent_4 sent_5 sent_6 sent_7 sent_8
17: Spec_protected-handshake_under_started Open_protected-handshake_under_open
17: Open+Replied_protected-handshake_under_open Open+Spec_protected-handshake_under_open
17: Open+Spec_protected-handshake_under_started
: facts_of_the_state_line
";

fn due() -> Vec<String> {
    let mut due = Vec::new();
    for line in DUE.lines() {
        let (before, endings) = line.split_once(": ").unwrap_or(("", line));
        for ending in endings.split(' ') {
            let ending = ending.replace('_', " ");
            // Names of MAC kinds have the mark that stands for a space elsewhere.
            let ending = if before.ends_with("pair") { ending.replace(' ', "_") } else { ending };
            due.push(format!("{before} {ending}").trim_start().to_string());
        }
    }
    due
}
