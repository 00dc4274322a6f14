//! The console as it must be: lines of calls in, lines of outcomes out.

use std::io::{self, BufRead, Write};

use crate::hex;
use crate::macs::{self, Kind, UnknownEdition};
use crate::messages;
use crate::set;
use crate::shore::{Answer, Judged, Phase, Received, Refusal, Shore, Started, State, Tally};
use crate::short::Gathering;
use crate::why;
use crate::whywords;
use crate::window::Window;

pub(crate) const LONGEST_LINE: usize = 8192;
pub(crate) const MOST_ROOM: usize = 2048;
/// Nine digits.
pub(crate) const MOST_NUMBER: usize = 999_999_999;

#[derive(Default)]
pub struct Console {
    shore: Option<Shore>,
    tally: Tally,
    gathering: Gathering,
}

/// A line that could be read.
enum Call {
    Fresh { identifier: Vec<u8>, secret: Vec<u8>, width: u32 },
    Receive { datagram: Vec<u8>, random: Vec<u8>, room: usize },
    Send { data: Vec<u8>, room: usize },
    Alert { protected: bool, level: u8, description: u8, record: Vec<u8>, room: usize },
    Close,
    Start,
    Mac { edition: u8, number: u8 },
    Set { suite: u8, set: Vec<u8> },
    Message { message: Vec<u8>, random: Vec<u8>, room: usize },
    Drop { reference: u8 },
    Why { edition: u8, datagram: Vec<u8>, random: Vec<u8>, index: usize },
}

/// Runs every line of the input.
pub fn run(input: impl BufRead, output: impl Write) -> io::Result<()> {
    let mut console = Console::default();
    run_lines(input, output, |line| console.line(line))
}

/// Hands on each line, without its newline, and writes the lines that it gives.
pub(crate) fn run_lines(
    mut input: impl BufRead,
    mut output: impl Write,
    mut given: impl FnMut(&[u8]) -> Vec<String>,
) -> io::Result<()> {
    let mut line = Vec::new();
    while input.read_until(b'\n', &mut line)? > 0 {
        if line.last() == Some(&b'\n') {
            line.pop();
        }
        for written in given(&line) {
            writeln!(output, "{written}")?;
        }
        line.clear();
    }
    output.flush()
}

impl Console {
    /// The lines that one line, without its newline, gives.
    pub fn line(&mut self, line: &[u8]) -> Vec<String> {
        let Some(call) = read(line) else { return bad_line() };
        let mut lines = Vec::new();
        if let Call::Fresh { identifier, secret, width } = call {
            lines.push(self.fresh(&identifier, &secret, width));
        } else if let Call::Mac { edition, number } = call {
            lines.push(mac(edition, number));
        } else if let Call::Set { suite, set } = call {
            lines.extend(set_lines(suite, &set));
        } else {
            let Some(shore) = &mut self.shore else { return bad_line() };
            run_call(shore, &mut self.tally, &mut self.gathering, call, &mut lines);
        }
        lines.push(self.state_line());
        lines
    }

    pub fn state(&self) -> Option<State> {
        self.shore.as_ref().map(Shore::state)
    }

    pub fn shore(&self) -> Option<&Shore> {
        self.shore.as_ref()
    }

    pub fn gathering(&self) -> &Gathering {
        &self.gathering
    }

    /// A refused fresh leaves connection, tally and gathering as they were.
    fn fresh(&mut self, identifier: &[u8], secret: &[u8], width: u32) -> String {
        match Shore::fresh(identifier, secret, width) {
            Ok(shore) => {
                self.shore = Some(shore);
                self.tally = Tally::default();
                self.gathering = Gathering::default();
                "fresh ok".to_string()
            }
            Err(refusal) => refused("fresh", refusal),
        }
    }

    fn state_line(&self) -> String {
        let Some(shore) = &self.shore else {
            return "state None n=- marks=0000000000000000 arrived=0 sent=-,- checksum=00000000 \
                    tally=0,0,0,0 parts=- started=-"
                .to_string();
        };
        let window = shore.handshake().window();
        let arrived = window.newest().iter().filter(|mark| **mark).count();
        let Tally { handed_out, forged, too_old, repeated } = self.tally;
        format!(
            "state {:?} n={} marks={:016x} arrived={arrived} sent={} checksum={} \
             tally={handed_out},{forged},{too_old},{repeated} parts={} started={}",
            shore.state(),
            highest(window),
            marks(window),
            numbers(shore.handshake().next_numbers()),
            hex::write(&shore.last_checksum()),
            messages::parts(&self.gathering),
            started(shore.started())
        )
    }
}

fn highest(window: &Window) -> String {
    window.highest().map_or("-".to_string(), |n| n.to_string())
}

/// The least significant bit is the highest number itself.
fn marks(window: &Window) -> u64 {
    let newest = window.newest();
    newest.iter().zip(0u32..).filter(|(mark, _)| **mark).map(|(_, i)| 2u64.pow(i)).sum()
}

fn numbers(next: Option<(u32, u32)>) -> String {
    match next {
        Some((protected, clear)) => format!("{protected},{clear}"),
        None => "-,-".to_string(),
    }
}

/// The handshake that is started beside the open one: its phase and sending numbers, in Spec also its
/// highest number and its marks.
fn started(started: Option<&Started>) -> String {
    let Some(Started { phase, handshake }) = started else { return "-".to_string() };
    let sent = numbers(handshake.next_numbers());
    match phase {
        Phase::Replied => format!("Replied,{sent}"),
        Phase::Spec => {
            let window = handshake.window();
            format!("Spec,{sent},{},{:016x}", highest(window), marks(window))
        }
    }
}

pub(crate) fn bad_line() -> Vec<String> {
    vec!["bad line".to_string()]
}

pub fn refused(call: &str, refusal: Refusal) -> String {
    format!("{call} refused {}", refusal as u8)
}

/// What an edition of the list says of a MAC kind's number.
fn mac(edition: u8, number: u8) -> String {
    match macs::kind(edition, number) {
        Err(UnknownEdition) => refused("mac", Refusal::Argument),
        Ok(None) => "mac unlisted".to_string(),
        Ok(Some(Kind { name, sizes: None })) => format!("mac {name} - -"),
        Ok(Some(Kind { name, sizes: Some((key, code)) })) => format!("mac {name} {key} {code}"),
    }
}

/// An explicit set of a suite: its values, and the set written of them.
pub fn set_lines(suite: u8, bytes: &[u8]) -> Vec<String> {
    match set::read(suite, bytes) {
        Ok(None) => vec!["set skipped".to_string()],
        Err(set::Malformed) => vec![refused("set", Refusal::Malformed)],
        Ok(Some(set)) => {
            vec![format!("set {}", set.words()), format!("out {}", hex::write(&set.write()))]
        }
    }
}

fn run_call(
    shore: &mut Shore,
    tally: &mut Tally,
    gathering: &mut Gathering,
    call: Call,
    lines: &mut Vec<String>,
) {
    match call {
        Call::Fresh { .. } | Call::Mac { .. } | Call::Set { .. } => {
            unreachable!("these need no connection")
        }
        Call::Receive { datagram, random, room } => {
            write_received(shore.receive(&datagram, &random, room, tally), lines)
        }
        Call::Send { data, room } => write_sent("send", shore.send(&data, room), lines),
        Call::Alert { protected, level, description, record, room } => {
            let sent = shore.alert(protected, level, description, &record, room);
            write_sent("alert", sent, lines)
        }
        Call::Message { message, random, room } => {
            messages::run(shore, tally, gathering, &message, &random, room, lines)
        }
        Call::Drop { reference } => {
            gathering.drop_reference(reference);
            lines.push("drop ok".to_string());
        }
        Call::Why { edition, datagram, random, index } => lines
            .push(whywords::words(&why::why(shore, edition, &datagram, &random, index), edition)),
        Call::Close => write_done("close", shore.close(), lines),
        Call::Start => write_done("start", shore.start(), lines),
    }
}

pub(crate) fn write_done(call: &str, done: Result<(), Refusal>, lines: &mut Vec<String>) {
    lines.push(match done {
        Ok(()) => format!("{call} ok"),
        Err(refusal) => refused(call, refusal),
    });
}

pub(crate) fn write_sent(call: &str, sent: Result<Vec<u8>, Refusal>, lines: &mut Vec<String>) {
    match sent {
        Ok(record) => {
            lines.push(format!("{call} ok"));
            lines.push(format!("out {}", hex::write(&record)));
        }
        Err(refusal) => lines.push(refused(call, refusal)),
    }
}

pub fn write_received(received: Received, lines: &mut Vec<String>) {
    match received {
        Received::Refused(refusal) => lines.push(refused("receive", refusal)),
        Received::Unframed(fault) => {
            lines.push(format!("receive refused {} at {}", fault.refusal, fault.offset))
        }
        Received::Records { answers, out } => {
            lines.push(format!("receive records {}", answers.len()));
            for (index, answer) in answers.iter().enumerate() {
                lines.push(format!("{index} {}", answer_words(answer)));
            }
            if let Some(out) = out {
                lines.push(format!("out {}", hex::write(&out)));
            }
        }
    }
}

fn answer_words(answer: &Judged) -> String {
    match answer {
        Ok(Answer::Reply(length)) => format!("reply {length}"),
        Ok(Answer::Resent(length)) => format!("resent {length}"),
        Ok(Answer::Spec) => "spec".to_string(),
        Ok(Answer::Open) => "open".to_string(),
        Ok(Answer::Again) => "again".to_string(),
        Ok(Answer::Data { start, length }) => format!("data {start} {length}"),
        Ok(Answer::Warning(description)) => format!("warning {description}"),
        Ok(Answer::Critical(description)) => format!("critical {description}"),
        Ok(Answer::Fatal(description)) => format!("fatal {description}"),
        Ok(Answer::Barred(description)) => format!("barred {description}"),
        Err(refusal) => format!("refused {}", *refusal as u8),
    }
}

/// The call that a line makes; nothing for a bad line.
fn read(line: &[u8]) -> Option<Call> {
    if line.len() > LONGEST_LINE {
        return None;
    }
    let words: Vec<&[u8]> = line.split(|byte| *byte == b' ').collect();
    match words[..] {
        [b"fresh", identifier, secret, width] => Some(Call::Fresh {
            identifier: bytes(identifier)?,
            secret: bytes(secret)?,
            width: number(width, MOST_NUMBER)? as u32,
        }),
        [b"receive", datagram, random, room] => Some(Call::Receive {
            datagram: bytes(datagram)?,
            random: bytes(random)?,
            room: number(room, MOST_ROOM)?,
        }),
        [b"send", data, room] => {
            Some(Call::Send { data: bytes(data)?, room: number(room, MOST_ROOM)? })
        }
        [b"alert", how, level, description, record, room] => Some(Call::Alert {
            protected: is_protected(how)?,
            level: number(level, 255)? as u8,
            description: number(description, 255)? as u8,
            record: bytes(record)?,
            room: number(room, MOST_ROOM)?,
        }),
        [b"mac", edition, mac] => Some(Call::Mac {
            edition: number(edition, 255)? as u8,
            number: number(mac, 255)? as u8,
        }),
        [b"set", suite, set] => {
            Some(Call::Set { suite: number(suite, 255)? as u8, set: bytes(set)? })
        }
        [b"message", message, random, room] => Some(Call::Message {
            message: bytes(message)?,
            random: bytes(random)?,
            room: number(room, MOST_ROOM)?,
        }),
        [b"drop", reference] => Some(Call::Drop { reference: number(reference, 255)? as u8 }),
        [b"why", edition, datagram, random, index] => Some(Call::Why {
            edition: number(edition, 255)? as u8,
            datagram: bytes(datagram)?,
            random: bytes(random)?,
            index: number(index, MOST_NUMBER)?,
        }),
        [b"close"] => Some(Call::Close),
        [b"start"] => Some(Call::Start),
        _ => None,
    }
}

pub(crate) fn is_protected(word: &[u8]) -> Option<bool> {
    match word {
        b"clear" => Some(false),
        b"protected" => Some(true),
        _ => None,
    }
}

/// Lowercase hex, `-` for the empty string; an empty word is no byte string.
pub(crate) fn bytes(word: &[u8]) -> Option<Vec<u8>> {
    match word {
        b"-" => Some(Vec::new()),
        b"" => None,
        _ => hex::read(word),
    }
}

/// Decimal without sign or leading zero, at most nine digits, at most `most`.
pub(crate) fn number(word: &[u8], most: usize) -> Option<usize> {
    let canonical = word == b"0" || !word.starts_with(b"0");
    if word.is_empty() || word.len() > 9 || !canonical || !word.iter().all(u8::is_ascii_digit) {
        return None;
    }
    let number = word.iter().fold(0, |sum, digit| sum * 10 + usize::from(digit - b'0'));
    (number <= most).then_some(number)
}

#[cfg(test)]
mod tests {
    use super::*;

    #[test]
    fn numbers() {
        assert_eq!(number(b"0", 2048), Some(0));
        assert_eq!(number(b"2048", 2048), Some(2048));
        for bad in ["2049", "00", "01", "+1", "-1", "", "1a", "1000000000", "0000000000", " 1"] {
            assert_eq!(number(bad.as_bytes(), 2048), None, "{bad}");
        }
        assert_eq!(number(b"999999999", usize::MAX), Some(999_999_999));
    }

    #[test]
    fn byte_strings() {
        assert_eq!(bytes(b"-"), Some(vec![]));
        assert_eq!(bytes(b"0aff"), Some(vec![10, 255]));
        for bad in ["", "0", "0A", "--", "-00", "0g"] {
            assert_eq!(bytes(bad.as_bytes()), None, "{bad}");
        }
    }

    #[test]
    fn mac_kinds() {
        let mut console = Console::default();
        for (line, answer) in [
            ("mac 1 4", "mac SHA_XOR_40 - -"),
            ("mac 2 4", "mac unlisted"),
            ("mac 2 2", "mac SHA_80 20 10"),
            ("mac 1 0", "mac SHA_0 0 0"),
            ("mac 1 8", "mac unlisted"),
            ("mac 2 255", "mac unlisted"),
            ("mac 0 2", "mac refused 16"),
            ("mac 3 2", "mac refused 16"),
        ] {
            let lines = console.line(line.as_bytes());
            assert_eq!(lines[0], answer, "{line}");
            assert!(lines[1].starts_with("state None "), "{line}");
        }
        for bad in ["mac 1", "mac 1 256", "mac 256 1", "mac 1 2 3", "mac 01 2"] {
            assert_eq!(console.line(bad.as_bytes()), ["bad line"], "{bad}");
        }
    }

    #[test]
    fn lines_end_with_a_newline_or_the_input() {
        let run_text = |text: &str| {
            let mut output = Vec::new();
            run(text.as_bytes(), &mut output).unwrap();
            String::from_utf8(output).unwrap()
        };
        assert_eq!(run_text(""), "");
        assert_eq!(run_text("\n"), "bad line\n");
        assert_eq!(run_text("close"), "bad line\n");
        assert_eq!(run_text("close\n\nstart"), "bad line\nbad line\nbad line\n");
        assert!(run_text("fresh - - 32").starts_with("fresh refused 16\nstate None n=- "));
        assert_eq!(run_text("fresh - -"), "bad line\n");
        let long = |count: usize| format!("fresh {} - 32", "0".repeat(count));
        assert!(run_text(&long(8180)).starts_with("fresh refused 16\n"));
        assert_eq!(run_text(&long(8186)), "bad line\n");
    }
}
