//! Why a record of a datagram would be refused, and what bears on it (P5). Asking changes nothing:
//! the records before it are judged on a copy of the connection, and it alone after them.

use crate::handshake::Handshake;
use crate::hello::{self, ClientHello, Condition, Field};
use crate::keys;
use crate::macs;
use crate::shore::{Checksum, Phase, Refusal, Shore, Started, State};
use crate::wire::{self, Content, Fault, Record};

#[derive(Clone, PartialEq, Eq, Debug)]
pub enum Why {
    /// 16: the random, the edition, or an index past the last record of a sound datagram.
    Argument,
    /// Receiving would not refuse it.
    Nothing,
    /// A fault of the framing is the reason at every index.
    Unframed {
        fault: Fault,
        facts: Framing,
    },
    Record {
        refusal: Refusal,
        point: Point,
        facts: Facts,
    },
}

/// What bears on a fault of the framing.
#[derive(Clone, Copy, PartialEq, Eq, Debug)]
pub enum Framing {
    Size(usize),
    /// The bytes left from the type byte on, and how many the header needs.
    Header {
        left: usize,
        needs: usize,
    },
    Type(u8),
    /// The stated length and the bytes left, both after the header; 0 and 0 without a length.
    Fragment {
        length: usize,
        left: usize,
    },
    Ninth,
}

/// Where a record is judged: the state that those before it left, its kind and its place.
#[derive(Clone, Copy, PartialEq, Eq, Debug)]
pub struct Point {
    pub state: State,
    /// Of the handshake that is started beside an open one.
    pub started: Option<Phase>,
    pub protected: bool,
    pub content: Content,
    pub hello: bool,
    pub place: usize,
}

/// Whose keys and window a protected record is judged by.
#[derive(Clone, Copy, PartialEq, Eq, Debug)]
pub enum Under {
    Open,
    Started,
}

#[derive(Clone, PartialEq, Eq, Debug)]
pub enum Facts {
    /// 7 and 8: state, kind and place say it all.
    Point,
    /// 9: the fragment's size; key number and code size of each key set that was tried, in order.
    Forged { number: u16, fragment: usize, keys: Vec<(u16, usize)> },
    /// 10: the limit is the highest number less the width.
    TooOld { under: Under, number: u16, highest: u16, limit: u16 },
    /// 11: the mark that is set is so many places below the highest number.
    Repeated { under: Under, number: u16, highest: u16, mark: u16 },
    /// 12 of a hello.
    Hello(Field),
    /// 12 of other content; whose and its number if protected.
    Content { protected: Option<(Under, u16)>, size: usize, said: Said },
    /// 13.
    First(First),
    /// 14: the checksums that it was compared with, the newest first.
    Checksum { checksum: Vec<u8>, sent: Vec<Checksum> },
    /// 17: never the contents that were expected.
    Finished { under: Under, number: u16, found: Vec<u8> },
}

/// What malformed content of a size that lets it be read says.
#[derive(Clone, Copy, PartialEq, Eq, Debug)]
pub enum Said {
    Nothing,
    Alert { level: u8, description: u8 },
    Message { kind: u8, length: u16 },
    Change { value: u8 },
}

/// The first condition that failed, with what the hello had.
#[derive(Clone, PartialEq, Eq, Debug)]
pub enum First {
    Version(u8),
    Session(Vec<u8>),
    Pair(Vec<[u8; 2]>),
    Compression(Vec<u8>),
    Numbering(u8),
}

/// 16 for the random and the edition, then 1 to 5 at every index, then 16 for the index, then what
/// receiving (with room as listed) would answer for that record.
pub fn why(shore: &Shore, edition: u8, datagram: &[u8], random: &[u8], index: usize) -> Why {
    if random.len() != 16 || macs::kind(edition, 0).is_err() {
        return Why::Argument;
    }
    let records = match wire::frame(datagram) {
        Ok(records) => records,
        Err(fault) => return Why::Unframed { fault, facts: framing(datagram, fault) },
    };
    let Some(record) = records.get(index) else { return Why::Argument };
    let mut shore = shore.clone();
    for (place, earlier) in records[..index].iter().enumerate() {
        // Only what it leaves is wanted.
        let _ = shore.judge(datagram, place, earlier, random);
    }
    match shore.clone().judge(datagram, index, record, random) {
        Ok(_) => Why::Nothing,
        Err(refusal) => {
            let fragment = &datagram[record.fragment.clone()];
            let point = point(&shore, record, fragment, index);
            Why::Record { refusal, point, facts: facts(&shore, refusal, point, record, fragment) }
        }
    }
}

fn framing(datagram: &[u8], fault: Fault) -> Framing {
    let rest = &datagram[fault.offset..];
    let with_length = rest.first().is_some_and(|byte| byte & wire::LENGTH != 0);
    match (fault.refusal, with_length) {
        (1, _) => Framing::Size(datagram.len()),
        (2, true) => Framing::Header { left: rest.len(), needs: 5 },
        (2, false) => Framing::Header { left: rest.len(), needs: 3 },
        (3, _) => Framing::Type(rest[0]),
        (4, true) => Framing::Fragment {
            length: usize::from(u16::from_be_bytes([rest[3], rest[4]])),
            left: rest.len() - 5,
        },
        (4, false) => Framing::Fragment { length: 0, left: 0 },
        _ => Framing::Ninth,
    }
}

fn point(shore: &Shore, record: &Record, fragment: &[u8], place: usize) -> Point {
    let Record { protected, content, .. } = *record;
    Point {
        state: shore.state(),
        started: shore.started().map(|started| started.phase),
        protected,
        content,
        hello: !protected && content == Content::Handshake && fragment[0] == 1,
        place,
    }
}

fn facts(shore: &Shore, refusal: Refusal, point: Point, record: &Record, fragment: &[u8]) -> Facts {
    let number = record.number;
    let (under, handshake) = judge_of(shore, record, fragment);
    let window = handshake.window();
    let highest = window.highest().unwrap_or(0);
    let length = handshake.content_length(record, fragment).unwrap_or(0);
    let content = if record.protected { &fragment[..length] } else { fragment };
    match refusal {
        Refusal::Forged => {
            Facts::Forged { number, fragment: fragment.len(), keys: tried(shore, record) }
        }
        Refusal::TooOld => {
            Facts::TooOld { under, number, highest, limit: highest - window.width() }
        }
        Refusal::Repeated => Facts::Repeated { under, number, highest, mark: highest - number },
        Refusal::Malformed if point.hello => {
            Facts::Hello(hello::read(fragment).expect_err("a malformed hello"))
        }
        Refusal::Malformed => Facts::Content {
            protected: record.protected.then_some((under, number)),
            size: content.len(),
            said: said(record.content, content),
        },
        Refusal::NotAcceptable => {
            let hello = hello::read(fragment).expect("a well-formed hello");
            let failed = hello::choose(&hello, shore.identifier()).expect_err("not acceptable");
            Facts::First(first(hello, failed))
        }
        Refusal::Checksum => Facts::Checksum {
            checksum: fragment[2..].to_vec(),
            sent: shore.records_sent().to_vec(),
        },
        Refusal::WrongFinished => Facts::Finished { under, number, found: content[3..].to_vec() },
        _ => Facts::Point,
    }
}

/// A started one whose change cipher spec has come.
fn in_spec(shore: &Shore) -> Option<&Handshake> {
    match shore.started() {
        Some(Started { phase: Phase::Spec, handshake }) => Some(handshake),
        _ => None,
    }
}

/// The handshake that judges a protected record. The only one in Spec is a started one; beside an
/// open one the code of a handshake record decides whose it is.
fn judge_of<'a>(shore: &'a Shore, record: &Record, fragment: &[u8]) -> (Under, &'a Handshake) {
    if shore.state() != State::Open {
        return (Under::Started, shore.handshake());
    }
    match in_spec(shore) {
        Some(started)
            if record.content == Content::Handshake
                && started.content_length(record, fragment).is_some() =>
        {
            (Under::Started, started)
        }
        _ => (Under::Open, shore.handshake()),
    }
}

/// A handshake record is tried under the started one first, then under the open one.
fn tried(shore: &Shore, record: &Record) -> Vec<(u16, usize)> {
    let started = in_spec(shore).filter(|_| record.content == Content::Handshake);
    let both = [started, Some(shore.handshake())].into_iter().flatten();
    both.filter_map(Handshake::keys)
        .map(|set| (keys::key_number(set.refresh, record.number), set.kind.code_size()))
        .collect()
}

fn said(kind: Content, content: &[u8]) -> Said {
    match (kind, content) {
        (Content::Alert, &[level, description, _, _, _, _]) => Said::Alert { level, description },
        (Content::Handshake, &[kind, high, low, ..]) => {
            Said::Message { kind, length: u16::from_be_bytes([high, low]) }
        }
        (Content::ChangeCipherSpec, &[value]) => Said::Change { value },
        _ => Said::Nothing,
    }
}

fn first(hello: ClientHello, failed: Condition) -> First {
    match failed {
        Condition::Version => First::Version(hello.version),
        Condition::Session => First::Session(hello.session),
        Condition::Pair => First::Pair(hello.suites),
        Condition::Compression => First::Compression(hello.compressions),
        Condition::Numbering => First::Numbering(hello.numbering),
    }
}
