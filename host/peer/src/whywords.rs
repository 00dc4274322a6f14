//! The line that says why, as the console writes it.

use crate::day::word;
use crate::hello::Field;
use crate::hex;
use crate::macs;
use crate::shore::{Phase, State};
use crate::why::{Facts, First, Framing, Point, Said, Under, Why};
use crate::wire::Content;

/// MAC kinds of a pair are named after the edition.
pub fn words(why: &Why, edition: u8) -> String {
    match why {
        Why::Argument => "why refused 16".to_string(),
        Why::Nothing => "why none".to_string(),
        Why::Unframed { fault, facts } => {
            format!("why {} at {}{}", fault.refusal, fault.offset, framing(*facts))
        }
        Why::Record { refusal, point, facts } => {
            let Point { place, .. } = point;
            let (state, kind) = (state(*point), kind(*point));
            let (refusal, facts) = (*refusal as u8, fact_words(facts, edition));
            format!("why {refusal} state {state} kind {kind} place {place}{facts}")
        }
    }
}

fn framing(facts: Framing) -> String {
    match facts {
        Framing::Size(size) => format!(" size {size}"),
        Framing::Header { left, needs } => format!(" left {left} needs {needs}"),
        Framing::Type(byte) => format!(" type {byte}"),
        Framing::Fragment { length, left } => format!(" length {length} left {left}"),
        Framing::Ninth => String::new(),
    }
}

fn state(Point { state, started, .. }: Point) -> String {
    match (state, started) {
        (State::Open, Some(Phase::Replied)) => "Open+Replied".to_string(),
        (State::Open, Some(Phase::Spec)) => "Open+Spec".to_string(),
        (state, _) => format!("{state:?}"),
    }
}

fn kind(Point { protected, content, hello, .. }: Point) -> String {
    let how = if protected { "protected" } else { "clear" };
    let what = match content {
        _ if hello => "hello",
        Content::ChangeCipherSpec => "ccs",
        Content::Alert => "alert",
        Content::Handshake => "handshake",
        Content::Data => "data",
    };
    format!("{how}-{what}")
}

fn fact_words(facts: &Facts, edition: u8) -> String {
    match facts {
        Facts::Point => String::new(),
        Facts::Forged { number, fragment, keys } => {
            let keys = listed(keys, |(number, code)| format!("{number}/{code}"));
            format!(" number {number} fragment {fragment} keys {keys}")
        }
        Facts::TooOld { under, number, highest, limit } => {
            format!("{} highest {highest} limit {limit}", numbered(*under, *number))
        }
        Facts::Repeated { under, number, highest, mark } => {
            format!("{} highest {highest} mark {mark}", numbered(*under, *number))
        }
        Facts::Hello(field) => format!(" field {}", field_word(*field)),
        Facts::Content { protected, size, said } => {
            let whose = protected.map_or(String::new(), |(under, number)| numbered(under, number));
            format!("{whose} content {size}{}", said_words(*said))
        }
        Facts::First(first) => format!(" first {}", first_words(first, edition)),
        Facts::Checksum { checksum, sent } => {
            let sent = listed(sent, |checksum| hex::write(checksum));
            format!(" checksum {} sent {sent}", hex::write(checksum))
        }
        Facts::Finished { under, number, found } => {
            format!("{} found {}", numbered(*under, *number), hex::write(found))
        }
    }
}

fn numbered(under: Under, number: u16) -> String {
    let whose = match under {
        Under::Open => "open",
        Under::Started => "started",
    };
    format!(" under {whose} number {number}")
}

/// `-` for none.
fn listed<T>(entries: &[T], word: impl Fn(&T) -> String) -> String {
    match entries {
        [] => "-".to_string(),
        _ => entries.iter().map(word).collect::<Vec<_>>().join(","),
    }
}

fn field_word(field: Field) -> &'static str {
    match field {
        Field::Size => "size",
        Field::Header => "header",
        Field::Version => "version",
        Field::Random => "random",
        Field::Session => "session",
        Field::ClientIds => "client-ids",
        Field::TrustedIds => "trusted-ids",
        Field::Suites => "suites",
        Field::Compressions => "compressions",
        Field::Numbering => "numbering",
        Field::Refresh => "refresh",
        Field::End => "end",
    }
}

fn said_words(said: Said) -> String {
    match said {
        Said::Nothing => String::new(),
        Said::Alert { level, description } => format!(" level {level} description {description}"),
        Said::Message { kind, length } => format!(" type {kind} length {length}"),
        Said::Change { value } => format!(" value {value}"),
    }
}

fn first_words(first: &First, edition: u8) -> String {
    match first {
        First::Version(version) => format!("version {version}"),
        First::Session(session) => format!("session {}", word(session)),
        First::Pair(pairs) => {
            let pairs =
                listed(pairs, |[cipher, mac]| format!("{cipher}/{}", mac_word(edition, *mac)));
            format!("pair {pairs}")
        }
        First::Compression(methods) => format!("compression {}", word(methods)),
        First::Numbering(numbering) => format!("numbering {numbering}"),
    }
}

/// The name in that edition, the number where it is not listed.
fn mac_word(edition: u8, number: u8) -> String {
    match macs::kind(edition, number) {
        Ok(Some(kind)) => kind.name.to_string(),
        _ => number.to_string(),
    }
}
