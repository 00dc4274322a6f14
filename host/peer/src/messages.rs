//! A short message, as the console takes one: it is gathered, and the datagram that it shows is received.

use crate::console::{refused, write_received};
use crate::hex;
use crate::shore::{Refusal, Shore, Tally};
use crate::short::{Answer, Gathering, Ports};

/// Our random, and the least room for a reply: a receive asks for them, and a message before it is looked at.
const RANDOM: usize = 16;
const ROOM: usize = 128;

/// 16, 6, then 19 to 22 of the gathering, then what the datagram gets.
pub fn run(
    shore: &mut Shore,
    tally: &mut Tally,
    gathering: &mut Gathering,
    message: &[u8],
    random: &[u8],
    room: usize,
    lines: &mut Vec<String>,
) {
    if random.len() != RANDOM {
        return lines.push(refused("message", Refusal::Argument));
    }
    if room < ROOM {
        return lines.push(refused("message", Refusal::Room));
    }
    let answer = gathering.message(message);
    lines.push(words(&answer, message));
    let datagram = match &answer {
        Answer::Refused(_) | Answer::Waiting { .. } => return,
        Answer::Received { start, .. } => &message[*start..],
        Answer::Gathered { datagram, .. } => datagram,
    };
    write_received(shore.receive(datagram, random, room, tally), lines);
}

/// The first line of a message: what the gathering made of it.
pub fn words(answer: &Answer, message: &[u8]) -> String {
    match answer {
        Answer::Refused(number) => format!("message refused {number}"),
        Answer::Waiting { ports, reference, have, total } => {
            format!("message waiting {reference} {have} {total} {}", both(*ports))
        }
        Answer::Received { ports, start } => {
            format!("message received {start} {} {}", message.len() - start, both(*ports))
        }
        Answer::Gathered { ports, datagram } => {
            format!("message gathered {} {}", word(datagram), both(*ports))
        }
    }
}

fn both(ports: Ports) -> String {
    format!("ports {} {}", ports.destination, ports.originator)
}

fn word(bytes: &[u8]) -> String {
    match bytes {
        [] => "-".to_string(),
        _ => hex::write(bytes),
    }
}

/// `REF:HAVE/TOTAL,..` by rising reference, `-` for none.
pub fn parts(gathering: &Gathering) -> String {
    let waiting = gathering.waiting();
    if waiting.is_empty() {
        return "-".to_string();
    }
    let words: Vec<String> = waiting
        .iter()
        .map(|(reference, have, total)| format!("{reference}:{have}/{total}"))
        .collect();
    words.join(",")
}
