//! The bytes of saved connections, damaged one at a time. Each damaged string is refused with 16 by every call, or it is a
//! saved connection; and nothing else happens.

use gateway::raw::{self, Result as Raw};
use gateway::State;
use peer::keys::Kind;
use peer::wire::Content;

use crate::open::{Lent, Link, ID, RANDOM, SECRET};

const REFUSED: Raw = Raw { refusal: 16, written: 0, count: 0 };

pub fn run() -> Result<String, String> {
    let (mut tried, mut accepted) = (0u64, 0u64);
    for (kind, state) in states() {
        let link = Link::in_state(state, kind);
        let report = Link::in_state(State::Open, kind).record(Content::Data, 19, b"report");
        let hello = Link::new().hello(kind);
        let saved = link.connection.save();
        for place in 0..saved.len() {
            for byte in 0..=255 {
                let mut damaged = saved.to_vec();
                damaged[place] = byte;
                let right = is_saved(&damaged);
                let wrong = match right {
                    true => taken(&damaged, &report).or_else(|| written(&damaged, &hello)),
                    false => refused(&damaged, &report),
                };
                if let Some(wrong) = wrong {
                    return Err(format!("trials: {state:?}, byte {place} set to {byte}: {wrong}"));
                }
                tried += 1;
                accepted += u64::from(right);
            }
        }
    }
    lengths()?;
    Ok(format!(
        "trials: {tried} damaged connections: {accepted} are saved connections, {} refused with 16",
        tried - accepted
    ))
}

fn states() -> Vec<(Kind, State)> {
    use State::*;
    let all = [Idle, Replied, Spec, Open, Closed, Barred].map(|state| (Kind::Sha80, state));
    [&all[..], &[(Kind::Sha, Open)]].concat()
}

/// Which bytes are a saved connection, said a second time: the mark, and of each handshake a state and a MAC kind. Every other byte is
/// free.
fn is_saved(bytes: &[u8]) -> bool {
    let handshake = |at: usize| bytes[at] <= 5 && (bytes[at + 61] == 2 || bytes[at + 61] == 3);
    bytes.len() == 940 && bytes.starts_with(b"WTG\x04") && handshake(40) && handshake(490)
}

/// The bytes of a handshake that is none: nothing planted, agreed, kept or sent; SHA_80, and a window of width 32.
fn none_started() -> [u8; 450] {
    let mut none = [0; 450];
    none[61] = 2;
    none[431] = 32;
    none
}

/// Every call refuses the bytes with 16 and touches nothing.
fn refused(bytes: &[u8], report: &[u8]) -> Option<&'static str> {
    let mut lent = Lent::new(bytes);
    let before = lent.clone();
    let given = [
        raw::state(bytes),
        raw::close(&mut lent.state),
        raw::start(&mut lent.state),
        raw::send_data(&mut lent.state, b"x", &mut lent.out),
        raw::send_alert(&mut lent.state, 1, 1, 90, b"", &mut lent.out),
        lent.receive(report, &RANDOM),
    ];
    match given.iter().all(|result| *result == REFUSED) {
        false => Some("a call takes it"),
        true if lent != before => Some("a refused call touched something"),
        true => None,
    }
}

/// The bytes are a connection: closing it changes the state alone; a refused call changes nothing; a report is taken or
/// refused without touching what it must not.
fn taken(bytes: &[u8], report: &[u8]) -> Option<&'static str> {
    let number = usize::from(bytes[40]);
    if raw::state(bytes) != (Raw { refusal: 0, written: 0, count: number }) {
        return Some("it is a saved connection, and its state is not told");
    }
    let mut closed = bytes.to_vec();
    let close = raw::close(&mut closed);
    let mut expected = bytes.to_vec();
    if number != 5 {
        expected[40] = 4;
        expected[490..].copy_from_slice(&none_started());
    }
    if closed != expected || close.refusal != (if number == 5 { 7 } else { 0 }) {
        return Some("closing it does something else");
    }
    let mut started = bytes.to_vec();
    let start = raw::start(&mut started);
    if (start.refusal == 0) != (number == 4) || (start.refusal != 0 && started != bytes) {
        return Some("starting it again does something else");
    }
    let mut lent = Lent::new(bytes);
    let given = lent.receive(report, &RANDOM);
    if (given.refusal, given.written, given.count) != (0, 0, 1) || lent.out != [0xa5; 128] {
        return Some("a report is not answered, or the output is touched");
    }
    // The window: highest number and marks, and apart from them its width; one that it cannot have becomes the nearest that it can.
    let width = [bytes[471], bytes[471].clamp(32, 64)].contains(&lent.state[471]);
    let unchanged =
        width && [&lent.state[..471], &lent.state[482..]] == [&bytes[..471], &bytes[482..]];
    match (unchanged, lent.answers[0]) {
        (false, _) => Some("a report changes more than the window"),
        (true, 11) if lent.state != bytes => Some("a refused report changes the window"),
        (true, 6 | 11) => None,
        (true, _) => Some("a report is answered as something else"),
    }
}

/// The bytes are a connection, whatever sizes and numbers stand in them: a hello is answered and data sent, or refused, and no
/// byte is written but the counted ones at the front of the output, and those of the state that a send may change.
fn written(bytes: &[u8], hello: &[u8]) -> Option<&'static str> {
    let counted = |out: &[u8], count: usize| out[count..].iter().all(|byte| *byte == 0xa5);
    let mut lent = Lent::new(bytes);
    let given = lent.receive(hello, &RANDOM);
    let size = match lent.answers[0] {
        1 | 2 => usize::from(lent.answers[23]),
        _ => 0,
    };
    if (given.refusal, given.count) != (0, 1) || given.written != size || size > 84 {
        return Some("a hello is not answered, or its reply has another size");
    }
    if !counted(&lent.out, size) {
        return Some("a reply writes more than it counts");
    }
    if lent.answers[0] != 1 && lent.state != bytes {
        return Some("a hello without a new reply changes the connection");
    }
    let mut lent = Lent::new(bytes);
    let given = raw::send_data(&mut lent.state, b"x", &mut lent.out);
    match given.refusal {
        0 if given.written != 4 + [10, 20][usize::from(bytes[101] - 2)] => {
            Some("another size is sent")
        }
        0 if !counted(&lent.out, given.written) => Some("a send writes more than it counts"),
        0 if [&lent.state[40..482], &lent.state[490..]] != [&bytes[40..482], &bytes[490..]] => {
            Some("a send changes more than our numbers")
        }
        0 => None,
        7 | 8 | 15 if lent == Lent::new(bytes) && given.written == 0 => None,
        _ => Some("a send is refused with another number, or touches something"),
    }
}

/// Saved bytes of another length.
fn lengths() -> Result<(), String> {
    let link = Link::in_state(State::Open, Kind::Sha80);
    let report = link.record(Content::Data, 19, b"report");
    let saved = [&link.connection.save()[..], &[0; 1200]].concat();
    for length in (0..saved.len()).filter(|length| *length != 940) {
        if let Some(wrong) = refused(&saved[..length], &report) {
            return Err(format!("trials: {length} bytes lent as a connection: {wrong}"));
        }
        let mut room = vec![0x5a; length];
        if raw::fresh(&ID, &SECRET, 64, &mut room) != REFUSED || room != vec![0x5a; length] {
            return Err(format!("trials: a fresh connection in {length} bytes is taken"));
        }
    }
    Ok(())
}
