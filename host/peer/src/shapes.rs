//! Random ClientHello messages: acceptable ones in all their forms, and ones that are wrong in
//! one known way or two.

use crate::keys::Kind;
use crate::rng::Rng;
use crate::set::{self, Kind as SetKind};
use crate::sets;
use crate::unit::{Hello, Identifier, KeyId, Parameters};

/// An acceptable hello of at most 256 bytes.
pub fn acceptable(rng: &mut Rng, session: &[u8]) -> Hello {
    loop {
        let hello = any_acceptable(rng, session);
        if hello.message().len() <= 256 {
            return hello;
        }
    }
}

fn any_acceptable(rng: &mut Rng, session: &[u8]) -> Hello {
    let kind = rng.pick(&[Kind::Sha80, Kind::Sha]);
    let any = rng.byte();
    let refresh = rng.pick(&[0, 1, 2, 3, 4, 5, 6, 8, 10, 14, 15, 16, 17, any]);
    let mut hello = Hello::plain(&rng.bytes(16), session, kind, refresh);
    if rng.percent(50) {
        hello.suites = suites(rng, kind);
        hello.compressions = compressions(rng);
        hello.client_key_ids = key_ids(rng);
        hello.trusted_key_ids = key_ids(rng);
    }
    if rng.percent(5) {
        fill(rng, &mut hello, 256);
    }
    hello
}

/// Pairs that the profile does not have, then the kind's, then anything, at times the other kind.
fn suites(rng: &mut Rng, kind: Kind) -> Vec<u8> {
    let mut suites = Vec::new();
    for _ in 0..rng.under(4) {
        suites.extend(rng.pick(&[
            [0, 0],
            [0, 1],
            [0, 4],
            [0, 5],
            [0, 7],
            [1, 2],
            [3, 3],
            [255, 2],
        ]));
    }
    suites.extend([0, kind.number()]);
    for _ in 0..rng.under(4) {
        let any = [rng.byte(), rng.byte()];
        suites.extend(rng.pick(&[[0, 2], [0, 3], any]));
    }
    suites
}

fn compressions(rng: &mut Rng) -> Vec<u8> {
    let mut compressions: Vec<u8> = (0..rng.under(3)).map(|_| rng.between(1, 255) as u8).collect();
    compressions.push(0);
    let after = rng.under(3);
    compressions.extend(rng.bytes(after));
    compressions
}

fn key_ids(rng: &mut Rng) -> Vec<KeyId> {
    (0..rng.weigh(&[(4, 0), (3, 1), (2, 2), (1, 4)])).map(|_| key_id(rng)).collect()
}

fn key_id(rng: &mut Rng) -> KeyId {
    let any = rng.byte();
    let explicit = rng.percent(30);
    let suite = if explicit && rng.percent(60) { sets::suite(rng) } else { any };
    let parameters = match explicit {
        true => Parameters::Explicit(sets::sound(rng, suite)),
        false => {
            let any = rng.between(0, 254) as u8;
            Parameters::Index(rng.pick(&[0, 1, 254, any]))
        }
    };
    let size = rng.weigh(&[(5, 1), (5, 7), (1, 60)]);
    let identifier = match rng.under(5) {
        0 => Identifier::Null,
        1 => Identifier::Text { character_set: rng.draw() as u16, name: rng.bytes(size) },
        2 => Identifier::Binary(rng.bytes(size)),
        3 => Identifier::KeyHash(rng.bytes(20)),
        _ => Identifier::X509Name(rng.bytes(size)),
    };
    KeyId { suite, parameters, identifier }
}

/// Adds one entry to a key list so that the message has exactly the size, if there is space.
fn fill(rng: &mut Rng, hello: &mut Hello, size: usize) {
    let Some(missing) = size.checked_sub(hello.message().len() + 5) else { return };
    let any = rng.byte();
    let entry = KeyId {
        suite: if set::kind(any) == SetKind::Skipped { any } else { 5 },
        parameters: Parameters::Explicit(rng.bytes(missing)),
        identifier: Identifier::Null,
    };
    match rng.percent(50) {
        true => hello.client_key_ids.push(entry),
        false => hello.trusted_key_ids.push(entry),
    }
}

/// A hello message that is not acceptable, malformed, or both.
pub fn wrong(rng: &mut Rng, session: &[u8]) -> Vec<u8> {
    let mut hello = acceptable(rng, session);
    match rng.weigh(&[(40, 0), (50, 1), (10, 2)]) {
        0 => refuse(rng, &mut hello),
        1 => return malformed(rng, hello),
        _ => {
            refuse(rng, &mut hello);
            return malformed(rng, hello);
        }
    }
    hello.message()
}

/// Well formed, not acceptable.
fn refuse(rng: &mut Rng, hello: &mut Hello) {
    match rng.under(5) {
        0 => hello.version = rng.pick(&[0, 2, 3, 255]),
        1 => hello.session = other_session(rng, &hello.session),
        2 => hello.suites = rng.pick(&[vec![0, 1], vec![0, 7, 1, 2], vec![2, 0, 3, 0], vec![0, 4]]),
        3 => hello.compressions = rng.pick(&[vec![1], vec![255, 2]]),
        _ => hello.numbering = rng.pick(&[0, 1, 3, 255]),
    }
}

fn other_session(rng: &mut Rng, session: &[u8]) -> Vec<u8> {
    let mut other = session.to_vec();
    match rng.under(3) {
        0 => other.clear(),
        1 => other.truncate(rng.under(8)),
        _ => other[rng.under(8)] ^= 1 << rng.under(8),
    }
    other
}

/// Malformed in one way. Some ways only look malformed, which the model must see.
fn malformed(rng: &mut Rng, mut hello: Hello) -> Vec<u8> {
    match rng.under(14) {
        0 => hello.session.extend(rng.bytes(1)),
        1 => hello.suites = Vec::new(),
        2 => hello.suites.push(rng.pick(&[0, 2, 3])),
        3 => hello.compressions = Vec::new(),
        4 => hello.client_key_ids.push(wrong_key_id(rng)),
        5 => hello.trusted_key_ids.push(wrong_key_id(rng)),
        6 => return oversized(rng, &hello.session),
        7 => return cut(rng, hello.message()),
        8 => return longer(rng, hello.message()),
        9 => return other_length(rng, hello.message()),
        10 => hello.client_key_ids.push(wrong_set(rng)),
        11 => hello.trusted_key_ids.insert(0, wrong_set(rng)),
        _ => return nudged(rng, hello.message()),
    }
    hello.message()
}

/// An entry with an explicit set that is wrong, as a rule.
fn wrong_set(rng: &mut Rng) -> KeyId {
    let suite = sets::suite(rng);
    let parameters = Parameters::Explicit(sets::wrong(rng, suite));
    KeyId { suite, parameters, identifier: Identifier::Null }
}

fn wrong_key_id(rng: &mut Rng) -> KeyId {
    let mut entry = key_id(rng);
    let size = rng.under(4);
    entry.identifier = match rng.under(5) {
        0 => Identifier::Unknown(rng.between(3, 253) as u8, rng.bytes(size)),
        1 => Identifier::Text { character_set: 3, name: Vec::new() },
        2 => Identifier::Binary(Vec::new()),
        3 => Identifier::X509Name(Vec::new()),
        _ => Identifier::KeyHash(rng.bytes(19)),
    };
    entry
}

/// Over 256 bytes, else acceptable.
fn oversized(rng: &mut Rng, session: &[u8]) -> Vec<u8> {
    let mut hello = Hello::plain(&rng.bytes(16), session, Kind::Sha, 3);
    let size = rng.weigh(&[(6, 257), (2, 258), (1, 600)]);
    fill(rng, &mut hello, size);
    hello.message()
}

/// Cut somewhere, with the message's length brought up to date or not.
fn cut(rng: &mut Rng, mut message: Vec<u8>) -> Vec<u8> {
    message.truncate(rng.between(1, message.len() - 1));
    keep_length(rng, message)
}

fn longer(rng: &mut Rng, mut message: Vec<u8>) -> Vec<u8> {
    let extra = rng.between(1, 3);
    message.extend(rng.bytes(extra));
    keep_length(rng, message)
}

fn keep_length(rng: &mut Rng, mut message: Vec<u8>) -> Vec<u8> {
    if message.len() >= 3 && rng.percent(70) {
        let length = (message.len() - 3) as u16;
        message[1..3].copy_from_slice(&length.to_be_bytes());
    }
    message
}

/// Another length of the message, or of one of the key lists.
fn other_length(rng: &mut Rng, mut message: Vec<u8>) -> Vec<u8> {
    let place = rng.pick(&[2, 1, 30, 29, 32]).min(message.len() - 1);
    let change = rng.pick(&[1, 255, 2, 254, 128]);
    message[place] = message[place].wrapping_add(change);
    message
}

/// One byte somewhere behind the random, one up or down.
fn nudged(rng: &mut Rng, mut message: Vec<u8>) -> Vec<u8> {
    let place = rng.between(20, message.len() - 1);
    message[place] = message[place].wrapping_add(rng.pick(&[1, 255]));
    message
}
