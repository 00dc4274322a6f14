//! The part of the stored day that is about explicit parameter sets: every kind, sound and malformed
//! in each way, by themselves and in hellos.

use crate::day::word;
use crate::keys::Kind;
use crate::script::Script;
use crate::set::{Basis, Field, Set};
use crate::unit::{Identifier, KeyId, Parameters};

/// Lines that need no connection.
pub fn lines(day: &mut Script) {
    day.heading("explicit sets: those of each suite, every kind, every cut, a byte left over");
    let dh = diffie_hellman(&[0x17], &[5]).write();
    let ec = curve(Field::Prime(vec![0x17])).write();
    for suite in (0..=20).chain([255]) {
        for set in [&dh[..], &ec, &[]] {
            set_line(day, suite, set);
        }
    }
    for (suite, set) in every_kind() {
        let bytes = set.write();
        for cut in 0..=bytes.len() {
            set_line(day, suite, &bytes[..cut]);
        }
        set_line(day, suite, &[&bytes[..], &[0]].concat());
    }
    day.heading("explicit sets: unknown fields and bases, and each vector empty");
    for (suite, set) in malformed() {
        set_line(day, suite, &set);
    }
    for bad in [
        "set",
        "set 2",
        "set 2 00 00",
        "set 256 00",
        "set 02 00",
        "set 2 0",
        "set - 00",
        "sets 2 00",
    ] {
        day.line(bad);
    }
}

/// Hellos that carry them, on a fresh connection: each sound one is another acceptable hello.
pub fn hellos(day: &mut Script) {
    day.heading("hellos with explicit sets: sound ones are replied to, in either list");
    day.fresh();
    for (number, (suite, set)) in every_kind().into_iter().enumerate() {
        let mut hello = day.plain(0x50 + number as u8, Kind::Sha80, 3);
        hello.client_key_ids.push(entry(suite, set.write()));
        let datagram = day.unit.say_hello(&hello.message());
        day.receive(&datagram);
        hello.trusted_key_ids.append(&mut hello.client_key_ids);
        let datagram = day.unit.say_hello(&hello.message());
        day.receive(&datagram);
    }
    day.heading("malformed ones are 12; sets of other suites are skipped");
    for (number, (suite, set)) in malformed().into_iter().enumerate() {
        let mut hello = day.plain(0x70, Kind::Sha80, 3);
        match number % 2 {
            0 => hello.client_key_ids.push(entry(suite, set)),
            _ => hello.trusted_key_ids.push(entry(suite, set)),
        }
        day.stray_hello(&hello.message());
    }
    for suite in [0, 1, 5, 10, 19, 255] {
        let mut hello = day.plain(0x71, Kind::Sha80, 3);
        hello.client_key_ids.push(entry(suite, Vec::new()));
        hello.trusted_key_ids.push(entry(suite, vec![255, 255]));
        let datagram = day.unit.say_hello(&hello.message());
        day.receive(&datagram);
    }
    day.heading("a set of 128 + 128 bytes does not fit into a hello, one of 96 + 96 does");
    let mut hello = day.plain(0x72, Kind::Sha80, 3);
    hello.client_key_ids = vec![entry(2, diffie_hellman(&[7; 128], &[8; 128]).write())];
    day.stray_hello(&hello.message());
    hello.client_key_ids = vec![entry(2, diffie_hellman(&[7; 96], &[8; 96]).write())];
    let datagram = day.unit.say_hello(&hello.message());
    day.receive(&datagram);
}

fn set_line(day: &mut Script, suite: u8, set: &[u8]) {
    day.line(&format!("set {suite} {}", word(set)));
}

fn entry(suite: u8, set: Vec<u8>) -> KeyId {
    KeyId { suite, parameters: Parameters::Explicit(set), identifier: Identifier::Null }
}

fn diffie_hellman(p: &[u8], g: &[u8]) -> Set {
    Set::DiffieHellman { e: 0, p: p.to_vec(), g: g.to_vec() }
}

fn curve(field: Field) -> Set {
    Set::Curve {
        field,
        a: vec![1],
        b: vec![2, 3],
        seed: Vec::new(),
        base: vec![3, 4],
        order: vec![5],
        cofactor: vec![2],
    }
}

fn every_kind() -> Vec<(u8, Set)> {
    let two = |m: u16, basis: Basis| curve(Field::Two { m, basis });
    let mut seeded = curve(Field::Prime(vec![0xff, 0xfb]));
    if let Set::Curve { seed, .. } = &mut seeded {
        *seed = vec![9, 9, 9];
    }
    vec![
        (2, diffie_hellman(&[0xab, 0xcd], &[5])),
        (3, Set::DiffieHellman { e: 255, p: vec![0], g: vec![0, 0, 0] }),
        (11, curve(Field::Prime(vec![0x17]))),
        (12, seeded),
        (13, two(113, Basis::Onb)),
        (14, two(0, Basis::Trinomial(9))),
        (15, two(163, Basis::Pentanomial(3, 6, 7))),
        (18, two(65535, Basis::Polynomial(vec![1, 2, 3]))),
    ]
}

fn malformed() -> Vec<(u8, Vec<u8>)> {
    let mut sets = vec![(2, Vec::new()), (4, Vec::new()), (11, Vec::new()), (18, Vec::new())];
    for (suite, set) in every_kind() {
        let bytes = set.write();
        sets.push((suite, [&bytes[..], &[0]].concat()));
        sets.push((suite, bytes[..bytes.len() - 1].to_vec()));
        if let Set::Curve { field, .. } = &set {
            for number in [0, 3, 255] {
                let mut other = bytes.clone();
                other[0] = number;
                sets.push((suite, other));
            }
            if let Field::Two { .. } = field {
                for number in [0, 5, 255] {
                    let mut other = bytes.clone();
                    other[3] = number;
                    sets.push((suite, other));
                }
            }
        }
    }
    sets.push((2, diffie_hellman(&[], &[5]).write()));
    sets.push((2, diffie_hellman(&[5], &[]).write()));
    sets.push((11, curve(Field::Prime(Vec::new())).write()));
    sets.push((11, curve(Field::Two { m: 1, basis: Basis::Polynomial(Vec::new()) }).write()));
    for vector in [0, 1, 3, 4, 5] {
        let mut set = curve(Field::Prime(vec![0x17]));
        if let Set::Curve { a, b, base, order, cofactor, .. } = &mut set {
            match vector {
                0 => a.clear(),
                1 => b.clear(),
                3 => base.clear(),
                4 => order.clear(),
                _ => cofactor.clear(),
            }
        }
        sets.push((16, set.write()));
    }
    sets
}
