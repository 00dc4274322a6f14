//! Random explicit parameter sets: sound ones of every kind, and ones that are wrong in one way.

use crate::rng::Rng;
use crate::set::{self, Basis, Field, Kind, Set};

/// A sound set of a suite of at most some 70 bytes; any bytes for a suite whose sets are skipped.
pub fn sound(rng: &mut Rng, suite: u8) -> Vec<u8> {
    match set::kind(suite) {
        Kind::DiffieHellman => diffie_hellman(rng).write(),
        Kind::Curve => curve(rng).write(),
        Kind::Skipped => {
            let size = rng.under(20);
            rng.bytes(size)
        }
    }
}

fn diffie_hellman(rng: &mut Rng) -> Set {
    Set::DiffieHellman { e: rng.byte(), p: vector(rng), g: vector(rng) }
}

fn curve(rng: &mut Rng) -> Set {
    let field = match rng.under(5) {
        0 => Field::Prime(vector(rng)),
        1 => two(rng, |_| Basis::Onb),
        2 => two(rng, |rng| Basis::Trinomial(uint16(rng))),
        3 => two(rng, |rng| Basis::Pentanomial(uint16(rng), uint16(rng), uint16(rng))),
        _ => two(rng, |rng| Basis::Polynomial(vector(rng))),
    };
    let size = rng.weigh(&[(3, 0), (2, 1), (1, 6)]);
    Set::Curve {
        field,
        a: vector(rng),
        b: vector(rng),
        seed: rng.bytes(size),
        base: vector(rng),
        order: vector(rng),
        cofactor: vector(rng),
    }
}

fn two(rng: &mut Rng, basis: fn(&mut Rng) -> Basis) -> Field {
    Field::Two { m: uint16(rng), basis: basis(rng) }
}

fn uint16(rng: &mut Rng) -> u16 {
    let any = rng.draw() as u16;
    rng.pick(&[0, 1, 113, 163, 256, 65535, any])
}

fn vector(rng: &mut Rng) -> Vec<u8> {
    let size = rng.weigh(&[(8, 1), (6, 2), (3, 8), (1, 24)]);
    rng.bytes(size)
}

/// A set of a suite that is wrong in one way, or only looks so.
pub fn wrong(rng: &mut Rng, suite: u8) -> Vec<u8> {
    let mut set = sound(rng, suite);
    match rng.under(7) {
        0 => set.clear(),
        1 => set.truncate(rng.under(set.len().max(1))),
        2 => {
            let extra = rng.between(1, 2);
            set.extend(rng.bytes(extra));
        }
        3 if set::kind(suite) == Kind::Curve => set[0] = rng.pick(&[0, 3, 4, 254, 255]),
        4 if set::kind(suite) == Kind::Curve && set[0] == 2 => {
            set[3] = rng.pick(&[0, 5, 6, 255]);
        }
        5 => empty_vector(rng, &mut set, suite),
        _ if !set.is_empty() => {
            let place = rng.under(set.len());
            set[place] = set[place].wrapping_add(rng.pick(&[1, 255, 2, 128]));
        }
        _ => {}
    }
    set
}

/// A sound set, but that one of its vectors is empty; an empty seed alone is sound.
fn empty_vector(rng: &mut Rng, bytes: &mut Vec<u8>, suite: u8) {
    let Ok(Some(mut set)) = set::read(suite, bytes) else { return };
    match &mut set {
        Set::DiffieHellman { p, g, .. } => match rng.under(2) {
            0 => p.clear(),
            _ => g.clear(),
        },
        Set::Curve { field, a, b, seed, base, order, cofactor } => match rng.under(7) {
            0 => a.clear(),
            1 => b.clear(),
            2 => seed.clear(),
            3 => base.clear(),
            4 => order.clear(),
            5 => cofactor.clear(),
            _ => match field {
                Field::Prime(p) | Field::Two { basis: Basis::Polynomial(p), .. } => p.clear(),
                Field::Two { .. } => a.clear(),
            },
        },
    }
    *bytes = set.write();
}

/// A suite: one with sets that are read, in most cases.
pub fn suite(rng: &mut Rng) -> u8 {
    let any = rng.byte();
    let curve = rng.between(11, 18) as u8;
    let edge = rng.pick(&[0, 1, 5, 8, 10, 19, 255]);
    let dh = rng.between(2, 4) as u8;
    rng.weigh(&[(3, dh), (6, curve), (1, edge), (1, any)])
}
