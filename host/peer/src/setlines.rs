//! Lines for the console that are all about explicit parameter sets.

use crate::day::word;
use crate::handshakes::{secret, session};
use crate::keys::Kind;
use crate::rng::Rng;
use crate::sets;
use crate::unit::{Hello, Identifier, KeyId, Parameters};
use crate::wire::{self, Content};

/// The first line: a connection for the hellos.
pub fn fresh() -> String {
    format!("fresh {} {} 32", word(&session()), word(&secret()))
}

/// A set by itself, or a hello that carries one or more.
pub fn line(rng: &mut Rng) -> String {
    if rng.percent(40) {
        let (suite, set) = any_set(rng, 50);
        return format!("set {suite} {}", word(&set));
    }
    let datagram =
        wire::write(wire::type_byte(Content::Handshake, false, false), 0, &hello(rng).message());
    format!("receive {} {} 128", word(&datagram), word(&rng.bytes(16)))
}

fn hello(rng: &mut Rng) -> Hello {
    let kind = rng.pick(&[Kind::Sha80, Kind::Sha]);
    let mut hello = Hello::plain(&rng.bytes(16), &session(), kind, 3);
    for _ in 0..rng.between(1, 2) {
        let (suite, set) = any_set(rng, 25);
        let entry =
            KeyId { suite, parameters: Parameters::Explicit(set), identifier: Identifier::Null };
        match rng.percent(50) {
            true => hello.client_key_ids.push(entry),
            false => hello.trusted_key_ids.push(entry),
        }
    }
    if rng.percent(5) {
        hello.numbering = 1;
    }
    hello
}

/// A set that is wrong, as a rule, in so many of a hundred cases.
fn any_set(rng: &mut Rng, wrong: usize) -> (u8, Vec<u8>) {
    let suite = sets::suite(rng);
    let set = match rng.percent(wrong) {
        true => sets::wrong(rng, suite),
        false => sets::sound(rng, suite),
    };
    (suite, set)
}

#[cfg(test)]
mod tests {
    use super::*;
    use crate::console;

    #[test]
    fn hellos_are_heard() {
        let mut rng = Rng::new(13);
        let mut lines = fresh() + "\n";
        for _ in 1..400 {
            lines += &(line(&mut rng) + "\n");
        }
        let mut said = Vec::new();
        console::run(lines.as_bytes(), &mut said).unwrap();
        let said = String::from_utf8(said).unwrap();
        assert!(said.starts_with("fresh ok\n") && !said.contains("bad line"));
        assert!(said.lines().filter(|line| line.starts_with("0 reply ")).count() > 100);
    }
}
