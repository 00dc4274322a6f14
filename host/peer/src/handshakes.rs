//! Two worked handshakes, one for each MAC kind, with every value on the way.
//!
//! Each line is `KIND.NAME HEX`, KIND being sha80 and then sha. The session is a0..a7, the secret
//! 30..43, the client random 10..1f, the server random 80..8f, the refresh 3. The names, in order:
//!
//! - `client-hello`, `server-hello`: the messages; `hash-hellos`: SHA-1 of both
//! - `server-verify-data`: of the shore's Finished; `server-finished`: that message
//! - `hash-all`: SHA-1 of both hellos and the shore's Finished
//! - `client-verify-data`, `client-finished`: of the unit
//! - `client-secret-0`, `client-secret-19`, `server-secret-0`, `server-secret-19`: MAC secrets
//! - `client-code-0`: of the unit's Finished; `client-code-19`: of its data "report" under 19
//! - `server-code-0`: of the shore's Finished; `server-code-19`: of its data "answer" under 19
//! - `client-record-19`, `server-record-19`: those two data records whole, without a length
//! - `last-record`: the shore's Finished as on the wire; `checksum`: of that record
//! - `hello-datagram`, `reply`, `flight`: the three datagrams of the handshake

use crate::alert::checksum;
use crate::finished;
use crate::hello;
use crate::hex;
use crate::keys::{Keys, Kind, Writer};
use crate::sha1::sha1;
use crate::shore::{Received, Shore, Tally};
use crate::unit::{Hello, Unit};
use crate::wire::{self, Content};

pub fn session() -> Vec<u8> {
    (0xa0..0xa8).collect()
}

pub fn secret() -> Vec<u8> {
    (0x30..0x44).collect()
}

pub fn client_random() -> Vec<u8> {
    (0x10..0x20).collect()
}

pub fn server_random() -> Vec<u8> {
    (0x80..0x90).collect()
}

pub fn worked() -> String {
    let mut text = String::new();
    for (name, kind) in [("sha80", Kind::Sha80), ("sha", Kind::Sha)] {
        for (value, bytes) in values(kind) {
            text += &format!("{name}.{value} {}\n", hex::write(&bytes));
        }
    }
    text
}

fn values(kind: Kind) -> Vec<(&'static str, Vec<u8>)> {
    let keys = Keys {
        secret: secret(),
        server_random: server_random(),
        client_random: client_random(),
        kind,
        refresh: 3,
    };
    let mut values = messages(kind);
    values.extend(protection(&keys, &values[4].1, &values[7].1));
    values.extend(datagrams(kind));
    values
}

fn messages(kind: Kind) -> Vec<(&'static str, Vec<u8>)> {
    let client = Hello::plain(&client_random(), &session(), kind, 3).message();
    let server = hello::write_server(&server_random(), &session(), kind, 3);
    let verify_data = finished::verify_data(&secret(), Writer::Shore, &[&client, &server]);
    let theirs = finished::write(&verify_data);
    let all = [&client[..], &server, &theirs];
    let unit_verify_data = finished::verify_data(&secret(), Writer::Unit, &all);
    let hash_hellos = sha1(&[&client, &server]).to_vec();
    let hash_all = sha1(&all).to_vec();
    let ours = finished::write(&unit_verify_data);
    vec![
        ("client-hello", client),
        ("server-hello", server),
        ("hash-hellos", hash_hellos),
        ("server-verify-data", verify_data),
        ("server-finished", theirs),
        ("hash-all", hash_all),
        ("client-verify-data", unit_verify_data),
        ("client-finished", ours),
    ]
}

fn protection(
    keys: &Keys,
    server_finished: &[u8],
    client_finished: &[u8],
) -> Vec<(&'static str, Vec<u8>)> {
    let handshake = wire::type_byte(Content::Handshake, true, false);
    let data = wire::type_byte(Content::Data, true, false);
    let record = |writer, bytes: &[u8]| keys.protect(writer, Content::Data, false, 19, bytes);
    vec![
        ("client-secret-0", keys.mac_secret(Writer::Unit, 0)),
        ("client-secret-19", keys.mac_secret(Writer::Unit, 19)),
        ("server-secret-0", keys.mac_secret(Writer::Shore, 0)),
        ("server-secret-19", keys.mac_secret(Writer::Shore, 19)),
        ("client-code-0", keys.code(Writer::Unit, handshake, 0, client_finished)),
        ("client-code-19", keys.code(Writer::Unit, data, 19, b"report")),
        ("server-code-0", keys.code(Writer::Shore, handshake, 0, server_finished)),
        ("server-code-19", keys.code(Writer::Shore, data, 19, b"answer")),
        ("client-record-19", record(Writer::Unit, b"report")),
        ("server-record-19", record(Writer::Shore, b"answer")),
    ]
}

/// The datagrams as a unit and a shore exchange them.
fn datagrams(kind: Kind) -> Vec<(&'static str, Vec<u8>)> {
    let mut unit = Unit::new(&session(), &secret());
    let mut shore = Shore::fresh(&session(), &secret(), 32).expect("the sizes are right");
    let message = Hello::plain(&client_random(), &session(), kind, 3).message();
    let hello = unit.say_hello(&message);
    let received = shore.receive(&hello, &server_random(), 128, &mut Tally::default());
    let Received::Records { out: Some(reply), .. } = received else {
        unreachable!("a plain hello is replied to")
    };
    unit.hear_reply(&reply).expect("the unit reads the reply");
    let connection = unit.connection().expect("a reply makes a connection");
    let last = connection.last_heard.clone();
    let flight = unit.flight().expect("a reply makes a flight");
    vec![
        ("last-record", last.clone()),
        ("checksum", checksum(&last).to_vec()),
        ("hello-datagram", hello),
        ("reply", reply),
        ("flight", flight),
    ]
}
