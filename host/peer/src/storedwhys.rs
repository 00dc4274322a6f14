//! The stored day's questions: each reason with each of its facts, asked before the receive that bears it out.

use crate::day::word;
use crate::hello;
use crate::keys::Kind;
use crate::script::Script;
use crate::wire::{self, Content};

pub fn lines(day: &mut Script) {
    day.heading(
        "why: an edition, a random and an index that there are not, and lines that ask nothing",
    );
    day.fresh();
    questions(day);
    framing(day);
    idle(day);
    replied(day);
    spec(day);
    open(day);
    beside_an_open_one(day);
    ended(day);
}

/// Why for each record, in both editions by turns; then the receive.
fn ask(day: &mut Script, datagram: &[u8]) {
    let random = day.next_random();
    let count = wire::frame(datagram).map_or(1, |records| records.len());
    for index in 0..count {
        let edition = 1 + index % 2;
        day.line(&format!("why {edition} {} {} {index}", word(datagram), word(&random)));
    }
    day.receive(datagram);
}

/// A hello that the unit does not mean.
fn ask_hello(day: &mut Script, message: &[u8]) {
    ask(day, &wire::write(0x43, 0, message));
}

fn questions(day: &mut Script) {
    let random = word(&day.next_random());
    for words in [
        format!("0 44000001 {random} 0"),
        format!("3 44000001 {random} 0"),
        format!("1 44000001 {} 0", &random[2..]),
        "1 44000001 - 0".to_string(),
        format!("2 44000001 {random} 0"),
        format!("2 44000001 {random} 1"),
        format!("2 44000001 {random} 999999999"),
        format!("256 44000001 {random} 0"),
        format!("44000001 {random} 0"),
        format!("1 44000001 {random}"),
        format!("1 44000001 {random} 1000000000"),
        format!("1 4400000 {random} 0"),
    ] {
        day.line(&format!("why {words}"));
    }
}

fn framing(day: &mut Script) {
    day.heading("why: framing faults, at every index");
    let record = [0xc4, 0, 0, 0, 1, 7];
    let faults: [&[u8]; 12] = [
        &[],
        &[0x44; 1401],
        &[0x64],
        &[0xe4, 0, 1, 0],
        &[0x54, 0, 1, 1],
        &[0x04, 0, 1, 1],
        &[0x4f, 0, 1, 1],
        &[0x44, 0, 1],
        &[0xc4, 0, 1, 0, 0, 7],
        &[0xc4, 0, 1, 0, 2, 7],
        &[&record[..], &[0xc4, 0, 1, 2, 0]].concat(),
        &[record.repeat(8), vec![0]].concat(),
    ];
    for datagram in faults {
        ask(day, datagram);
        let random = word(&day.next_random());
        day.line(&format!("why 2 {} {random} 9", word(datagram)));
    }
}

fn idle(day: &mut Script) {
    day.heading("why: hellos cut in each field, wrong in each condition and in two");
    let mut long = day.plain(0x10, Kind::Sha80, 3);
    long.compressions = vec![0; 230];
    ask_hello(day, &long.message());
    ask_hello(day, &[1, 0]);
    let body = day.plain(0x10, Kind::Sha80, 3).message()[3..].to_vec();
    for cut in [0, 16, 25, 27, 29, 32, 34, 35, 36] {
        ask_hello(day, &hello::message(1, &body[..cut]));
    }
    ask_hello(day, &hello::message(1, &[&body[..], &[0]].concat()));
    let mut hello = day.plain(0x10, Kind::Sha80, 3);
    hello.numbering = 1;
    ask_hello(day, &hello.message());
    hello.compressions = vec![1, 255];
    ask_hello(day, &hello.message());
    hello.suites = vec![0, 0, 0, 1, 1, 2, 9, 3, 0, 4, 0, 5, 0, 6, 0, 7, 0, 8, 0, 255];
    for edition in [1, 2] {
        let (hello, random) = (wire::write(0x43, 0, &hello.message()), day.next_random());
        day.line(&format!("why {edition} {} {} 0", word(&hello), word(&random)));
    }
    hello.session = vec![1, 2];
    ask_hello(day, &hello.message());
    hello.session.clear();
    ask_hello(day, &hello.message());
    hello.version = 2;
    ask_hello(day, &hello.message());
    day.heading("why: what has no place in Idle; a hello behind another record");
    let hello = day.plain(0x10, Kind::Sha80, 3).message();
    let mut datagram = Vec::new();
    for type_byte in [0xc1, 0xc2, 0xc3, 0xc4, 0xe1, 0xe2, 0xe3] {
        datagram.extend(wire::write(type_byte, 0, &[2]));
    }
    datagram.extend(wire::write(0x43, 0, &hello));
    ask(day, &datagram);
}

fn replied(day: &mut Script) {
    day.heading("why: Replied, clear alerts and changes; the records sent, newest first");
    let hello = day.hello_datagram(0x10, Kind::Sha80, 3);
    ask(day, &hello);
    ask(day, &hello);
    for content in [&[1, 58, 0, 0, 0, 0][..], &[0; 6], &[1], &[1; 7], &[1, 90, 1, 2, 3, 4]] {
        ask(day, &wire::write(0x42, 2, content));
    }
    for _ in 0..6 {
        day.send("alert clear 1 0 - 9");
        ask(day, &wire::write(0x42, 2, &[1, 90, 0, 0, 0, 1]));
    }
    for content in [&[2][..], &[1, 1]] {
        ask(day, &wire::write(0x41, 1, content));
    }
}

fn spec(day: &mut Script) {
    day.heading("why: Spec, the keys of the only handshake");
    ask(day, &[0x41, 0, 1, 1]);
    ask(day, &wire::write(0x63, 9, &[1; 4]));
    ask(day, &wire::write(0x63, 9, &[1; 40]));
    let alert = day.record(Content::Alert, 40, &[1, 90, 0, 0, 0, 0]);
    ask(day, &alert);
    ask(day, &alert);
    let finished = day.finished_message();
    for (number, message) in [(8, &finished[..]), (41, &finished[..2]), (42, &finished[..14])] {
        let record = day.record(Content::Handshake, number, message);
        ask(day, &record);
    }
    let data = day.record(Content::Data, 43, b"too early");
    ask(day, &data);
    let mut wrong = finished;
    wrong[14] ^= 1;
    let record = day.record(Content::Handshake, 44, &wrong);
    ask(day, &record);
    day.line("start");
}

fn open(day: &mut Script) {
    day.heading("why: Open, each record in the state that those before it leave");
    day.hello(0x11, Kind::Sha80, 3);
    day.flight();
    day.data(40, "forty");
    let datagram = [
        day.part(Content::Data, 8, b"old"),
        day.part(Content::Data, 40, b"twice"),
        day.part(Content::Data, 41, b"fine"),
        day.part(Content::Data, 41, b"now twice"),
        day.part(Content::Data, 90, b"far ahead"),
        day.part(Content::Data, 42, b"too old now"),
        day.part(Content::Data, 91, b""),
        wire::write(0xc1, 1, &[1]),
    ];
    ask(day, &datagram.concat());
    for (number, content, bytes) in [
        (92, Content::ChangeCipherSpec, &[1][..]),
        (93, Content::ChangeCipherSpec, &[]),
        (94, Content::Alert, &[4, 90, 0, 0, 0, 0]),
        (95, Content::Alert, &[1, 90]),
        (96, Content::Handshake, &[20, 0, 12]),
        (97, Content::Handshake, &[20]),
    ] {
        let record = day.record(content, number, bytes);
        ask(day, &record);
    }
}

fn beside_an_open_one(day: &mut Script) {
    day.heading("why: beside an open connection, under whose keys");
    let before = day.reboot(0x12, Kind::Sha, 0);
    let early = day.record(Content::Handshake, 5, &[20]);
    ask(day, &early);
    ask(day, &wire::write(0x42, 2, &[1, 90, 0, 0, 0, 1]));
    ask(day, &[0x41, 0, 1, 1]);
    ask(day, &wire::write(0x63, 100, &[1; 30]));
    ask(day, &wire::write(0x64, 100, &[1; 30]));
    for number in [99, 99, 50] {
        let record = day.record(Content::Handshake, number, &[20, 0, 12]);
        ask(day, &record);
        let record = day.under(&before, |day| day.record(Content::Handshake, number, &[20]));
        ask(day, &record);
    }
    let mut wrong = day.finished_message();
    wrong[3] ^= 1;
    let record = day.record(Content::Handshake, 100, &wrong);
    ask(day, &record);
    let record = day.under(&before, |day| day.record(Content::Handshake, 101, &wrong));
    ask(day, &record);
}

fn ended(day: &mut Script) {
    day.heading("why: Closed, and Barred");
    let hello = day.hello_datagram(0x13, Kind::Sha80, 3);
    ask(day, &hello);
    day.line("start");
    day.receive(&hello);
    day.flight();
    let datagram = [
        day.part(Content::Alert, 1, &[3, 90, 0, 0, 0, 0]),
        day.part(Content::Data, 2, b"too late"),
    ];
    ask(day, &datagram.concat());
    ask(day, &hello);
}
