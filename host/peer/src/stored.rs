//! The one stored day: both MAC kinds, loss, repetition, late records across a refresh, forged
//! and malformed datagrams, alerts of each level, hellos of all sorts, closing and barring. Every
//! refusal occurs but 15, which takes 65,535 sends (`long_day` is for that one), and 18, which is not
//! given any more.
//!
//! Lines that begin with # are headings. To the console they are bad lines like any other.

use crate::alert;
use crate::day::word;
use crate::handshakes::{secret, session};
use crate::hex;
use crate::keys::Kind;
use crate::script::Script;
use crate::shore::{Received, Shore, Tally};
use crate::storedreboots;
use crate::storedsets;
use crate::storedwhys;
use crate::unit::{Hello, Identifier, KeyId, Parameters};
use crate::wire::{self, Content};

pub fn day() -> String {
    written().input().to_string()
}

/// The day with the model's output beside it.
pub fn written() -> Script {
    let mut day = Script::new(&session(), &secret());
    before_the_connection(&mut day);
    storedsets::lines(&mut day);
    idle(&mut day);
    replied(&mut day);
    open_with_sha_80(&mut day);
    loss_and_refresh(&mut day);
    forged(&mut day);
    unsound_datagrams(&mut day);
    several_records(&mut day);
    malformed_under_protection(&mut day);
    clear_in_open(&mut day);
    shore_sends(&mut day);
    critical_closes(&mut day);
    hellos(&mut day);
    clear_alerts(&mut day);
    earlier_records(&mut day);
    spec(&mut day);
    wrong_finished(&mut day);
    all_in_one_datagram(&mut day);
    short_messages(&mut day);
    bad_lines(&mut day);
    barred(&mut day);
    storedsets::hellos(&mut day);
    storedreboots::lines(&mut day);
    storedwhys::lines(&mut day);
    day
}

fn before_the_connection(day: &mut Script) {
    day.heading("before there is a connection");
    day.line("close");
    day.line("start");
    day.line("send 00 14");
    day.line("receive 44000000 808182838485868788898a8b8c8d8e8f 128");
    day.line("alert clear 1 0 - 9");
    day.line("message 06050400010002 808182838485868788898a8b8c8d8e8f 128");
    day.line("drop 1");
    day.line("fresh a0a1a2a3a4a5a6 303132333435363738393a3b3c3d3e3f40414243 32");
    day.line("fresh a0a1a2a3a4a5a6a7 - 32");
    mac_kinds(day);
}

fn mac_kinds(day: &mut Script) {
    day.heading(
        "the MAC kinds: an unknown edition, each number of both lists, lines that ask for none",
    );
    for edition in ["0", "3", "255"] {
        day.line(&format!("mac {edition} 2"));
    }
    for number in [0, 1, 2, 3, 4, 5, 6, 7, 8, 255] {
        day.line(&format!("mac 1 {number}"));
        day.line(&format!("mac 2 {number}"));
    }
    for bad in ["mac", "mac 1", "mac 256 1", "mac 1 256", "mac 1 2 3", "mac 01 2", "mac 1 -"] {
        day.line(bad);
    }
}

fn idle(day: &mut Script) {
    day.heading("morning: a fresh connection, and what Idle does not allow");
    day.fresh();
    day.line("start");
    day.line("send 00 14");
    day.line("alert clear 1 0 - 9");
    day.line("alert protected 1 0 - 19");
    day.receive(&[0x41, 0, 1, 1]);
    day.receive(&[0x42, 0, 0, 1, 0, 0, 0, 0, 0]);
    day.receive(&[&[0x63, 0, 0][..], &[7; 25]].concat());
    day.receive(&[0x43, 0, 0, 20, 0, 0]);
    day.line("fresh a0a1a2a3a4a5a6a7a8 303132333435363738393a3b3c3d3e3f40414243 32");
}

fn replied(day: &mut Script) {
    day.heading(
        "the unit says hello with SHA_80 and refresh 3; the reply is lost; it says it again",
    );
    let hello = day.hello_datagram(0x10, Kind::Sha80, 3);
    day.receive(&hello);
    day.receive(&hello);
    let message = day.unit.last_hello().to_vec();
    let renumbered = day.unit.clear(Content::Handshake, true, 9, &message);
    day.receive(&renumbered);
    let later = [day.unit.clear(Content::Alert, true, 2, &[1]), hello].concat();
    day.receive(&later);
    day.heading("a warning each way, a false change cipher spec, protected records too early");
    day.clear_alert(1, 90);
    day.receive(&[0x41, 0, 1, 2]);
    day.receive(&[0x41, 0, 1, 1, 1]);
    day.data(1, "too early");
    day.send("alert clear 1 11 - 9");
    day.clear_alert(1, 90);
    day.line("send 00 2048");
}

fn open_with_sha_80(day: &mut Script) {
    day.heading("change cipher spec and Finished open the connection");
    day.flight();
    day.heading("the flight once more: 8, 11; then data, and the Finished under a new number");
    let mut again = day.unit.flight().expect("a reply was heard");
    day.receive(&again);
    again = day.unit.clear(Content::ChangeCipherSpec, true, 1, &[1]);
    again.extend(day.part(Content::Handshake, 0, &day.finished_message()));
    again.extend(day.record(Content::Data, 1, b"noon position"));
    day.receive(&again);
    let finished = day.finished_message();
    day.protected(Content::Handshake, 2, &finished);
}

fn loss_and_refresh(day: &mut Script) {
    day.heading("3 to 6 are lost, 7 to 9 arrive, 6 and 4 come late, from before the refresh at 8");
    day.data(7, "seven");
    day.data(8, "eight");
    day.data(9, "nine");
    day.data(6, "six");
    day.data(4, "four");
    day.heading("repetition: 6, 9; a gap to 38; then 6 is too old, 7 repeated, 11 new, 5 too old");
    day.data(6, "six");
    day.data(9, "nine");
    day.data(38, "thirty-eight");
    for number in [6, 7, 11, 5] {
        day.data(number, "late");
    }
}

fn forged(day: &mut Script) {
    day.heading(
        "forged: a bit of the code, of the content, of the number; 65535; too short for a code",
    );
    let mut record = day.record(Content::Data, 39, b"true");
    let last = record.len() - 1;
    record[last] ^= 1;
    day.receive(&record);
    record[last] ^= 1;
    record[3] ^= 0x20;
    day.receive(&record);
    record[3] ^= 0x20;
    record[2] ^= 8;
    day.receive(&record);
    record[1..3].copy_from_slice(&[255, 255]);
    day.receive(&record);
    day.receive(&[0x64, 0, 39, 1, 2, 3, 4, 5, 6, 7, 8, 9]);
    day.heading("the code covers the type byte: without its length field the record is another");
    let mut with_length = day.part(Content::Data, 39, b"true");
    with_length.drain(3..5);
    with_length[0] &= 0x7f;
    day.receive(&with_length);
    day.heading("39 itself is still new");
    day.data(39, "true");
}

fn unsound_datagrams(day: &mut Script) {
    day.heading("unsound datagrams: 1, 1, 2, 2, 3, 3, 3, 3, 4, 4, 4, and 4 behind a good record");
    day.receive(&[]);
    day.receive(&[0x64; 1401]);
    day.receive(&[0x64, 0]);
    day.receive(&[0xe4, 0, 1, 0]);
    day.receive(&[0x54, 0, 1, 9]);
    day.receive(&[0x24, 0, 1, 9]);
    day.receive(&[0x45, 0, 1, 9]);
    day.receive(&[0x40]);
    day.receive(&[0x64, 0, 1]);
    day.receive(&[0xe4, 0, 1, 0, 0, 9]);
    day.receive(&[0xe4, 0, 1, 0, 2, 9]);
    let mut datagram = day.part(Content::Data, 40, b"forty");
    datagram.extend([0xe4, 0, 1, 0, 2, 9]);
    day.receive(&datagram);
    day.heading("a random of 15 bytes, then a room of 127");
    let record = word(&day.record(Content::Data, 40, b"forty"));
    day.line(&format!("receive {record} 808182838485868788898a8b8c8d8e 128"));
    day.line(&format!("receive {record} 808182838485868788898a8b8c8d8e8f 127"));
    day.line("receive - 80 0");
}

fn several_records(day: &mut Script) {
    day.heading("eight records in one datagram, one number twice; then nine; then the largest");
    let mut eight = Vec::new();
    for number in [40, 41, 41, 43, 42, 44, 45] {
        eight.extend(day.part(Content::Data, number, b"part"));
    }
    let nine = [eight.clone(), day.part(Content::Data, 46, b"part"), vec![0]].concat();
    eight.extend(day.record(Content::Data, 46, b"the rest of the datagram"));
    day.receive(&eight);
    day.receive(&nine);
    day.protected(Content::Data, 47, &[0x5a; 1387]);
}

fn malformed_under_protection(day: &mut Script) {
    day.heading("genuine but malformed: 12 marks the number, so the same number is repeated");
    day.data(50, "");
    day.data(50, "fifty");
    day.protected(Content::ChangeCipherSpec, 51, &[1]);
    let hello = day.unit.last_hello().to_vec();
    day.protected(Content::Handshake, 52, &hello);
    let finished = day.finished_message();
    day.protected(Content::Handshake, 53, &finished[..14]);
    day.protected(Content::Alert, 54, &[1, 90, 0, 0, 0]);
    day.protected(Content::Alert, 55, &[0, 90, 0, 0, 0, 0]);
    day.protected(Content::Alert, 56, &[1, 41, 0, 0, 0, 0]);
    day.protected(Content::Alert, 57, &[1, 90, 0, 0, 0, 0]);
}

fn clear_in_open(day: &mut Script) {
    day.heading(
        "clear records in Open: its own hello gets the reply again, 12 is malformed, all else 8",
    );
    let message = day.unit.last_hello().to_vec();
    day.stray_hello(&message);
    day.stray_hello(&[1]);
    let mut datagram = day.part(Content::Data, 58, b"before");
    datagram.extend(day.unit.clear(Content::Handshake, true, 0, &message));
    datagram.extend(day.record(Content::Data, 59, b"after"));
    day.receive(&datagram);
    day.clear_alert(2, 40);
    day.clear_alert(3, 40);
    day.receive(&[0x41, 0, 1, 1]);
    day.receive(&[0x43, 0, 1, 20, 0, 0]);
    day.receive(&[0x44, 0, 1, 9]);
}

fn shore_sends(day: &mut Script) {
    day.heading("the shore sends: exact rooms, one byte less, arguments out of range");
    day.send("send 6f6b 15");
    day.send("send 6f6b 14");
    day.send("send - 2048");
    day.send(&format!("send {} 1313", "5a".repeat(1300)));
    day.send(&format!("send {} 2048", "5a".repeat(1301)));
    day.send("alert protected 1 57 640001aabb 19");
    day.send("alert protected 3 20 - 18");
    day.send("alert protected 3 20 - 19");
    day.send("alert clear 1 0 - 9");
    day.send("alert protected 0 0 - 19");
    day.send("alert protected 1 2 - 19");
    day.send(&format!("alert protected 1 0 {} 19", "5a".repeat(1400)));
    day.send(&format!("alert protected 1 0 {} 19", "5a".repeat(1401)));
}

fn critical_closes(day: &mut Script) {
    day.heading("data, a protected critical alert, data: the last is 7; Closed takes nothing");
    let content = day.unit.alert(2, 80);
    let mut datagram = day.part(Content::Data, 60, b"last words");
    datagram.extend(day.part(Content::Alert, 61, &content));
    datagram.extend(day.record(Content::Data, 62, b"too late"));
    day.receive(&datagram);
    day.data(63, "too late");
    day.receive(&[0x64, 0]);
    day.line("send 00 14");
    day.line("alert protected 1 0 - 19");
    day.line("alert clear 1 0 - 9");
    day.line("send - 0");
    day.line("close");
    day.line("start");
    day.line("start");
}

fn hellos(day: &mut Script) {
    day.heading("noon: hellos that are malformed (12) or not acceptable (13)");
    let plain = day.plain(0x20, Kind::Sha, 0);
    let mut wrong = Vec::new();
    let mut with = |change: &dyn Fn(&mut Hello)| {
        let mut hello = plain.clone();
        change(&mut hello);
        wrong.push(hello.message());
    };
    with(&|hello| hello.session.push(0));
    with(&|hello| hello.suites.push(0));
    with(&|hello| hello.suites.clear());
    with(&|hello| hello.compressions.clear());
    with(&|hello| hello.client_key_ids.push(entry(Identifier::Unknown(3, vec![1, 1]))));
    with(&|hello| hello.trusted_key_ids.push(entry(Identifier::Binary(Vec::new()))));
    with(&|hello| hello.client_key_ids.push(explicit(212)));
    with(&|hello| hello.version = 2);
    with(&|hello| hello.session[7] ^= 1);
    with(&|hello| hello.session.clear());
    with(&|hello| hello.suites = vec![0, 1, 1, 2]);
    with(&|hello| hello.compressions = vec![1]);
    with(&|hello| hello.numbering = 1);
    with(&|hello| hello.numbering = 3);
    for message in wrong {
        day.stray_hello(&message);
    }
    day.stray_hello(&[plain.message(), vec![0]].concat());
    day.stray_hello(&plain.message()[..39]);
    acceptable_hellos(day);
}

fn acceptable_hellos(day: &mut Script) {
    day.heading(
        "acceptable ones: every identifier, explicit parameters, 256 bytes; each a new reply",
    );
    let mut hello = day.plain(0x30, Kind::Sha, 16);
    hello.client_key_ids = vec![
        entry(Identifier::Null),
        entry(Identifier::Text { character_set: 106, name: b"unit 7".to_vec() }),
        entry(Identifier::KeyHash(vec![6; 20])),
    ];
    hello.trusted_key_ids = vec![
        entry(Identifier::Binary(vec![9])),
        entry(Identifier::X509Name(b"CN=shore".to_vec())),
        explicit(0),
    ];
    hello.suites = vec![1, 2, 0, 7, 0, 3, 0, 2];
    hello.compressions = vec![9, 0];
    let lists = day.unit.say_hello(&hello.message());
    day.receive(&lists);
    let mut largest = day.plain(0x40, Kind::Sha, 255);
    largest.client_key_ids.push(explicit(211));
    let datagram = day.unit.say_hello(&largest.message());
    day.receive(&datagram);
    day.heading(
        "the first of them again is another hello, not a resent one; then the last, 0 refresh",
    );
    let datagram = day.unit.say_hello(&hello.message());
    day.receive(&datagram);
    day.hello(0x20, Kind::Sha, 0);
}

fn entry(identifier: Identifier) -> KeyId {
    KeyId { suite: 5, parameters: Parameters::Index(1), identifier }
}

fn explicit(size: usize) -> KeyId {
    let parameters = Parameters::Explicit(vec![3; size]);
    KeyId { suite: 5, parameters, identifier: Identifier::Null }
}

fn clear_alerts(day: &mut Script) {
    day.heading("clear alerts in Replied: malformed 12, another checksum 14, zeros 14, warning");
    day.receive(&[0x42, 0, 2, 1, 90, 0, 0, 0]);
    day.receive(&[0x42, 0, 2, 4, 90, 0, 0, 0, 0]);
    day.receive(&[0x42, 0, 2, 1, 58, 0, 0, 0, 0]);
    day.receive(&[0x42, 0, 2, 2, 90, 1, 2, 3, 4]);
    day.receive(&[0x42, 0, 2, 2, 90, 0, 0, 0, 0]);
    day.clear_alert(1, 100);
    day.heading("the last record that we sent is now our alert; a resent reply does not count");
    day.send("alert protected 1 11 - 29");
    let message = day.unit.last_hello().to_vec();
    let sent = day.unit.alert(2, 90);
    let mut datagram = day.unit.clear(Content::Handshake, true, 0, &message);
    datagram.extend(wire::write(wire::type_byte(Content::Alert, false, false), 2, &sent));
    day.receive(&datagram);
    day.line("start");
    day.heading("a clear fatal alert closes, and bars nothing");
    day.hello(0x21, Kind::Sha, 0);
    day.clear_alert(3, 40);
    day.line("start");
}

fn earlier_records(day: &mut Script) {
    day.heading(
        "a clear alert may be about any of the last eight records since the start, not the ninth",
    );
    let first = day.hello(0x23, Kind::Sha, 0);
    let mut sums = sums_of(&first);
    for _ in 0..5 {
        sums.insert(0, sums_of(&day.send("alert clear 1 90 - 9"))[0]);
    }
    sums.iter().for_each(|sum| about(day, *sum));
    day.send("alert protected 1 90 - 29");
    about(day, sums[7]);
    about(day, sums[6]);
    day.heading(
        "a new reply forgets none of them, a start all; our change cipher spec is always the same",
    );
    day.hello(0x24, Kind::Sha, 0);
    about(day, sums[3]);
    about(day, sums[4]);
    day.line("close");
    day.line("start");
    day.hello(0x25, Kind::Sha, 0);
    about(day, sums[0]);
    day.receive(&[0x42, 0, 0, 2, 40, 0xc0, 1, 1, 0]);
    day.line("start");
}

/// The checksums of the records that the shore sent, the latest first.
fn sums_of(lines: &[String]) -> Vec<[u8; 4]> {
    let out = lines.iter().find_map(|line| line.strip_prefix("out ")).expect("something is sent");
    let out = hex::read(out.as_bytes()).expect("the model writes hex");
    let records = wire::frame(&out).expect("the model writes records");
    let sum = |record: &wire::Record| alert::checksum(&out[record.start..record.fragment.end]);
    records.iter().rev().map(sum).collect()
}

/// A clear warning with this checksum.
fn about(day: &mut Script, sum: [u8; 4]) {
    let content = alert::write(1, 90, sum);
    day.receive(&wire::write(wire::type_byte(Content::Alert, false, false), 2, &content));
}

fn spec(day: &mut Script) {
    day.heading(
        "Spec: data and change cipher spec 8, a resent hello, a clear warning, the shore's alerts",
    );
    day.hello(0x22, Kind::Sha, 0);
    day.receive(&[0x41, 0, 1, 1]);
    day.data(0, "not yet");
    day.protected(Content::ChangeCipherSpec, 0, &[1]);
    day.receive(&[0x41, 0, 1, 1]);
    let message = day.unit.last_hello().to_vec();
    day.stray_hello(&message);
    day.clear_alert(1, 90);
    day.send("alert clear 2 80 430000 9");
    day.send("alert protected 1 80 430000 29");
    day.line("send 00 24");
    day.heading("a warning under 40 leaves Finished 0 too old; Finished 41 opens");
    day.protected_alert(40, 1, 90);
    let finished = day.finished_message();
    day.protected(Content::Handshake, 0, &finished);
    day.protected(Content::Handshake, 41, &finished);
    day.data(42, "open with SHA, every number its own key");
    day.data(10, "forty-two less thirty-two");
    day.data(11, "the oldest that is not too old");
    day.data(65535, "the last number");
    day.send("send 6f6b 25");
    day.line("close");
    day.line("start");
}

fn wrong_finished(day: &mut Script) {
    day.heading("a genuine Finished with wrong contents closes, in Spec and in Open");
    for (first, open) in [(0x23, false), (0x24, true)] {
        day.hello(first, Kind::Sha80, 15);
        if open {
            day.flight();
        } else {
            day.receive(&[0x41, 0, 1, 1]);
        }
        let mut finished = day.finished_message();
        finished[14] ^= 1;
        day.protected(Content::Handshake, 5, &finished);
        day.line("start");
    }
    day.heading("a new hello in Spec goes back to Replied; the old keys are gone");
    day.hello(0x25, Kind::Sha, 3);
    day.receive(&[0x41, 0, 1, 1]);
    day.protected_alert(7, 1, 90);
    let old = day.unit.finished(false, 8).expect("a reply was heard");
    day.hello(0x26, Kind::Sha80, 3);
    day.receive(&[0x41, 0, 1, 1]);
    day.receive(&old);
    day.heading("a protected critical alert closes Spec too");
    day.protected_alert(0, 2, 51);
    day.line("start");
}

/// The unit guesses the random that the shore is about to be lent.
fn all_in_one_datagram(day: &mut Script) {
    day.heading("a whole handshake in one datagram");
    let hello = day.hello_datagram(0x27, Kind::Sha, 1);
    let message = day.unit.last_hello().to_vec();
    let mut rehearsal = Shore::fresh(day.session(), &secret(), 32).expect("sizes");
    let random = day.next_random();
    let heard = rehearsal.receive(&hello, &random, 128, &mut Tally::default());
    if let Received::Records { out: Some(reply), .. } = heard {
        day.unit.hear_reply(&reply).expect("the unit reads the model's reply");
    }
    let mut datagram = day.unit.clear(Content::Handshake, true, 0, &message);
    datagram.extend(day.unit.clear(Content::ChangeCipherSpec, true, 1, &[1]));
    datagram.extend(day.part(Content::Handshake, 0, &day.finished_message()));
    datagram.extend(day.record(Content::Data, 1, b"all at once"));
    day.receive(&datagram);
}

/// A short message with ports 9,202 and 49,153, and a place: reference, total, place.
fn short_message(place: Option<[u8; 3]>, part: &[u8]) -> Vec<u8> {
    let ports = [5, 4, 0x23, 0xf2, 0xc0, 1];
    match place {
        None => [&[6], &ports[..], part].concat(),
        Some(place) => [&[11], &ports[..], &[0, 3], &place[..], part].concat(),
    }
}

fn short_messages(day: &mut Script) {
    day.heading(
        "a flag with short messages only: a report in two parts, the second first and twice",
    );
    let report = day.record(Content::Data, 12, b"position by short message");
    day.message(&short_message(Some([7, 2, 2]), &report[10..]));
    day.message(&short_message(Some([7, 2, 2]), &report[10..]));
    day.message(&short_message(Some([7, 2, 2]), b"other bytes"));
    day.message(&short_message(Some([7, 3, 1]), &report[..10]));
    day.message(&short_message(Some([7, 2, 1]), &report[..10]));
    day.heading("one alone, one of total 1, both while a reference waits; a late copy waits anew");
    day.message(&short_message(Some([7, 2, 1]), &report[..10]));
    let report = day.record(Content::Data, 13, b"single");
    day.message(&short_message(None, &report));
    day.message(&short_message(Some([7, 1, 1]), &report));
    day.line("drop 9");
    day.line("drop 7");
    day.heading("no ports; an element past its end; of wrong length; total 12; place 0; nothing");
    for message in [
        &[5, 0, 3, 9, 2, 1, 0x64][..],
        &[6, 5, 5, 0, 1, 0, 2],
        &[5, 5, 3, 0, 1, 0],
        &[11, 5, 4, 0, 1, 0, 2, 0, 3, 9, 12, 1],
        &[11, 5, 4, 0, 1, 0, 2, 0, 3, 9, 2, 0],
        &[],
    ] {
        day.message(message);
    }
    day.heading("four references wait, a fifth finds no room; dropped, it does");
    for reference in [200, 3, 90, 4, 5] {
        day.message(&short_message(Some([reference, 2, 1]), &[0x64; 100]));
    }
    day.line("drop 90");
    day.message(&short_message(Some([5, 11, 11]), &[]));
    day.heading("1,401 bytes together drop the reference; a gathered datagram that is refused too");
    day.message(&short_message(Some([3, 2, 2]), &[0x64; 1301]));
    day.message(&short_message(Some([4, 2, 2]), &[0x64; 100]));
    day.message(&short_message(None, &[]));
    day.message(&short_message(Some([1, 2, 2]), &[]));
    day.message(&short_message(Some([1, 2, 1]), &[]));
    day.heading("16 and 6 leave the gathering; so do a close and a start");
    let last = short_message(Some([200, 2, 2]), &[0x64]);
    day.line(&format!("message {} 00 128", word(&last)));
    day.line(&format!("message {} {} 127", word(&last), word(&day.next_random())));
    day.line("close");
    day.line("start");
    day.message(&last);
    day.line("close");
    day.line("start");
    day.heading("a handshake by short messages");
    let hello = day.hello_datagram(0x29, Kind::Sha80, 3);
    day.message(&short_message(Some([31, 2, 1]), &hello[..20]));
    day.message(&short_message(Some([31, 2, 2]), &hello[20..]));
    let flight = day.unit.flight().expect("a reply was heard");
    day.message(&short_message(None, &flight));
}

fn bad_lines(day: &mut Script) {
    day.heading("bad lines");
    for line in [
        "",
        " ",
        "close ",
        " close",
        "close\r",
        "Close",
        "stop",
        "close close",
        "send 00",
        "send 0 14",
        "send 0A 14",
        "send 00 2049",
        "send 00 014",
        "send 00 +14",
        "send 00 1000000000",
        "send  14",
        "receive 00 00",
        "fresh -",
        "alert open 1 0 - 9",
        "alert clear 256 0 - 9",
        "alert clear 1 256 - 9",
        "alert clear 01 0 - 9",
        "message 00 00",
        "message 00 00 2049",
        "drop",
        "drop 256",
        "drop 0 0",
    ] {
        day.line(line);
    }
    day.line(&format!("send {} 2048", "0".repeat(8183)));
    day.heading("a line of 8,192 bytes is read");
    day.line(&format!("send {} 2048", "0".repeat(8182)));
}

fn barred(day: &mut Script) {
    day.heading("evening: a protected fatal alert bars the session, data behind it is 7");
    let content = alert::write(3, 20, [0; 4]);
    let mut datagram = day.part(Content::Alert, 3, &content);
    datagram.extend(day.record(Content::Data, 4, b"unheard"));
    day.receive(&datagram);
    day.receive(&datagram);
    day.receive(&[0x54, 0, 1, 9]);
    day.line("send 00 24");
    day.line("alert clear 1 0 - 9");
    day.line("start");
    day.line("close");
    day.line("fresh - - 32");
    day.heading("a fresh connection is the caller's to make");
    day.fresh();
    day.hello(0x28, Kind::Sha80, 0);
    day.flight();
    day.data(1, "good night");
    day.line("close");
    store_and_forward(day);
}

/// The other routing: reports come forty places late, and the window is as wide as can be.
fn store_and_forward(day: &mut Script) {
    day.heading("widths: 31, 65 and 288 are none, 40 is one, 64 is the widest");
    for width in [31, 65, 288, 40, 64] {
        day.fresh_of(width);
    }
    day.hello(0x29, Kind::Sha, 2);
    day.flight();
    day.heading("41 to 44 before 1 to 4, which come forty places late; 1 again; then 65 and 66, and 2 to 4 again");
    for number in [41, 42, 43, 44, 1, 2, 3, 4, 1, 65, 66, 2, 3, 4] {
        day.data(number, "late");
    }
    day.heading(
        "a jump of the width leaves the one mark, and the width stays over close and start again",
    );
    day.data(130, "far");
    day.line("close");
    day.line("start");
    day.hello(0x2a, Kind::Sha, 2);
    day.flight();
    day.data(63, "new");
    day.data(0, "again");
}

/// A day on which the clear and then the protected sending numbers are spent, and then the clear ones
/// of a started handshake: 197,000 lines.
pub fn long_day() -> String {
    let mut day = Script::new(&session(), &secret());
    day.heading("clear numbers 2 to 65,535, then 15; 16 comes before it, 6 behind it");
    day.fresh();
    day.hello(0x10, Kind::Sha80, 0);
    for _ in 2..65536 {
        day.line("alert clear 1 0 - 9");
    }
    for line in ["alert clear 1 0 - 9", "alert clear 1 0 - 0", "alert clear 1 2 - 9"] {
        day.line(line);
    }
    day.heading("protected numbers 1 to 65,535, then 15; nothing closes");
    day.flight();
    for _ in 1..65536 {
        day.line("send 2a 14");
    }
    for line in ["send 2a 14", "send 2a 13", "send - 14", "alert protected 1 0 - 19"] {
        day.line(line);
    }
    day.data(1, "still open");
    day.heading("a started handshake counts by itself: 2 to 65,535, then 15, and 8 in its place");
    day.hello(0x11, Kind::Sha, 0);
    for _ in 2..65537 {
        day.line("alert clear 1 0 - 9");
    }
    day.line("send 2a 14");
    day.flight();
    day.line("send 2a 24");
    day.line("alert clear 1 0 - 9");
    day.heading("a new reply counts from the start again");
    day.line("close");
    day.line("start");
    day.hello(0x12, Kind::Sha, 0);
    day.flight();
    day.line("send 2a 24");
    day.input().to_string()
}
