//! The one stored day of a ship: both MAC kinds, replies whole, in parts, out of order, forged and
//! wrong, HelloRequests in every state, the flight said again, loss and repetition across a refresh,
//! alerts of each level, closing and barring. Every refusal occurs but 15, which takes 65,535 sends:
//! `long_day` is for that one.
//!
//! Lines that begin with # are headings. To the console they are bad lines like any other.

use crate::day::word;
use crate::handshakes::{secret, session};
use crate::keys::Kind;
use crate::shipscript::ShipScript;
use crate::wire::Content;

const REQUEST: [u8; 3] = [0, 0, 0];
const RANDOM: &str = "101112131415161718191a1b1c1d1e1f";

pub fn day() -> String {
    written().input().to_string()
}

/// The day with the model's output beside it.
pub fn written() -> ShipScript {
    let mut day = ShipScript::new(&session(), &secret());
    before_the_ship(&mut day);
    idle(&mut day);
    hellos(&mut day);
    sent(&mut day);
    server_hellos(&mut day);
    replied(&mut day);
    spec(&mut day);
    opening(&mut day);
    open(&mut day);
    window(&mut day);
    forged(&mut day);
    unsound_datagrams(&mut day);
    malformed_under_protection(&mut day);
    critical_and_start(&mut day);
    reply_in_parts(&mut day);
    everything_in_one_datagram(&mut day);
    wrong_finished(&mut day);
    lower_refresh(&mut day);
    earlier_records(&mut day);
    clear_alerts_close(&mut day);
    bad_lines(&mut day);
    barred(&mut day);
    day
}

fn before_the_ship(day: &mut ShipScript) {
    day.heading("before there is a ship");
    day.line("close");
    day.line("start");
    day.line("again 100");
    day.line(&format!("hello {RANDOM} 02 3 100"));
    day.line("receive 430000000000 128");
    day.line("send 00 14");
    day.line("alert clear 1 0 - 9");
    day.line("fresh a0a1a2a3a4a5a6 303132333435363738393a3b3c3d3e3f40414243 32");
    day.line("fresh a0a1a2a3a4a5a6a7 - 32");
    day.line("fresh a0a1a2a3a4a5a6a7 303132333435363738393a3b3c3d3e3f40414243 31");
    day.line("fresh a0a1a2a3a4a5a6a7 303132333435363738393a3b3c3d3e3f40414243 65");
}

fn idle(day: &mut ShipScript) {
    day.heading("morning: a fresh ship, and what Idle does not allow; a HelloRequest is reported");
    day.fresh();
    day.line("start");
    day.line("again 100");
    day.line("send 00 14");
    day.line("alert clear 1 0 - 9");
    day.line("alert protected 1 0 - 19");
    day.clear(Content::Handshake, 0, &REQUEST);
    day.clear(Content::Handshake, 0, &[0]);
    day.clear(Content::Handshake, 0, &[0, 0, 1, 0]);
    day.clear(Content::Handshake, 0, &[2, 0, 0]);
    day.clear(Content::ChangeCipherSpec, 1, &[1]);
    day.clear(Content::Alert, 2, &[1, 0, 0, 0, 0, 0]);
    day.receive(&[&[0x63, 0, 0][..], &[7; 25]].concat());
    let two = [&[0xc4, 0, 0, 0, 1, 9][..], &[0x43, 0, 0, 0, 0, 0]].concat();
    day.receive(&two);
}

fn hellos(day: &mut ShipScript) {
    day.heading("hellos out of range: random, kinds, refresh; then room by one");
    let random = "101112131415161718191a1b1c1d1e";
    for (random, macs, refresh) in [
        (random, "02", "3"),
        ("-", "02", "3"),
        (RANDOM, "-", "3"),
        (RANDOM, "01", "3"),
        (RANDOM, "04", "3"),
        (RANDOM, "0202", "3"),
        (RANDOM, "020302", "3"),
        (RANDOM, "0002", "3"),
        (RANDOM, "02", "256"),
        (RANDOM, "02", "999999999"),
        (RANDOM, "02", "1000000000"),
    ] {
        day.line(&format!("hello {random} {macs} {refresh} 100"));
    }
    day.line(&format!("hello {RANDOM} 02 3 42"));
    day.line(&format!("hello {RANDOM} 0302 3 44"));
}

fn sent(day: &mut ShipScript) {
    day.heading("the hello: SHA before SHA_80, refresh 3; it is lost; it is said again");
    day.line(&format!("hello {RANDOM} 0302 3 45"));
    day.line("again 45");
    day.line("again 44");
    day.hello(0x20, &[2], 3);
    day.heading(
        "Sent: a HelloRequest is ignored; data, change cipher spec and protection are not for now",
    );
    day.clear(Content::Handshake, 0, &REQUEST);
    day.clear(Content::Handshake, 0, &[0, 0]);
    day.clear(Content::Data, 0, &[1]);
    day.clear(Content::ChangeCipherSpec, 1, &[1]);
    day.clear(Content::Handshake, 0, &[1, 0, 0]);
    day.receive(&[&[0x63, 0, 0][..], &[7; 25]].concat());
    day.line("send 00 14");
    day.line("alert protected 1 0 - 19");
    day.heading("a warning each way: about the hello, about our alert, about nothing");
    day.clear_alert(1, 90, 0);
    day.line("alert clear 1 11 - 8");
    day.line("alert clear 1 11 43 9");
    day.clear_alert(1, 90, 0);
    day.clear_alert(1, 90, 1);
    day.clear_alert(1, 90, 2);
    day.clear(Content::Alert, 2, &[1, 90, 0, 0, 0]);
    day.clear(Content::Alert, 2, &[1, 2, 0, 0, 0, 0]);
}

fn server_hellos(day: &mut ShipScript) {
    day.heading("ServerHellos: malformed, a session of nine bytes, not acceptable in each field");
    let good = day.server_hello(0x80, Kind::Sha, 3);
    let mut messages = vec![vec![2], vec![2, 0], good[..34].to_vec(), [&good[..], &[0]].concat()];
    let mut longer = [&good[..], &[0]].concat();
    longer[2] += 1;
    messages.push(longer);
    let mut nine = good.clone();
    nine.insert(21, 0xa0);
    nine[20] = 9;
    nine[2] += 1;
    messages.push(nine);
    // version, session, client key, cipher, MAC, compression, numbering, refresh
    for (place, value) in
        [(3, 2), (21, 0), (29, 1), (30, 1), (31, 4), (32, 1), (33, 1), (34, 4), (34, 255)]
    {
        let mut wrong = good.clone();
        wrong[place] = value;
        messages.push(wrong);
    }
    for message in messages {
        day.clear(Content::Handshake, 0, &message);
    }
    day.heading("an acceptable one in a later place; then first");
    let record = day.coast.clear(Content::Handshake, false, 0, &good);
    day.receive(&[&[0xc2, 0, 0, 0, 1, 1][..], &record].concat());
    day.receive(&record);
}

fn replied(day: &mut ShipScript) {
    day.heading(
        "Replied: HelloRequest, warning, protected records; another ServerHello; a wrong one",
    );
    day.clear(Content::Handshake, 0, &REQUEST);
    day.clear_alert(1, 90, 0);
    day.finished(0);
    day.data(1, "too early");
    day.line("again 45");
    day.line("alert protected 1 0 - 29");
    day.line("alert clear 1 0 - 9");
    day.line("send 00 2048");
    let other = day.server_hello(0x81, Kind::Sha80, 3);
    day.clear(Content::Handshake, 9, &other);
    let mut wrong = other;
    wrong[3] = 2;
    day.clear(Content::Handshake, 9, &wrong);
    day.heading("change cipher spec: of 2, of two bytes, right");
    day.clear(Content::ChangeCipherSpec, 1, &[2]);
    day.clear(Content::ChangeCipherSpec, 1, &[1, 1]);
    day.clear(Content::ChangeCipherSpec, 1, &[1]);
}

fn spec(day: &mut ShipScript) {
    day.heading("Spec: ignored requests, clear and protected; data and change cipher spec not yet");
    day.clear(Content::Handshake, 0, &REQUEST);
    day.protected(Content::Handshake, 3, &REQUEST);
    day.protected(Content::Handshake, 3, &REQUEST);
    day.protected(Content::Handshake, 4, &[0, 0, 0, 0]);
    day.data(5, "too early");
    day.protected(Content::ChangeCipherSpec, 5, &[1]);
    day.clear(Content::ChangeCipherSpec, 1, &[1]);
    day.alert(6, 1, 57);
    day.clear_alert(1, 0, 0);
    day.line("again 45");
    day.line("alert clear 2 0 - 9");
    day.line("alert protected 2 0 - 19");
    day.heading("warning 40, then Finished 0: too old; the reply anew from the front: it opens");
    day.alert(40, 1, 90);
    day.finished(0);
    let reply = day.reply(0x82, Kind::Sha80, 3);
    day.receive(&reply);
}

fn opening(day: &mut ShipScript) {
    day.heading("Opening: the flight again as long as nothing is known of it");
    day.line("again 34");
    day.line("again 33");
    day.line("send 7265706f7274 19");
    day.line("send 7265706f7274 18");
    day.line("alert clear 1 0 - 9");
    day.line("alert protected 1 90 - 19");
    day.line("again 2048");
    day.line(&format!("hello {RANDOM} 02 3 100"));
    day.heading("the reply once more: 8, 8, 11; requests are reported; warnings change nothing");
    let reply = day.reply(0x82, Kind::Sha80, 3);
    day.receive(&reply);
    day.clear(Content::Handshake, 0, &REQUEST);
    day.protected(Content::Handshake, 1, &REQUEST);
    day.protected(Content::Handshake, 1, &REQUEST);
    day.alert(2, 1, 90);
    day.finished(3);
    day.protected(Content::Data, 4, &[]);
    day.clear_alert(2, 0, 0);
    day.line("again 34");
    day.heading("the warning on a repeated Finished: open, and nothing to say again");
    day.alert(5, 1, 57);
    day.line("again 34");
}

fn open(day: &mut ShipScript) {
    day.heading("Open: data, requests, our own records back, Finished under a new number");
    day.data(6, "order");
    day.clear(Content::Handshake, 0, &REQUEST);
    day.protected(Content::Handshake, 7, &REQUEST);
    day.finished(8);
    day.receive(&[0x41, 0, 1, 1]);
    let reply = day.reply(0x83, Kind::Sha80, 3);
    day.receive(&reply);
    day.line("send 7265706f7274 100");
    day.line("send - 100");
    day.line("alert protected 1 0 - 19");
    day.line("alert protected 4 0 - 19");
    day.line("alert protected 1 2 - 19");
    day.line(&format!("alert protected 1 0 {} 19", "00".repeat(1401)));
    day.line(&format!("send {} 2048", "2a".repeat(1301)));
    day.line(&format!("send {} 1313", "2a".repeat(1300)));
    day.line("start");
}

fn window(day: &mut ShipScript) {
    day.heading(
        "9 to 14 are lost, 15 to 17 arrive, 14 and 12 come late, from before the refresh at 16",
    );
    for number in [15, 16, 17, 14, 12] {
        day.data(number, "order");
    }
    day.heading("14 repeated; a gap to 46; 14 too old, 15 repeated, 18 new, 13 too old");
    for number in [14, 46, 14, 15, 18, 13] {
        day.data(number, "late");
    }
}

fn forged(day: &mut ShipScript) {
    day.heading("forged: the ship's own record, a bit of the code, 65535, too short for a code");
    let sent = day.line("send 2a 14");
    let own = sent[1].strip_prefix("out ").expect("it is sent").to_string();
    day.line(&format!("receive {own} 128"));
    let mut record = day.record(Content::Data, 47, b"true");
    let last = record.len() - 1;
    record[last] ^= 1;
    day.receive(&record);
    record[last] ^= 1;
    record[1..3].copy_from_slice(&[255, 255]);
    day.receive(&record);
    day.receive(&[0x64, 0, 47, 1, 2, 3, 4, 5, 6, 7, 8, 9]);
    day.data(47, "true");
    let eight: Vec<u8> = (48..56).flat_map(|n| day.part(Content::Data, n, b"part")).collect();
    day.receive(&eight);
    day.receive(&[&eight[..], &[0]].concat());
}

fn unsound_datagrams(day: &mut ShipScript) {
    day.heading("unsound datagrams, and a room of 127");
    day.receive(&[]);
    day.receive(&[0x64; 1401]);
    day.receive(&[0x64, 0]);
    day.receive(&[0x54, 0, 1, 9]);
    day.receive(&[0x24, 0, 1, 9]);
    day.receive(&[0x64, 0, 1]);
    day.receive(&[0xe4, 0, 1, 0, 2, 9]);
    let record = word(&day.record(Content::Data, 60, b"sixty"));
    day.line(&format!("receive {record} 127"));
    day.line("receive - 127");
    day.line(&format!("receive {record} 2048"));
}

fn malformed_under_protection(day: &mut ShipScript) {
    day.heading("malformed under protection: refused with 12, and marked");
    day.protected(Content::Data, 61, &[]);
    day.protected(Content::Data, 61, b"late");
    day.protected(Content::ChangeCipherSpec, 62, &[1]);
    day.protected(Content::Handshake, 63, &[]);
    day.protected(Content::Handshake, 64, &[20, 0, 12]);
    day.protected(Content::Handshake, 65, &[2, 0, 0]);
    day.protected(Content::Handshake, 66, &[0, 0]);
    day.protected(Content::Alert, 67, &[1, 0, 0, 0, 0]);
    day.protected(Content::Alert, 68, &[4, 0, 0, 0, 0, 0]);
    day.protected(Content::Alert, 69, &[1, 41, 0, 0, 0, 0]);
}

fn critical_and_start(day: &mut ShipScript) {
    day.heading("data, critical, data in one datagram; Closed; start again");
    let datagram = [
        day.part(Content::Data, 70, b"last"),
        day.part(Content::Alert, 71, &[2, 0, 0, 0, 0, 0]),
        day.part(Content::Data, 72, b"past"),
    ];
    day.receive(&datagram.concat());
    day.line("again 34");
    day.line(&format!("hello {RANDOM} 02 3 100"));
    day.line("send 00 14");
    day.line("alert clear 1 0 - 9");
    day.receive(&[0]);
    day.clear(Content::Handshake, 0, &REQUEST);
    day.line("close");
    day.line("start");
    day.line("again 100");
}

fn reply_in_parts(day: &mut ShipScript) {
    day.heading("a reply in three datagrams, SHA, width 64; before it the parts in a wrong order");
    day.fresh_of(64);
    day.hello(0x30, &[3, 2], 0);
    let reply = day.reply(0x84, Kind::Sha, 0);
    day.receive(&reply[40..]);
    day.receive(&[&reply[40..46], &reply[..40]].concat());
    day.receive(&reply[..40]);
    day.receive(&reply[46..]);
    day.receive(&reply[40..46]);
    day.receive(&reply[46..]);
    day.line("again 44");
    day.line("again 43");
    day.data(1, "order");
    day.data(1, "order");
    day.data(65, "gap");
    day.data(2, "late");
    day.data(1, "too old");
    day.data(65535, "leap");
    day.data(65472, "edge");
    day.data(65471, "past");
    day.line("close");
    day.line("start");
}

fn everything_in_one_datagram(day: &mut ShipScript) {
    day.heading(
        "reply, request, data and a critical alert in one datagram: the flight is put out, Closed",
    );
    day.hello(0x31, &[2], 16);
    let message = day.server_hello(0x85, Kind::Sha80, 16);
    let connection = day.coast.connection_of(&message).expect("a hello was said");
    let part = |content, number, bytes: &[u8]| connection.protect(content, true, number, bytes);
    let datagram = [
        day.coast.clear(Content::Handshake, true, 0, &message),
        day.coast.clear(Content::Handshake, true, 5, &REQUEST),
        day.coast.clear(Content::ChangeCipherSpec, true, 1, &[1]),
        part(Content::Handshake, 9, &connection.finished),
        part(Content::Handshake, 10, &REQUEST),
        part(Content::Data, 11, b"order"),
        part(Content::Alert, 12, &[2, 0, 0, 0, 0, 0]),
        part(Content::Data, 13, b"past"),
    ];
    day.receive(&datagram.concat());
    day.line("start");
}

fn wrong_finished(day: &mut ShipScript) {
    day.heading("a Finished of the wrong label closes: 17; one of an older ServerHello is forged");
    day.hello(0x32, &[2], 3);
    let older = day.reply(0x86, Kind::Sha80, 3);
    let reply = day.reply(0x87, Kind::Sha80, 3);
    day.receive(&reply[..46]);
    day.receive(&older[46..]);
    let message = day.coast.connection().expect("a ServerHello was taken").mislabelled.clone();
    day.protected(Content::Handshake, 0, &message);
    day.line("again 100");
    day.line("start");
    day.heading("the same once it is open");
    day.open(0x33, Kind::Sha80, 3);
    let mut message = day.finished_message();
    message[3] ^= 1;
    day.protected(Content::Handshake, 5, &message);
    day.line("start");
}

fn lower_refresh(day: &mut ShipScript) {
    day.heading("the shore's lower refresh is used: 0 for the 5 that was offered");
    day.hello(0x34, &[2], 5);
    let reply = day.reply(0x88, Kind::Sha80, 0);
    day.receive(&reply);
    day.data(1, "one");
    day.data(31, "thirty-one");
    day.line("send 2a 100");
    day.line("close");
    day.line("start");
}

fn earlier_records(day: &mut ShipScript) {
    day.heading("alerts about each of the last eight records, and about the ninth; none from before the start");
    day.clear_alert(1, 90, 0);
    day.hello(0x35, &[2], 3);
    day.clear(Content::Alert, 2, &[1, 90, 0xc0, 1, 1, 0]);
    for description in [0, 1, 5, 10, 11, 20, 21, 22] {
        day.line(&format!("alert clear 1 {description} 43 9"));
    }
    for back in 0..9 {
        day.clear_alert(1, 90, back);
    }
    let hello = day.coast.clear(Content::Handshake, false, 0, day.coast.hello_message());
    let sum = crate::alert::checksum(&hello);
    day.clear(Content::Alert, 2, &[&[1, 90][..], &sum].concat());
}

fn clear_alerts_close(day: &mut ShipScript) {
    day.heading("clear critical and fatal alerts close a handshake, and bar nothing");
    day.clear_alert(2, 0, 3);
    day.line("start");
    day.hello(0x36, &[2], 3);
    let message = day.server_hello(0x89, Kind::Sha80, 3);
    day.clear(Content::Handshake, 0, &message);
    day.clear_alert(3, 80, 0);
    day.line("start");
    day.hello(0x37, &[2], 3);
    day.line("close");
    day.line("start");
}

fn bad_lines(day: &mut ShipScript) {
    day.heading("lines that are no calls");
    for line in [
        "",
        "close ",
        "hello",
        "hello - - 0",
        "hello - 2 0 100",
        "hello - 02 00 100",
        "hello - 02 0 2049",
        "again",
        "again 0100",
        "again 2049",
        "again 1 1",
        "receive 43",
        "receive 43 808182838485868788898a8b8c8d8e8f 128",
        "message 00 128",
        "drop 1",
        "mac 1 2",
        "set 2 -",
        "alert clear 256 0 - 9",
        "fresh - -",
    ] {
        day.line(line);
    }
}

fn barred(day: &mut ShipScript) {
    day.heading("a protected fatal alert bars the session for good");
    day.open(0x38, Kind::Sha, 255);
    day.data(1, "order");
    let fatal = day.record(Content::Alert, 2, &[3, 80, 0, 0, 0, 0]);
    day.receive(&fatal);
    for line in
        ["close", "start", "again 100", "send 00 24", "alert protected 1 0 - 29", "again 2049"]
    {
        day.line(line);
    }
    day.line(&format!("hello {RANDOM} 02 3 100"));
    day.line(&format!("hello {RANDOM} 05 3 100"));
    day.receive(&fatal);
    day.clear(Content::Handshake, 0, &REQUEST);
    day.receive(&[0]);
    day.heading("the next morning");
    day.fresh();
}

/// The day on which both sending numbers run out.
pub fn long_day() -> String {
    let mut day = ShipScript::new(&session(), &secret());
    day.heading("clear numbers 2 to 65,535, then 15; 16 comes before it, 6 behind it");
    day.fresh();
    day.hello(0x10, &[2], 0);
    for _ in 2..65536 {
        day.line("alert clear 1 0 - 9");
    }
    for line in ["alert clear 1 0 - 9", "alert clear 1 0 - 0", "alert clear 1 2 - 9", "again 43"] {
        day.line(line);
    }
    day.heading("protected numbers 1 to 65,535, then 15; nothing closes");
    let reply = day.reply(0x80, Kind::Sha80, 0);
    day.receive(&reply);
    for _ in 1..65536 {
        day.line("send 2a 14");
    }
    for line in ["send 2a 14", "send 2a 13", "send - 14", "alert protected 1 0 - 19", "again 34"] {
        day.line(line);
    }
    day.data(1, "still open");
    day.heading("a new hello counts from the start again");
    day.line("close");
    day.line("start");
    day.open(0x11, Kind::Sha, 0);
    day.line("send 2a 24");
    day.input().to_string()
}
