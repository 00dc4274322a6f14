//! The stored day's reboots: a unit that lost its power says hello while its connection is open.

use crate::alert;
use crate::handshakes::secret;
use crate::keys::Kind;
use crate::script::Script;
use crate::shore::{Received, Shore, Tally};
use crate::unit::Connection;
use crate::wire::{self, Content};

pub fn lines(day: &mut Script) {
    day.heading("a unit that rebooted: SHA_80 before, SHA afterwards");
    day.fresh();
    day.hello(0x10, Kind::Sha80, 3);
    day.flight();
    day.data(1, "before the power loss");
    let before = replied(day);
    spec(day, &before);
    dropped(day);
    racing(day);
    equal_keys(day);
    closed(day);
    at_once(day);
    barred(day);
}

/// Beside the open connection; gives what the unit knew before.
fn replied(day: &mut Script) -> Connection {
    day.heading("hello again: a reply, and the open connection goes on under its own numbers");
    let before = day.reboot(0x50, Kind::Sha, 0);
    day.under(&before, |day| {
        day.data(2, "still open");
        day.send("send 6f6b 15");
        day.send("alert protected 1 90 - 19");
    });
    day.heading(
        "each hello gets its own reply again; malformed 12, not acceptable 13, behind another 8",
    );
    let open = wire::write(0xc3, 7, &before.hello);
    day.stranger(&open);
    let started = day.unit.last_hello().to_vec();
    day.stray_hello(&started);
    day.stranger(&wire::write(0x43, 0, &started[..20]));
    let mut version = started.clone();
    version[3] = 2;
    day.stranger(&wire::write(0x43, 0, &version));
    day.stranger(&[&[0xc1, 0, 1, 0, 1, 2][..], &open].concat());
    day.heading(
        "the new keys count for nothing yet: 9; its clear alerts 12, 14, a warning; ours from 2",
    );
    let finished = day.finished_message();
    day.data(1, "too soon");
    day.protected(Content::Handshake, 0, &finished);
    day.protected_alert(1, 2, 40);
    day.receive(&[0x42, 0, 2, 1, 58, 0, 0, 0, 0]);
    day.receive(&[0x42, 0, 2, 2, 90, 1, 2, 3, 4]);
    day.clear_alert(1, 90);
    day.send("alert clear 1 11 - 8");
    day.send("alert clear 1 11 - 9");
    before
}

fn spec(day: &mut Script, before: &Connection) {
    day.heading("a false change cipher spec 12, the true one, once more 8; still nothing but handshake records");
    day.receive(&[0x41, 0, 1, 2]);
    day.receive(&[0x41, 0, 1, 1]);
    day.receive(&[0x41, 0, 1, 1]);
    day.data(1, "too soon");
    day.protected_alert(1, 3, 40);
    day.protected(Content::ChangeCipherSpec, 1, &[1]);
    day.clear_alert(1, 90);
    day.heading("a Finished of before is heard again by the open one; its data is handed out");
    day.under(before, |day| {
        day.data(3, "still open");
        let finished = day.finished_message();
        day.protected(Content::Handshake, 4, &finished);
        day.protected(Content::Handshake, 4, &finished);
        day.protected(Content::Handshake, 5, &finished[..14]);
    });
    day.heading(
        "under the new keys: 12 marks, 11, 10, and none of them is tried again under the old",
    );
    let finished = day.finished_message();
    day.protected(Content::Handshake, 60, &finished[..14]);
    day.protected(Content::Handshake, 60, &finished);
    day.protected(Content::Handshake, 28, &finished);
    day.heading(
        "the right Finished takes the open one's place; what comes late under the old keys is 9",
    );
    day.protected(Content::Handshake, 29, &finished);
    day.under(before, |day| day.data(6, "too late"));
    day.data(61, "back again");
    day.data(29, "twice");
    day.send("send 6f6b 25");
    day.send("alert clear 1 0 - 9");
    day.heading("the alerts of before may still be named, and the hello of before is another one");
    day.stranger(&wire::write(0x43, 0, &before.hello));
    day.receive(&[0x42, 0, 2, 2, 40, 0xc0, 1, 1, 0]);
}

/// A started one that is closed: the open one goes on.
fn dropped(day: &mut Script) {
    day.heading(
        "a clear critical or fatal alert drops the started one, and so does 17 under its keys",
    );
    let open = day.connection();
    for (first, level) in [(0x51, 2), (0x52, 3)] {
        day.hello(first, Kind::Sha80, 3);
        day.clear_alert(level, 40);
        day.under(&open, |day| day.data(62 + u16::from(level), "still open"));
        day.unit.exchange(open.clone());
    }
    day.reboot(0x53, Kind::Sha80, 3);
    day.receive(&[0x41, 0, 1, 1]);
    let mut wrong = day.finished_message();
    wrong[14] ^= 1;
    day.protected(Content::Handshake, 0, &wrong);
    let right = day.finished_message();
    day.protected(Content::Handshake, 1, &right);
    day.under(&open, |day| day.data(66, "still open"));
    day.unit.exchange(open);
}

/// Two hellos racing, of which one is a stranger's.
fn racing(day: &mut Script) {
    day.heading("a stranger's hello between: the flight finds other keys; hello, flight, open");
    let open = day.reboot(0x54, Kind::Sha80, 3);
    let hello = day.plain(0x60, Kind::Sha, 1).message();
    day.stranger(&wire::write(0x43, 0, &hello));
    day.flight();
    day.under(&open, |day| day.data(67, "still open"));
    day.hello(0x54, Kind::Sha80, 3);
    day.flight();
    day.data(1, "back again");
    day.heading("the flight once more: 8, 11; rebooted twice: the second hello counts");
    day.flight();
    day.reboot(0x55, Kind::Sha, 2);
    let first = day.reboot(0x56, Kind::Sha80, 2);
    day.receive(&[0x41, 0, 1, 1]);
    let late = day.under(&first, |day| day.unit.finished(false, 0).expect("a reply was heard"));
    day.receive(&late);
    let finished = day.finished_message();
    day.protected(Content::Handshake, 0, &finished);
}

/// The caller lends an old random, and the hello has the old random too.
fn equal_keys(day: &mut Script) {
    day.heading("equal keys: the started one still goes first");
    let open = day.connection();
    let mut hello = day.plain(0x56, Kind::Sha80, 2);
    hello.compressions.push(1);
    let datagram = day.unit.say_hello(&hello.message());
    day.receive_with(&datagram, &open.keys.server_random);
    day.data(3, "right under both, and the open one's");
    day.receive(&[0x41, 0, 1, 1]);
    day.data(4, "right under both, and the open one's");
    day.under(&open, |day| {
        let finished = day.finished_message();
        day.protected(Content::Handshake, 5, &finished)
    });
    day.under(&open, |day| {
        let finished = day.finished_message();
        day.protected(Content::Handshake, 5, &finished)
    });
    day.receive_with(&datagram, &open.keys.server_random);
    day.flight();
    day.data(3, "in an empty window");
}

fn closed(day: &mut Script) {
    day.heading("closing ends both: by a call, by 17 and by a critical alert under the open keys");
    let open = day.reboot(0x57, Kind::Sha, 0);
    day.line("close");
    day.flight();
    day.line("start");
    day.under(&open, |day| day.line("alert clear 1 0 - 9"));
    for (first, critical) in [(0x58, true), (0x59, false)] {
        day.hello(first, Kind::Sha, 4);
        day.flight();
        let open = day.reboot(first + 8, Kind::Sha80, 4);
        day.receive(&[0x41, 0, 1, 1]);
        day.under(&open, |day| match critical {
            true => day.protected_alert(1, 2, 40),
            false => {
                let mut wrong = day.finished_message();
                wrong[3] ^= 1;
                day.protected(Content::Handshake, 1, &wrong)
            }
        });
        day.line("start");
    }
}

/// The unit guesses the random that the shore is about to be lent.
fn at_once(day: &mut Script) {
    day.heading("a reboot in one datagram, between data of before and of after");
    day.hello(0x62, Kind::Sha, 1);
    day.flight();
    let before = day.connection();
    let hello = day.hello_datagram(0x63, Kind::Sha80, 1);
    let message = day.unit.last_hello().to_vec();
    let mut rehearsal = Shore::fresh(day.session(), &secret(), 32).expect("sizes");
    let random = day.next_random();
    let heard = rehearsal.receive(&hello, &random, 128, &mut Tally::default());
    if let Received::Records { out: Some(reply), .. } = heard {
        day.unit.hear_reply(&reply).expect("the unit reads the model's reply");
    }
    let mut datagram = day.unit.clear(Content::Handshake, true, 0, &message);
    datagram.extend(day.unit.clear(Content::ChangeCipherSpec, true, 1, &[1]));
    datagram.extend(day.under(&before, |day| day.part(Content::Data, 1, b"before")));
    datagram.extend(day.part(Content::Data, 1, b"too soon"));
    datagram.extend(day.part(Content::Handshake, 0, &day.finished_message()));
    datagram.extend(day.under(&before, |day| day.part(Content::Data, 2, b"too late")));
    datagram.extend(day.record(Content::Data, 1, b"after"));
    day.receive(&datagram);
}

fn barred(day: &mut Script) {
    day.heading("a fatal alert under the open keys bars, and the started one is gone too");
    let open = day.reboot(0x64, Kind::Sha, 0);
    let content = alert::write(3, 20, [0; 4]);
    day.under(&open, |day| day.protected(Content::Alert, 2, &content));
    day.flight();
    day.line("start");
}
