//! The console's worked example, and the places where the rules are easily read wrongly.

use peer::alert;
use peer::console;
use peer::handshakes::{secret, session};
use peer::hex;
use peer::keys::Kind;
use peer::script::Script;
use peer::wire::{self, Content};

/// The answers of a receive: its lines without the first, the output and the state.
fn answers(lines: &[String]) -> Vec<&str> {
    let is_answer = |line: &&String| line.as_bytes()[0].is_ascii_digit();
    lines.iter().filter(is_answer).map(|line| &line[2..]).collect()
}

fn state(lines: &[String]) -> &str {
    lines[lines.len() - 1].split(' ').nth(1).unwrap()
}

fn replied(kind: Kind) -> Script {
    let mut script = Script::new(&session(), &secret());
    script.fresh();
    script.hello(0x10, kind, 3);
    script
}

fn in_spec(kind: Kind) -> Script {
    let mut script = replied(kind);
    assert_eq!(answers(&script.receive(&[0x41, 0, 1, 1])), ["spec"]);
    script
}

fn open(kind: Kind) -> Script {
    let mut script = replied(kind);
    assert_eq!(answers(&script.flight()), ["spec", "open"]);
    script
}

#[test]
fn worked_example() {
    let input = "\
fresh a0a1a2a3a4a5a6a7 303132333435363738393a3b3c3d3e3f40414243 32
receive 43000001002501101112131415161718191a1b1c1d1e1f08a0a1a2a3a4a5a6a70000000002000201000203 808182838485868788898a8b8c8d8e8f 128
";
    let expected = "\
fresh ok
state Idle n=- marks=0000000000000000 arrived=0 sent=-,- checksum=00000000 tally=0,0,0,0 parts=- started=-
receive records 1
0 reply 74
out c30000002302002001808182838485868788898a8b8c8d8e8f08a0a1a2a3a4a5a6a7000002000203c1000100010163000014000cfa4961929527af28decdac18e8e0268c07a8c14188c6
state Replied n=- marks=0000000000000000 arrived=0 sent=1,2 checksum=e663d639 tally=0,0,0,0 parts=- started=-
";
    let mut output = Vec::new();
    console::run(input.as_bytes(), &mut output).unwrap();
    assert_eq!(String::from_utf8(output).unwrap(), expected);
}

/// A report that comes forty places late, at width 64.
#[test]
fn forty_places_late() {
    let input = "\
fresh a0a1a2a3a4a5a6a7 303132333435363738393a3b3c3d3e3f40414243 64
receive 43000001002501101112131415161718191a1b1c1d1e1f08a0a1a2a3a4a5a6a70000000002000201000203 808182838485868788898a8b8c8d8e8f 128
receive c1000100010163000014000c04ac9a5ad2e142cb90d95633ccdaaafd3f9109660126 808182838485868788898a8b8c8d8e8f 128
receive 64003272f9e2aa53987d1074a0ae 808182838485868788898a8b8c8d8e8f 128
receive 64000a72e478950895c2e7f88ba7 808182838485868788898a8b8c8d8e8f 128
receive 64000a72e478950895c2e7f88ba7 808182838485868788898a8b8c8d8e8f 128
fresh a0a1a2a3a4a5a6a7 303132333435363738393a3b3c3d3e3f40414243 65
";
    let expected = "\
0 data 3 1
state Open n=50 marks=0004000000000001 arrived=2 sent=1,2 checksum=e663d639 tally=1,0,0,0 parts=- started=-
receive records 1
0 data 3 1
state Open n=50 marks=0004010000000001 arrived=3 sent=1,2 checksum=e663d639 tally=2,0,0,0 parts=- started=-
receive records 1
0 refused 11
state Open n=50 marks=0004010000000001 arrived=3 sent=1,2 checksum=e663d639 tally=2,0,0,1 parts=- started=-
fresh refused 16
state Open n=50 marks=0004010000000001 arrived=3 sent=1,2 checksum=e663d639 tally=2,0,0,1 parts=- started=-
";
    let mut output = Vec::new();
    console::run(input.as_bytes(), &mut output).unwrap();
    let output = String::from_utf8(output).unwrap();
    assert!(output.ends_with(expected), "{output}");
}

#[test]
fn the_width_stays_over_close_and_start_again() {
    let mut script = Script::new(&session(), &secret());
    script.fresh_of(40);
    for first in [0x10, 0x11] {
        script.hello(first, Kind::Sha80, 3);
        assert_eq!(answers(&script.flight()), ["spec", "open"]);
        assert_eq!(answers(&script.data(60, "new")), ["data 3 3"]);
        assert_eq!(answers(&script.data(21, "late")), ["data 3 4"]);
        assert_eq!(answers(&script.data(20, "too late")), ["refused 10"]);
        script.line("close");
        script.line("start");
    }
}

#[test]
fn a_warning_may_outrun_the_finished() {
    let mut script = in_spec(Kind::Sha);
    assert_eq!(answers(&script.protected_alert(40, 1, 90)), ["warning 90"]);
    let finished = script.finished_message();
    let lines = script.protected(Content::Handshake, 0, &finished);
    assert_eq!((answers(&lines), state(&lines)), (vec!["refused 10"], "Spec"));
    assert_eq!(answers(&script.protected(Content::Handshake, 41, &finished)), ["open"]);
}

#[test]
fn a_resent_flight_in_open() {
    let mut script = open(Kind::Sha80);
    let mut datagram = script.unit.clear(Content::ChangeCipherSpec, true, 1, &[1]);
    datagram.extend(script.part(Content::Handshake, 0, &script.finished_message()));
    datagram.extend(script.record(Content::Data, 1, b"data"));
    assert_eq!(answers(&script.receive(&datagram)), ["refused 8", "refused 11", "data 39 4"]);
}

#[test]
fn empty_data_marks_its_number() {
    let mut script = open(Kind::Sha80);
    assert_eq!(answers(&script.data(7, "")), ["refused 12"]);
    assert_eq!(answers(&script.data(7, "data")), ["refused 11"]);
}

#[test]
fn one_number_twice_in_a_datagram() {
    let mut script = open(Kind::Sha);
    let datagram =
        [script.part(Content::Data, 9, b"one"), script.record(Content::Data, 9, b"two")].concat();
    assert_eq!(answers(&script.receive(&datagram)), ["data 5 3", "refused 11"]);
}

#[test]
fn nothing_behind_a_closing_record() {
    let mut script = open(Kind::Sha80);
    let critical = script.unit.alert(2, 80);
    let datagram = [
        script.part(Content::Data, 1, b"one"),
        script.part(Content::Alert, 2, &critical),
        script.record(Content::Data, 3, b"two"),
    ]
    .concat();
    let lines = script.receive(&datagram);
    assert_eq!(answers(&lines), ["data 5 3", "critical 80", "refused 7"]);
    assert_eq!(state(&lines), "Closed");
}

#[test]
fn a_resent_hello_with_a_critical_alert_behind_it() {
    for (kind, length) in [(Kind::Sha80, 74), (Kind::Sha, 84)] {
        let mut script = replied(kind);
        let hello = script.unit.last_hello().to_vec();
        let critical = script.unit.alert(2, 40);
        let datagram = [
            script.unit.clear(Content::Handshake, true, 0, &hello),
            script.unit.clear(Content::Alert, false, 2, &critical),
        ]
        .concat();
        let lines = script.receive(&datagram);
        assert_eq!(answers(&lines), [format!("resent {length}").as_str(), "critical 40"]);
        assert_eq!(lines[3].len(), "out ".len() + 2 * length);
        assert_eq!(state(&lines), "Closed");
    }
}

#[test]
fn a_resent_reply_does_not_use_the_random() {
    let mut script = replied(Kind::Sha80);
    let first = script.output()[4].clone();
    assert!(first.starts_with("out "));
    let message = script.unit.last_hello().to_vec();
    assert_eq!(script.stray_hello(&message)[2], first);
    assert_eq!(answers(&script.flight()), ["spec", "open"]);
}

#[test]
fn a_forged_65535_moves_nothing() {
    let mut script = open(Kind::Sha80);
    let mut forged = script.record(Content::Data, 65535, b"data");
    *forged.last_mut().unwrap() ^= 1;
    assert_eq!(answers(&script.receive(&forged)), ["refused 9"]);
    assert_eq!(answers(&script.data(1, "data")), ["data 3 4"]);
}

#[test]
fn late_records_across_a_refresh_are_genuine() {
    let mut script = open(Kind::Sha);
    for number in [17, 8, 16, 7, 15, 1] {
        assert_eq!(answers(&script.data(number, "data")), ["data 3 4"]);
    }
}

#[test]
fn a_finished_again_keeps_the_window() {
    let mut script = open(Kind::Sha);
    script.data(5, "data");
    let finished = script.finished_message();
    assert_eq!(answers(&script.protected(Content::Handshake, 6, &finished)), ["again"]);
    assert_eq!(answers(&script.data(5, "data")), ["refused 11"]);
    assert_eq!(answers(&script.protected(Content::Handshake, 6, &finished)), ["refused 11"]);
}

#[test]
fn a_wrong_finished_closes() {
    for mut script in [in_spec(Kind::Sha), open(Kind::Sha)] {
        let mut finished = script.finished_message();
        finished[3] ^= 1;
        let lines = script.protected(Content::Handshake, 9, &finished);
        assert_eq!((answers(&lines), state(&lines)), (vec!["refused 17"], "Closed"));
        assert!(lines[2].contains(" n=9 "));
    }
}

#[test]
fn clear_alerts_do_not_touch_an_open_connection() {
    let mut script = open(Kind::Sha80);
    for level in 1..=3 {
        let lines = script.clear_alert(level, 40);
        assert_eq!((answers(&lines), state(&lines)), (vec!["refused 8"], "Open"));
    }
}

#[test]
fn a_clear_fatal_alert_bars_nothing_and_a_protected_one_does() {
    let mut script = replied(Kind::Sha80);
    let lines = script.clear_alert(3, 40);
    assert_eq!((answers(&lines), state(&lines)), (vec!["fatal 40"], "Closed"));
    assert_eq!(script.line("start")[0], "start ok");
    script.hello(0x11, Kind::Sha80, 3);
    script.receive(&[0x41, 0, 1, 1]);
    let fatal = alert::write(3, 40, [9; 4]);
    let lines = script.protected(Content::Alert, 3, &fatal);
    assert_eq!((answers(&lines), state(&lines)), (vec!["barred 40"], "Barred"));
    for call in ["start", "close", "send 00 14", "alert clear 1 0 - 9"] {
        let name = call.split(' ').next().unwrap();
        assert_eq!(script.line(call)[0], format!("{name} refused 7"));
    }
    assert_eq!(script.line("send - 0")[0], "send refused 16");
    assert_eq!(script.fresh()[0], "fresh ok");
}

#[test]
fn the_reply_leaves_the_window_and_the_change_empties_it() {
    let mut script = in_spec(Kind::Sha80);
    script.protected_alert(7, 1, 90);
    let lines = script.hello(0x11, Kind::Sha, 0);
    assert!(lines.last().unwrap().contains("state Replied n=7 "));
    let lines = script.receive(&[0x41, 0, 1, 1]);
    assert!(lines.last().unwrap().contains("state Spec n=- "));
}

#[test]
fn a_replaced_hello_counts_as_another() {
    let mut script = replied(Kind::Sha80);
    assert_eq!(answers(&script.hello(0x11, Kind::Sha, 0)), ["reply 84"]);
    assert_eq!(answers(&script.hello(0x10, Kind::Sha80, 3)), ["reply 74"]);
    assert_eq!(answers(&script.hello(0x10, Kind::Sha80, 3)), ["resent 74"]);
}

#[test]
fn starting_again_keeps_the_numbers() {
    let mut script = open(Kind::Sha80);
    script.send("send 6f6b 15");
    let before = script.line("close").pop().unwrap();
    let after = script.line("start").pop().unwrap();
    assert!(before.contains(" sent=2,2 "), "{before}");
    assert!(after.starts_with("state Idle n=- marks=0000000000000000 arrived=0 sent=2,2 "));
    assert_eq!(answers(&script.hello(0x10, Kind::Sha80, 3)), ["reply 74"]);
}

/// A clear warning that carries this checksum.
fn warning(checksum: [u8; 4]) -> Vec<u8> {
    [&[0x42, 0, 2, 1, 90][..], &checksum].concat()
}

fn sent(lines: &[String]) -> Vec<u8> {
    let out = lines.iter().find_map(|line| line.strip_prefix("out ")).unwrap();
    hex::read(out.as_bytes()).unwrap()
}

/// The checksums of the three records of a reply, the latest first.
fn reply_sums(lines: &[String]) -> Vec<[u8; 4]> {
    let reply = sent(lines);
    let records = wire::frame(&reply).unwrap();
    let sum = |record: &wire::Record| alert::checksum(&reply[record.start..record.fragment.end]);
    records.iter().rev().map(sum).collect()
}

#[test]
fn a_clear_alert_may_be_about_any_of_the_last_eight_records() {
    let mut script = Script::new(&session(), &secret());
    script.fresh();
    let mut sums = reply_sums(&script.hello(0x10, Kind::Sha, 3));
    for number in 2..9 {
        for sum in &sums {
            assert_eq!(answers(&script.receive(&warning(*sum))), ["warning 90"], "{number}");
        }
        sums.insert(0, alert::checksum(&sent(&script.line("alert clear 1 90 - 9"))));
        sums.truncate(8);
    }
    let first = sums.pop().unwrap();
    script.line("alert protected 1 90 - 29");
    assert_eq!(answers(&script.receive(&warning(first))), ["refused 14"]);
    assert_eq!(answers(&script.receive(&warning(sums[6]))), ["warning 90"]);
    assert_eq!(answers(&script.receive(&warning([0; 4]))), ["refused 14"]);
}

#[test]
fn a_new_reply_adds_three_records_and_a_resent_one_none() {
    let mut script = Script::new(&session(), &secret());
    script.fresh();
    let first = reply_sums(&script.hello(0x10, Kind::Sha, 3));
    let message = script.unit.last_hello().to_vec();
    for _ in 0..4 {
        assert_eq!(answers(&script.stray_hello(&message)), ["resent 84"]);
    }
    assert_eq!(answers(&script.receive(&warning(first[2]))), ["warning 90"]);
    let second = reply_sums(&script.hello(0x11, Kind::Sha, 3));
    assert_eq!(answers(&script.receive(&warning(first[2]))), ["warning 90"]);
    script.hello(0x12, Kind::Sha, 3);
    assert_eq!(answers(&script.receive(&warning(first[2]))), ["refused 14"]);
    assert_eq!(answers(&script.receive(&warning(second[2]))), ["warning 90"]);
}

#[test]
fn a_start_forgets_the_records_sent() {
    let mut script = Script::new(&session(), &secret());
    script.fresh();
    let sums = reply_sums(&script.hello(0x10, Kind::Sha, 3));
    script.line("close");
    assert!(script.line("close")[1].contains(&format!("checksum={}", hex::write(&sums[0]))));
    assert!(script.line("start")[1].contains(" sent=1,2 checksum=00000000 "));
    script.hello(0x11, Kind::Sha, 3);
    assert_eq!(answers(&script.receive(&warning(sums[0]))), ["refused 14"]);
}

#[test]
fn who_has_seen_nothing_knows_the_change_cipher_spec() {
    let mut script = replied(Kind::Sha80);
    let fatal = [0x42, 0, 0, 3, 40, 0xc0, 1, 1, 0];
    let lines = script.receive(&fatal);
    assert_eq!((answers(&lines), state(&lines)), (vec!["fatal 40"], "Closed"));
    let mut script = open(Kind::Sha80);
    let lines = script.receive(&fatal);
    assert_eq!((answers(&lines), state(&lines)), (vec!["refused 8"], "Open"));
}

/// What stands behind `started=`.
fn started(lines: &[String]) -> &str {
    lines.last().unwrap().rsplit_once("started=").unwrap().1
}

/// The request's example: a hello beside an open connection, until its Finished replaces that.
#[test]
fn a_unit_that_rebooted() {
    let input = "\
fresh a0a1a2a3a4a5a6a7 303132333435363738393a3b3c3d3e3f40414243 32
receive 43000001002501101112131415161718191a1b1c1d1e1f08a0a1a2a3a4a5a6a70000000002000201000203 808182838485868788898a8b8c8d8e8f 128
receive c1000100010163000014000c04ac9a5ad2e142cb90d95633ccdaaafd3f9109660126 808182838485868788898a8b8c8d8e8f 128
receive 43000001002501505152535455565758595a5b5c5d5e5f08a0a1a2a3a4a5a6a70000000002000301000200 00000000000000000000000000000000 128
receive 6400017374696c6c206f70656e149dff1b88ad8ee1252b 808182838485868788898a8b8c8d8e8f 128
receive 43000001002501101112131415161718191a1b1c1d1e1f08a0a1a2a3a4a5a6a70000000002000201000203 808182838485868788898a8b8c8d8e8f 128
alert clear 1 11 - 100
receive c10001000101 808182838485868788898a8b8c8d8e8f 128
receive 640001746f6f20736f6f6e6fa705e01a155edca22b8a08647eed4addc72e71 808182838485868788898a8b8c8d8e8f 128
receive 63000014000cf01788370d52a993a3648482dd550b1e2436d83be8a8abe9714d11363d3cba45 808182838485868788898a8b8c8d8e8f 128
receive 640002746f6f206c6174654ee6bdb75e3f5f9cea7e 808182838485868788898a8b8c8d8e8f 128
";
    let expected = "\
receive records 1
0 reply 84
out c300000023020020010000000000000000000000000000000008a0a1a2a3a4a5a6a7000003000200c1000100010163000014000c1006930495fff0af0500a05e476ea02bdb4b5a44f93f99e2136022427fed192c
state Open n=0 marks=0000000000000001 arrived=1 sent=1,2 checksum=f81a897a tally=0,0,0,0 parts=- started=Replied,1,2
receive records 1
0 data 3 10
state Open n=1 marks=0000000000000003 arrived=2 sent=1,2 checksum=f81a897a tally=1,0,0,0 parts=- started=Replied,1,2
receive records 1
0 resent 74
out c30000002302002001808182838485868788898a8b8c8d8e8f08a0a1a2a3a4a5a6a7000002000203c1000100010163000014000cfa4961929527af28decdac18e8e0268c07a8c14188c6
state Open n=1 marks=0000000000000003 arrived=2 sent=1,2 checksum=f81a897a tally=1,0,0,0 parts=- started=Replied,1,2
alert ok
out 420002010b00000000
state Open n=1 marks=0000000000000003 arrived=2 sent=1,2 checksum=49000201 tally=1,0,0,0 parts=- started=Replied,1,3
receive records 1
0 spec
state Open n=1 marks=0000000000000003 arrived=2 sent=1,2 checksum=49000201 tally=1,0,0,0 parts=- started=Spec,1,3,-,0000000000000000
receive records 1
0 refused 9
state Open n=1 marks=0000000000000003 arrived=2 sent=1,2 checksum=49000201 tally=1,1,0,0 parts=- started=Spec,1,3,-,0000000000000000
receive records 1
0 open
state Open n=0 marks=0000000000000001 arrived=1 sent=1,3 checksum=49000201 tally=1,1,0,0 parts=- started=-
receive records 1
0 refused 9
state Open n=0 marks=0000000000000001 arrived=1 sent=1,3 checksum=49000201 tally=1,2,0,0 parts=- started=-
";
    let mut output = Vec::new();
    console::run(input.as_bytes(), &mut output).unwrap();
    let output = String::from_utf8(output).unwrap();
    assert!(output.ends_with(expected), "{output}");
}

#[test]
fn what_ends_the_started_one_leaves_the_open_one() {
    for how in ["critical", "fatal", "wrong Finished"] {
        let mut script = open(Kind::Sha80);
        let before = script.reboot(0x20, Kind::Sha, 3);
        script.receive(&[0x41, 0, 1, 1]);
        let lines = match how {
            "critical" => script.clear_alert(2, 40),
            "fatal" => script.clear_alert(3, 40),
            _ => {
                let mut wrong = script.finished_message();
                wrong[3] ^= 1;
                script.protected(Content::Handshake, 0, &wrong)
            }
        };
        assert_eq!((state(&lines), started(&lines)), ("Open", "-"), "{how}");
        let finished = script.finished_message();
        let lines = script.protected(Content::Handshake, 1, &finished);
        assert_eq!(answers(&lines), ["refused 9"], "{how}");
        let lines = script.under(&before, |script| script.data(1, "data"));
        assert_eq!(answers(&lines), ["data 3 4"], "{how}");
    }
}

#[test]
fn what_ends_the_open_one_ends_both() {
    for how in ["close", "critical", "fatal", "wrong Finished"] {
        let mut script = open(Kind::Sha80);
        let before = script.reboot(0x20, Kind::Sha, 3);
        script.receive(&[0x41, 0, 1, 1]);
        let lines = script.under(&before, |script| match how {
            "close" => script.line("close"),
            "critical" => script.protected_alert(1, 2, 40),
            "fatal" => script.protected_alert(1, 3, 40),
            _ => {
                let mut wrong = script.finished_message();
                wrong[3] ^= 1;
                script.protected(Content::Handshake, 1, &wrong)
            }
        });
        let ended = if how == "fatal" { "Barred" } else { "Closed" };
        assert_eq!((state(&lines), started(&lines)), (ended, "-"), "{how}");
        assert_eq!(answers(&script.flight()), ["refused 7", "refused 7"], "{how}");
    }
}

#[test]
fn the_replacement_takes_all_but_the_records_sent() {
    let mut script = open(Kind::Sha80);
    script.data(7, "data");
    let named = reply_sums(&script.hello(0x20, Kind::Sha, 3));
    script.line("alert clear 1 90 - 9");
    let lines = script.flight();
    assert_eq!(answers(&lines), ["spec", "open"]);
    assert!(lines
        .last()
        .unwrap()
        .contains("state Open n=0 marks=0000000000000001 arrived=1 sent=1,3 "));
    assert_eq!(answers(&script.data(7, "data")), ["data 3 4"]);
    // The next hello starts another one, for which the earlier records may still be named.
    script.hello(0x21, Kind::Sha, 3);
    assert_eq!(answers(&script.receive(&warning(named[0]))), ["warning 90"]);
}

/// The code decides whose a record is: what the started one refuses is not tried again.
#[test]
fn a_record_of_the_started_one_is_not_the_open_ones() {
    let mut script = open(Kind::Sha80);
    script.reboot(0x20, Kind::Sha, 3);
    script.receive(&[0x41, 0, 1, 1]);
    let finished = script.finished_message();
    assert_eq!(answers(&script.protected(Content::Handshake, 90, &[20, 0, 0])), ["refused 12"]);
    assert_eq!(answers(&script.protected(Content::Handshake, 90, &finished)), ["refused 11"]);
    let lines = script.protected(Content::Handshake, 58, &finished);
    assert_eq!(
        (answers(&lines), started(&lines)),
        (vec!["refused 10"], "Spec,1,2,90,0000000000000001")
    );
    assert_eq!(answers(&script.protected(Content::Handshake, 59, &finished)), ["open"]);
}

/// The caller lends an old random to a hello with an old random.
#[test]
fn with_equal_keys_the_started_one_goes_first() {
    let mut script = open(Kind::Sha80);
    let before = script.connection();
    let mut hello = script.plain(0x10, Kind::Sha80, 3);
    hello.compressions.push(1);
    let datagram = script.unit.say_hello(&hello.message());
    script.receive_with(&datagram, &before.keys.server_random);
    assert_eq!(script.connection().keys, before.keys);
    script.receive(&[0x41, 0, 1, 1]);
    assert_eq!(answers(&script.data(1, "data")), ["data 3 4"]);
    let lines = script.under(&before, |script| {
        let finished = script.finished_message();
        script.protected(Content::Handshake, 2, &finished)
    });
    assert_eq!(
        (answers(&lines), state(&lines), started(&lines)),
        (vec!["refused 17"], "Open", "-")
    );
}

#[test]
fn the_hello_of_the_open_one_starts_nothing() {
    let mut script = open(Kind::Sha);
    let hello = script.unit.last_hello().to_vec();
    let lines = script.stray_hello(&hello);
    assert_eq!((answers(&lines), started(&lines)), (vec!["resent 84"], "-"));
    script.reboot(0x20, Kind::Sha80, 3);
    script.receive(&[0x41, 0, 1, 1]);
    let datagram = script.unit.clear(Content::Handshake, false, 9, &hello);
    let lines = script.stranger(&datagram);
    let spec = "Spec,1,2,-,0000000000000000";
    assert_eq!((answers(&lines), started(&lines)), (vec!["resent 84"], spec));
    let flight = script.unit.flight().unwrap();
    assert_eq!(answers(&script.receive(&flight[6..])), ["open"]);
}
