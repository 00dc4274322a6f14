//! Why a record would be refused: the worked sessions of the request, each field and each condition,
//! and random days on which each answer is held to the receive that follows it.

use peer::console::Console;
use peer::hex;
use peer::whycover;

const FRESH: &str = "fresh a0a1a2a3a4a5a6a7 303132333435363738393a3b3c3d3e3f40414243 32";
const RANDOM: &str = "808182838485868788898a8b8c8d8e8f";
const HELLO: &str =
    "43000001002501101112131415161718191a1b1c1d1e1f08a0a1a2a3a4a5a6a70000000002000201000203";
const FLIGHT: &str = "c1000100010163000014000c04ac9a5ad2e142cb90d95633ccdaaafd3f9109660126";
const FORTY: &str = "640028725975c50e4f2984e0c60c";

/// A console to which these datagrams came.
fn console(datagrams: &[&str]) -> Console {
    let mut console = Console::default();
    console.line(FRESH.as_bytes());
    for datagram in datagrams {
        let lines = console.line(format!("receive {datagram} {RANDOM} 128").as_bytes());
        assert!(lines[0].starts_with("receive records"), "{lines:?}");
    }
    console
}

/// The line that says why; the state line after it is the one before.
fn why(console: &mut Console, words: &str) -> String {
    let before = console.line(b"drop 0").pop();
    let lines = console.line(format!("why {words}").as_bytes());
    assert_eq!(lines.last(), before.as_ref());
    assert_eq!(lines.len(), 2);
    lines[0].clone()
}

fn why_first(console: &mut Console, datagram: &str) -> String {
    why(console, &format!("2 {datagram} {RANDOM} 0"))
}

/// The session of P5, with P6's words.
#[test]
fn dropped_reports() {
    let mut console = console(&[HELLO, FLIGHT, FORTY]);
    let datagram = "e40008000d6f6c6462e5a934a83bf4bcd812e40028000f7477696365f19090484bd6d8edac6d\
                    e40029000e66696e65cb7e06397484ab980d7ee4002900136e6f77207477696365e1c97a579c\
                    e16496938cc10001000101";
    for (index, line) in [
        "why 10 state Open kind protected-data place 0 under open number 8 highest 40 limit 8",
        "why 11 state Open kind protected-data place 1 under open number 40 highest 40 mark 0",
        "why none",
        "why 11 state Open kind protected-data place 3 under open number 41 highest 41 mark 0",
        "why 8 state Open kind clear-ccs place 4",
        "why refused 16",
    ]
    .iter()
    .enumerate()
    {
        for edition in [1, 2] {
            let words = format!("{edition} {datagram} {RANDOM} {index}");
            assert_eq!(why(&mut console, &words), *line);
        }
    }
    assert_eq!(why(&mut console, &format!("2 64 {RANDOM} 77")), "why 2 at 0 left 1 needs 3");
}

/// The session of P11.
#[test]
fn what_the_unit_meant() {
    let mut console = console(&[]);
    let hello = "43000001002701101112131415161718191a1b1c1d1e1f08a0a1a2a3a4a5a6a7\
                 0000000004000403030100020a";
    for (edition, line) in [
        (1, "why 13 state Idle kind clear-hello place 0 first pair 0/SHA_XOR_40,3/SHA"),
        (2, "why 13 state Idle kind clear-hello place 0 first pair 0/4,3/SHA"),
        (0, "why refused 16"),
        (3, "why refused 16"),
        (255, "why refused 16"),
    ] {
        assert_eq!(why(&mut console, &format!("{edition} {hello} {RANDOM} 0")), line);
    }
}

#[test]
fn framing() {
    let mut console = console(&[]);
    let nine = "c400000001aa".repeat(8) + "00";
    for (datagram, line) in [
        ("-", "why 1 at 0 size 0"),
        (&"44".repeat(1401)[..], "why 1 at 0 size 1401"),
        ("64", "why 2 at 0 left 1 needs 3"),
        ("6400", "why 2 at 0 left 2 needs 3"),
        ("e4000100", "why 2 at 0 left 4 needs 5"),
        ("c400000001aac4000100", "why 2 at 6 left 4 needs 5"),
        ("00", "why 3 at 0 type 0"),
        ("54000101", "why 3 at 0 type 84"),
        ("c400000001aaff", "why 3 at 6 type 255"),
        ("640001", "why 4 at 0 length 0 left 0"),
        ("c400010000aa", "why 4 at 0 length 0 left 1"),
        ("c400000002aa", "why 4 at 0 length 2 left 1"),
        ("c400000001aac40000fffe", "why 4 at 6 length 65534 left 0"),
        (&nine, "why 5 at 48"),
    ] {
        for index in [0, 1, 8, 999_999_999] {
            assert_eq!(why(&mut console, &format!("1 {datagram} {RANDOM} {index}")), line);
        }
        assert_eq!(why(&mut console, &format!("1 {datagram} 8081 0")), "why refused 16");
        assert_eq!(why(&mut console, &format!("9 {datagram} {RANDOM} 0")), "why refused 16");
    }
}

#[test]
fn conditions_of_a_hello_and_its_fields() {
    let mut console = console(&[]);
    let with = |place: usize, bytes: &str| {
        let mut hello = HELLO.to_string();
        hello.replace_range(2 * place..2 * place + bytes.len(), bytes);
        hello
    };
    let cut = |end: usize| {
        let mut hello = hex::read(HELLO.as_bytes()).unwrap();
        hello.truncate(end);
        let length = (hello.len().max(6) - 6) as u8;
        if let Some(byte) = hello.get_mut(5) {
            *byte = length;
        }
        hex::write(&hello)
    };
    for (datagram, facts) in [
        (with(6, "02"), "13 state Idle kind clear-hello place 0 first version 2"),
        (with(24, "ff"), "13 state Idle kind clear-hello place 0 first session ffa1a2a3a4a5a6a7"),
        (with(38, "07"), "13 state Idle kind clear-hello place 0 first pair 0/MD5"),
        (with(40, "05"), "13 state Idle kind clear-hello place 0 first compression 05"),
        (with(41, "01"), "13 state Idle kind clear-hello place 0 first numbering 1"),
        (with(5, "24"), "12 state Idle kind clear-hello place 0 field header"),
        (cut(4), "12 state Idle kind clear-hello place 0 field header"),
        (cut(6), "12 state Idle kind clear-hello place 0 field version"),
        (cut(22), "12 state Idle kind clear-hello place 0 field random"),
        (cut(23), "12 state Idle kind clear-hello place 0 field session"),
        (with(23, "09"), "12 state Idle kind clear-hello place 0 field session"),
        (cut(33), "12 state Idle kind clear-hello place 0 field client-ids"),
        (with(33, "02"), "12 state Idle kind clear-hello place 0 field client-ids"),
        (cut(35), "12 state Idle kind clear-hello place 0 field trusted-ids"),
        (with(36, "03"), "12 state Idle kind clear-hello place 0 field suites"),
        (with(39, "00"), "12 state Idle kind clear-hello place 0 field compressions"),
        (cut(41), "12 state Idle kind clear-hello place 0 field numbering"),
        (cut(42), "12 state Idle kind clear-hello place 0 field refresh"),
    ] {
        assert_eq!(why_first(&mut console, &datagram), format!("why {facts}"), "{datagram}");
    }
    let longer = HELLO.replacen("0025", "0026", 1) + "00";
    assert!(why_first(&mut console, &longer).ends_with(" field end"));
    let large = format!("430000{}", "01".repeat(257));
    assert!(why_first(&mut console, &large).ends_with(" field size"));
    assert_eq!(why_first(&mut console, HELLO), "why none");
}

#[test]
fn alerts_changes_and_codes() {
    let mut replied = console(&[HELLO]);
    let facts = |console: &mut Console, datagram: &str| {
        let said = why_first(console, datagram);
        said.split_once(" place 0").map(|(_, facts)| facts.to_string()).unwrap_or(said)
    };
    for (datagram, said) in [
        ("41000102", " content 1 value 2"),
        ("4100010101", " content 2"),
        ("4200020100", " content 2"),
        ("420002013a00000000", " content 6 level 1 description 58"),
        ("420002000000000000", " content 6 level 0 description 0"),
        ("420002010000000000", " checksum 00000000 sent e663d639,c0010100,6302032f"),
        ("42000201000000000000", " content 7"),
        ("42000201 5a e663d639", "why none"),
        ("640001aa", ""),
    ] {
        let said = said.replace("6302032f", &sent_last(&mut replied));
        assert_eq!(facts(&mut replied, &datagram.replace(' ', "")), said, "{datagram}");
    }
    let mut spec = console(&[HELLO, "c10001000101"]);
    assert_eq!(facts(&mut spec, "63000901"), " number 9 fragment 1 keys 8/10");
    let mut open = console(&[HELLO, FLIGHT]);
    assert_eq!(facts(&mut open, "640011aabb"), " number 17 fragment 2 keys 16/10");
}

/// The ServerHello's checksum, of the oldest record sent, by the papers: its bytes are in the reply.
fn sent_last(console: &mut Console) -> String {
    let lines = console.line(format!("receive {HELLO} {RANDOM} 128").as_bytes());
    let reply = lines.iter().find_map(|line| line.strip_prefix("out ")).expect("resent");
    let reply = hex::read(reply.as_bytes()).expect("hex");
    hex::write(&peer::alert::checksum(&reply[..40]))
}

/// Under whose keys: the second hello's handshake is held beside the open one.
#[test]
fn beside_an_open_one() {
    let hello = "43000001002501505152535455565758595a5b5c5d5e5f08a0a1a2a3a4a5a6a7\
                 0000000002000301000200";
    let zeros = "00".repeat(16);
    let mut console = console(&[HELLO, FLIGHT]);
    console.line(format!("receive {hello} {zeros} 128").as_bytes());
    let said =
        why_first(&mut console, "640001746f6f20736f6f6e6fa705e01a155edca22b8a08647eed4addc72e71");
    let wanted =
        "why 9 state Open+Replied kind protected-data place 0 number 1 fragment 28 keys 0/10";
    assert_eq!(said, wanted);
    console.line(format!("receive c10001000101 {RANDOM} 128").as_bytes());
    let said = why_first(&mut console, "63000901020304");
    let wanted =
        "why 9 state Open+Spec kind protected-handshake place 0 number 9 fragment 4 keys 9/20,8/10";
    assert_eq!(said, wanted);
    let said = why_first(&mut console, "64000901020304");
    let wanted = "why 9 state Open+Spec kind protected-data place 0 number 9 fragment 4 keys 8/10";
    assert_eq!(said, wanted);
    let finished = "63000014000cf01788370d52a993a3648482dd550b1e2436d83be8a8abe9714d11363d3cba45";
    assert_eq!(why_first(&mut console, finished), "why none");
}

#[test]
fn lines_that_are_no_question() {
    let mut console = console(&[]);
    for bad in [
        "why",
        "why 1 44 8081",
        "why 44 8081 0",
        "why 1 44 8081 0 0",
        "why 256 44 8081 0",
        "why 01 44 8081 0",
        "why 1 4 8081 0",
        "why 1 44 8081 00",
        "why 1 44 8081 1000000000",
        "why - 44 8081 0",
        "whys 1 44 8081 0",
    ] {
        assert_eq!(console.line(bad.as_bytes()), ["bad line"], "{bad}");
    }
    let question = format!("why 1 44000001 {RANDOM} 0");
    assert_eq!(Console::default().line(question.as_bytes()), ["bad line"]);
}

#[test]
fn random_days_hold_every_reason_and_every_fact() {
    let cover = whycover::of_days(4, 100_000);
    assert_eq!(cover.missing(), Vec::<String>::new());
    assert_eq!(cover.wrong, Vec::<String>::new());
    assert!(cover.borne_out > 40_000, "{}", cover.borne_out);
}
