//! The ship's worked example, the places where its rules are easily read wrongly, and the table of
//! all that can happen to a ship: its random days hold each entry, and nothing else.

use std::collections::BTreeSet;
use std::process::{Command, Output};

use peer::days::{make_days, Aboard, Plan};
use peer::handshakes::{secret, session};
use peer::keys::Kind;
use peer::shipconsole;
use peer::shipcover::{Cell, Coverage};
use peer::shipscript::ShipScript;
use peer::shipstored;
use peer::wire::Content;

const PEER: &str = env!("CARGO_BIN_EXE_peer");
const REQUEST: [u8; 3] = [0, 0, 0];

/// The answers of a receive: its lines without the first, the output and the state.
fn answers(lines: &[String]) -> Vec<&str> {
    let is_answer = |line: &&String| line.as_bytes()[0].is_ascii_digit();
    lines.iter().filter(is_answer).map(|line| &line[2..]).collect()
}

fn word<'a>(lines: &'a [String], name: &str) -> &'a str {
    let state = lines[lines.len() - 1].split(' ');
    state.filter_map(|word| word.strip_prefix(name)).next().unwrap()
}

fn state(lines: &[String]) -> &str {
    lines[lines.len() - 1].split(' ').nth(1).unwrap()
}

fn sent() -> ShipScript {
    let mut script = ShipScript::new(&session(), &secret());
    script.fresh();
    script.hello(0x10, &[2, 3], 3);
    script
}

fn opening(kind: Kind) -> ShipScript {
    let mut script = ShipScript::new(&session(), &secret());
    script.fresh();
    assert_eq!(answers(&script.open(0x10, kind, 3))[..2], ["hello", "spec"]);
    script
}

#[test]
fn worked_example() {
    let input = "\
fresh a0a1a2a3a4a5a6a7 303132333435363738393a3b3c3d3e3f40414243 32
receive 430000000000 128
hello 101112131415161718191a1b1c1d1e1f 02 3 100
receive 430000000000 128
receive c30000002302002001808182838485868788898a8b8c8d8e8f08a0a1a2a3a4a5a6a7000002000203c1000100010163000014000cfa4961929527af28decdac18e8e0268c07a8c14188c6 128
send 7265706f7274 100
again 100
receive 6400016f726465726dd10210be8788e456a2 128
again 100
";
    let expected = "\
fresh ok
state Idle n=- marks=0000000000000000 arrived=0 sent=-,- checksum=00000000 tally=0,0,0,0
receive records 1
0 request
state Idle n=- marks=0000000000000000 arrived=0 sent=-,- checksum=00000000 tally=0,0,0,0
hello ok
out 43000001002501101112131415161718191a1b1c1d1e1f08a0a1a2a3a4a5a6a70000000002000201000203
state Sent n=- marks=0000000000000000 arrived=0 sent=-,2 checksum=4523040c tally=0,0,0,0
receive records 1
0 ignored
state Sent n=- marks=0000000000000000 arrived=0 sent=-,2 checksum=4523040c tally=0,0,0,0
receive records 3
0 hello
1 spec
2 open 34
out c1000100010163000014000c04ac9a5ad2e142cb90d95633ccdaaafd3f9109660126
state Opening n=0 marks=0000000000000001 arrived=1 sent=1,2 checksum=4e35b4ed tally=0,0,0,0
send ok
out 6400017265706f727483a8a98b9d03c549aa79
state Opening n=0 marks=0000000000000001 arrived=1 sent=2,2 checksum=b7c4bc6c tally=0,0,0,0
again ok
out c1000100010163000014000c04ac9a5ad2e142cb90d95633ccdaaafd3f9109660126
state Opening n=0 marks=0000000000000001 arrived=1 sent=2,2 checksum=b7c4bc6c tally=0,0,0,0
receive records 1
0 data 3 5
state Open n=1 marks=0000000000000003 arrived=2 sent=2,2 checksum=b7c4bc6c tally=1,0,0,0
again refused 8
state Open n=1 marks=0000000000000003 arrived=2 sent=2,2 checksum=b7c4bc6c tally=1,0,0,0
";
    let mut output = Vec::new();
    shipconsole::run(input.as_bytes(), &mut output).unwrap();
    assert_eq!(String::from_utf8(output).unwrap(), expected);
}

/// Each record of the reply in a datagram of its own; out of order each is refused and undoes nothing.
#[test]
fn a_reply_in_parts() {
    let mut script = sent();
    let reply = script.reply(0x80, Kind::Sha, 3);
    let (hello, spec, finished) = (&reply[..40], &reply[40..46], &reply[46..]);
    assert_eq!(answers(&script.receive(spec)), ["refused 8"]);
    assert_eq!(answers(&script.receive(finished)), ["refused 8"]);
    assert_eq!(answers(&script.receive(&[spec, hello].concat())), ["refused 8", "refused 8"]);
    assert_eq!(answers(&script.receive(hello)), ["hello"]);
    assert_eq!(answers(&script.receive(finished)), ["refused 8"]);
    assert_eq!(answers(&script.receive(spec)), ["spec"]);
    let mut forged = finished.to_vec();
    forged[37] ^= 1;
    let lines = script.receive(&forged);
    assert_eq!((answers(&lines), state(&lines)), (vec!["refused 9"], "Spec"));
    let lines = script.receive(finished);
    assert_eq!((answers(&lines), state(&lines)), (vec!["open 44"], "Opening"));
}

/// A forged ServerHello cannot lock the true one out, in Replied nor in Spec.
#[test]
fn a_server_hello_starts_the_reading_anew() {
    let mut script = sent();
    let (forged, reply) = (script.reply(0x81, Kind::Sha80, 0), script.reply(0x80, Kind::Sha, 3));
    assert_eq!(answers(&script.receive(&forged[..46])), ["hello", "spec"]);
    let mut wrong = reply[..40].to_vec();
    wrong[39] = 4;
    let lines = script.receive(&wrong);
    assert_eq!((answers(&lines), state(&lines)), (vec!["refused 13"], "Spec"));
    assert_eq!(answers(&script.receive(&reply)), ["hello", "spec", "open 44"]);
}

/// The window is emptied by the change cipher spec, and by nothing else of a reply.
#[test]
fn the_window_of_a_reply() {
    let mut script = sent();
    let reply = script.reply(0x80, Kind::Sha, 3);
    script.receive(&reply[..46]);
    assert_eq!(answers(&script.alert(40, 1, 90)), ["warning 90"]);
    assert_eq!(answers(&script.finished(0)), ["refused 10"]);
    let lines = script.receive(&reply[..40]);
    assert_eq!((state(&lines), word(&lines, "n=")), ("Replied", "40"));
    let lines = script.receive(&reply[40..46]);
    assert_eq!((state(&lines), word(&lines, "n=")), ("Spec", "-"));
    let lines = script.finished(65535);
    assert_eq!((state(&lines), word(&lines, "n=")), ("Opening", "65535"));
}

#[test]
fn a_finished_of_the_wrong_label_closes() {
    let mut script = sent();
    let reply = script.reply(0x80, Kind::Sha80, 3);
    script.receive(&reply[..46]);
    let wrong = script.coast.connection().unwrap().mislabelled.clone();
    let lines = script.protected(Content::Handshake, 7, &wrong);
    assert_eq!((answers(&lines), state(&lines)), (vec!["refused 17"], "Closed"));
    assert_eq!(word(&lines, "n="), "7");
}

/// A request in the middle of a handshake resets nothing; later it is reported and marked.
#[test]
fn hello_requests() {
    let mut script = sent();
    let reply = script.reply(0x80, Kind::Sha, 3);
    for (part, name) in [(&reply[..0], "Sent"), (&reply[..40], "Replied"), (&reply[40..46], "Spec")]
    {
        if !part.is_empty() {
            script.receive(part);
        }
        let lines = script.clear(Content::Handshake, 9, &REQUEST);
        assert_eq!((answers(&lines), state(&lines)), (vec!["ignored"], name));
        assert_eq!(script.line("again 100")[0], "again ok");
    }
    let lines = script.protected(Content::Handshake, 5, &REQUEST);
    assert_eq!((answers(&lines), state(&lines)), (vec!["ignored"], "Spec"));
    assert_eq!(answers(&script.protected(Content::Handshake, 5, &REQUEST)), ["refused 11"]);
    assert_eq!(answers(&script.receive(&reply[46..])), ["open 44"]);
    let lines = script.protected(Content::Handshake, 6, &REQUEST);
    assert_eq!((answers(&lines), state(&lines)), (vec!["request"], "Opening"));
    assert_eq!(answers(&script.protected(Content::Handshake, 6, &REQUEST)), ["refused 11"]);
    assert_eq!(answers(&script.clear(Content::Handshake, 6, &[0, 0, 0, 0])), ["refused 12"]);
}

/// The flight is given again until the first data or the warning 57 under protection.
#[test]
fn until_the_flight_is_known_to_have_come() {
    for last in ["data", "warning"] {
        let mut script = opening(Kind::Sha80);
        let flight = script.line("again 34")[1].clone();
        script.line("send 2a 100");
        script.alert(1, 1, 90);
        script.finished(2);
        script.protected(Content::Data, 3, &[]);
        script.clear_alert(1, 57, 0);
        assert_eq!(script.line("again 34")[..2], ["again ok".to_string(), flight]);
        let lines = if last == "data" { script.data(4, "x") } else { script.alert(4, 1, 57) };
        assert_eq!((&answers(&lines)[0][..4], state(&lines)), (&last[..4], "Open"));
        assert_eq!(script.line("again 34")[0], "again refused 8");
    }
}

/// Hello, change cipher spec, Finished and sends count as sent; what is said again does not.
#[test]
fn the_records_sent() {
    let mut script = sent();
    assert_eq!(answers(&script.clear_alert(1, 90, 0)), ["warning 90"]);
    script.line("again 100");
    assert_eq!(answers(&script.clear(Content::Alert, 2, &[1, 90, 0xc0, 1, 1, 0])), ["refused 14"]);
    for _ in 0..8 {
        script.line("alert clear 1 0 - 9");
    }
    assert_eq!(answers(&script.clear_alert(1, 90, 7)), ["warning 90"]);
    script.line("close");
    let lines = script.line("start");
    assert_eq!((word(&lines, "checksum="), word(&lines, "sent=")), ("00000000", "-,10"));
    let lines = script.open(0x11, Kind::Sha, 0);
    assert_eq!(word(&lines, "sent="), "1,2");
}

#[test]
fn the_stored_day_has_everything_but_spent_numbers() {
    let day = shipstored::written();
    let mut kinds = BTreeSet::new();
    for line in day.output() {
        let words: Vec<&str> = line.split(' ').collect();
        match words[..] {
            ["state", name, ..] => kinds.insert(name.to_string()),
            [_, "refused", number, ..] => kinds.insert(format!("refused {number}")),
            [call, "ok"] => kinds.insert(format!("{call} ok")),
            [_, answer, ..] => kinds.insert(answer.to_string()),
            _ => false,
        };
    }
    let mut wanted: Vec<String> =
        (1..=17).filter(|r| *r != 15).map(|r| format!("refused {r}")).collect();
    let words = "hello spec open again request ignored data warning critical fatal barred \
                 None Idle Sent Replied Spec Opening Open Closed Barred line";
    wanted.extend(words.split_whitespace().map(str::to_string));
    for call in ["fresh", "hello", "again", "send", "alert", "close", "start"] {
        wanted.push(format!("{call} ok"));
    }
    for kind in wanted {
        assert!(kinds.contains(&kind), "the stored day lacks {kind}");
    }
}

#[test]
fn the_long_day_spends_both_numbers_and_nothing_closes() {
    let mut output = Vec::new();
    shipconsole::run(shipstored::long_day().as_bytes(), &mut output).unwrap();
    let text = String::from_utf8(output).unwrap();
    assert_eq!(text.matches("alert refused 15\nstate Sent ").count(), 2);
    assert_eq!(text.matches("alert refused 15\nstate Opening ").count(), 1);
    assert_eq!(text.matches("send refused 15\nstate Opening ").count(), 2);
    assert!(text.contains(" sent=-,65536 ") && text.contains(" sent=65536,2 "));
    assert!(text.contains("again ok\nout 43") && text.contains("again ok\nout c1"));
    let last = text.lines().last().unwrap();
    assert!(
        last.contains("state Opening n=0 marks=0000000000000001 arrived=1 sent=2,2 "),
        "{last}"
    );
}

/// All that can happen to a ship, but for spent numbers: what, in which states, with which outcomes.
/// A number stands for its refusal. `each` is each state with a ship, `live` those that are not ended.
const TABLE: &str = "
line                 None each                     bad_line
fresh                None each                     ok 16
hello                Idle                          ok 16 6
hello                Sent Replied Spec Opening Open  16 8
hello                Closed Barred                 16 7
again                Sent Replied Spec Opening     ok 6
again                Idle Open                     8
again                Closed Barred                 7
send                 Opening Open                  ok 16 6
send                 Idle Sent Replied Spec        16 8
send                 Closed Barred                 16 7
alert_clear          Sent Replied Spec             ok 16 6
alert_clear          Idle Opening Open             16 8
alert_clear          Closed Barred                 16 7
alert_protected      Opening Open                  ok 16 6
alert_protected      Idle Sent Replied Spec        16 8
alert_protected      Closed Barred                 16 7
close                live Closed                   ok
close                Barred                        7
start                Closed                        ok
start                live                          8
start                Barred                        7
receive              each                          6 1 2 3 4 5
clear_request        Idle Opening Open             request 12
clear_request        Sent Replied Spec             ignored 12
clear_hello          Sent Replied Spec             hello 12 13
clear_hello          Idle Opening Open             8
clear_hello,_later   live                          8
clear_handshake      live                          8
clear_data           live                          8
clear_spec           Replied                       spec 12
clear_spec           Idle Sent Spec Opening Open   8
clear_alert          Sent Replied Spec             warning critical fatal 12 14
clear_alert          Idle Opening Open             8
protected_request    Spec                          ignored 9 10 11 12
protected_request    Opening Open                  request 9 10 11 12
protected_request    Idle Sent Replied             8
protected_handshake  Spec                          open 9 10 11 12 17
protected_handshake  Opening Open                  again 9 10 11 12 17
protected_handshake  Idle Sent Replied             8
protected_alert      Spec Opening Open             warning warning_57 critical barred 9 10 11 12
protected_alert      Idle Sent Replied             8
protected_data       Opening Open                  data 9 10 11 12
protected_data       Idle Sent Replied Spec        8
protected_spec       Opening Open                  9 10 11 12
protected_spec       Idle Sent Replied Spec        8
clear_request        Closed Barred                 7
clear_hello          Closed Barred                 7
clear_hello,_later   Closed Barred                 7
clear_handshake      Closed Barred                 7
clear_data           Closed Barred                 7
clear_spec           Closed Barred                 7
clear_alert          Closed Barred                 7
protected_request    Closed Barred                 7
protected_handshake  Closed Barred                 7
protected_alert      Closed Barred                 7
protected_data       Closed Barred                 7
protected_spec       Closed Barred                 7
";

const LIVE: &str = "Idle Sent Replied Spec Opening Open";

fn table() -> BTreeSet<Cell> {
    let mut cells = BTreeSet::new();
    for row in TABLE.lines().filter(|row| !row.is_empty()) {
        let mut words = row.split_whitespace();
        let what = words.next().unwrap().replace('_', " ");
        let is_state =
            |word: &&str| word.starts_with(char::is_uppercase) || ["each", "live"].contains(word);
        let (states, outcomes): (Vec<&str>, Vec<&str>) = words.partition(is_state);
        let all = format!("{LIVE} Closed Barred");
        let states = states.iter().flat_map(|state| match *state {
            "each" => all.split(' ').collect(),
            "live" => LIVE.split(' ').collect(),
            one => vec![one],
        });
        for state in states {
            for outcome in &outcomes {
                let outcome = match outcome.parse::<u8>() {
                    Ok(number) => format!("refused {number}"),
                    Err(_) => outcome.replace('_', " "),
                };
                assert!(cells.insert((what.clone(), state.to_string(), outcome)), "twice: {row}");
            }
        }
    }
    cells
}

#[test]
fn random_days_hold_the_whole_table_and_nothing_else() {
    let words = ["--seed", "1", "--calls", "150000", "--spent", "0", "--console", "-"];
    let mut coverage = Coverage::default();
    make_days::<Aboard>(&Plan::read(&words).unwrap(), |_, line, lines| {
        coverage.line(line, &lines);
        true
    });
    let seen: BTreeSet<Cell> = coverage.cells().keys().cloned().collect();
    let table = table();
    let missing: Vec<&Cell> = table.difference(&seen).collect();
    let more: Vec<&Cell> = seen.difference(&table).collect();
    assert!(missing.is_empty() && more.is_empty(), "missing {missing:?}, more {more:?}");
}

fn days(seed: u64, calls: u64, console: &[&str]) -> Output {
    Command::new(PEER)
        .args(["shipdays", "--seed", &seed.to_string(), "--calls", &calls.to_string(), "--console"])
        .args(console)
        .output()
        .unwrap()
}

#[test]
fn no_difference_from_the_model_itself() {
    let run = days(5, 3000, &[PEER, "shipconsole"]);
    let text = String::from_utf8(run.stdout).unwrap();
    assert!(run.status.success(), "{text}");
    assert!(text.starts_with("peer: seed 5, 3000 calls, no difference\n"), "{text}");
}

#[test]
fn differences_are_found() {
    for edit in [
        "s/refused 11/refused 10/",
        "s/refused 14/refused 12/",
        "s/sent=-,2/sent=-,-/",
        "s/^0 ignored/0 request/",
        "s/^\\(out c1.*\\)a$/\\1b/",
        "s/state Opening/state Open/",
        "s/^hello refused 16/hello refused 8/",
    ] {
        let run = days(5, 12_000, &["sh", "-c", &format!("{PEER} shipconsole | sed -e '{edit}'")]);
        let text = String::from_utf8(run.stdout).unwrap();
        assert_eq!(run.status.code(), Some(1), "{edit}: {text}");
        assert!(text.contains(" are enough for a difference:\nfresh "), "{edit}: {text}");
    }
}
