//! The stored day covers what it says, and the random days find what they are made to find.

use std::collections::BTreeSet;
use std::process::{Command, Output};

use peer::alert;
use peer::console::Console;
use peer::day;
use peer::hex;
use peer::rows::{self, Rows};
use peer::stored;
use peer::wire;

const PEER: &str = env!("CARGO_BIN_EXE_peer");

/// All that the lines hold: `refused 9`, `data`, `Open`, ..
fn kinds(lines: &[String]) -> BTreeSet<String> {
    let mut kinds = BTreeSet::new();
    for line in lines {
        let words: Vec<&str> = line.split(' ').collect();
        match words[..] {
            ["state", name, ..] => kinds.insert(name.to_string()),
            [_, "refused", number, ..] => kinds.insert(format!("refused {number}")),
            [first, second, ..] => {
                kinds.insert(format!("{first} {second}")) | kinds.insert(second.to_string())
            }
            _ => false,
        };
    }
    kinds
}

#[test]
fn the_stored_day_has_everything_but_spent_numbers_and_18() {
    let day = stored::written();
    let kinds = kinds(day.output());
    let mut wanted: Vec<String> =
        (1..=22).filter(|r| ![15, 18].contains(r)).map(|r| format!("refused {r}")).collect();
    let answers =
        "reply resent spec open again data warning critical fatal barred waiting received gathered";
    let states = "None Idle Replied Spec Open Closed Barred";
    wanted.extend(answers.split(' ').chain(states.split(' ')).map(str::to_string));
    let calls = ["fresh ok", "send ok", "alert ok", "close ok", "start ok", "drop ok", "bad line"];
    wanted.extend(calls.map(str::to_string));
    for kind in wanted {
        assert!(kinds.contains(&kind), "the stored day lacks {kind}");
    }
    assert!(!kinds.contains("refused 18"));
    let lines = day.input().lines().count();
    assert!((150..=1200).contains(&lines), "{lines} lines");
}

#[test]
fn the_long_day_spends_both_numbers_and_nothing_closes() {
    let mut output = Vec::new();
    peer::console::run(stored::long_day().as_bytes(), &mut output).unwrap();
    let text = String::from_utf8(output).unwrap();
    assert_eq!(text.matches("alert refused 15\nstate Replied ").count(), 2);
    assert_eq!(text.matches("alert refused 15\nstate Open ").count(), 2);
    assert!(text.contains("started=Replied,1,65536\n"));
    assert!(text.contains("state Open n=0 marks=0000000000000001 arrived=1 sent=2,65536 "));
    assert_eq!(text.matches("send refused 15\nstate Open ").count(), 3);
    assert!(text.contains(" sent=65536,65536 "));
    assert!(text
        .lines()
        .last()
        .unwrap()
        .contains("state Open n=0 marks=0000000000000001 arrived=1 sent=2,2 "));
}

fn days(seed: u64, calls: u64, console: &[&str]) -> Output {
    Command::new(PEER)
        .args(["days", "--seed", &seed.to_string(), "--calls", &calls.to_string(), "--console"])
        .args(console)
        .output()
        .unwrap()
}

#[test]
fn no_difference_from_the_model_itself() {
    let run = days(5, 3000, &[PEER, "console"]);
    let text = String::from_utf8(run.stdout).unwrap();
    assert!(run.status.success(), "{text}");
    assert!(text.starts_with("peer: seed 5, 3000 calls, no difference\n"), "{text}");
}

/// A console that is the model but for one edit of its lines.
fn broken(edit: &str) -> Output {
    days(5, 12_000, &["sh", "-c", &format!("{PEER} console | sed -e '{edit}'")])
}

#[test]
fn differences_are_found() {
    for edit in [
        "s/refused 11/refused 10/",
        "s/refused 14/refused 12/",
        "s/n=65535/n=65534/",
        "s/arrived=32/arrived=31/",
        "s/^\\(out 64.*\\)a$/\\1b/",
        "s/state Barred/state Closed/",
        "s/^0 again/0 open/",
        "s/^message refused 20/message refused 21/",
        "s/parts=\\(.*\\):1\\/2/parts=\\1:2\\/2/",
        "s/started=Spec/started=Replied/",
        "s/started=Replied,1,3/started=Replied,2,3/",
        "20000d",
        "$d",
        "$a more",
        "15000q",
    ] {
        let run = broken(edit);
        let text = String::from_utf8(run.stdout).unwrap();
        assert_eq!(run.status.code(), Some(1), "{edit}: {text}");
        assert!(text.contains(": difference\ninput "), "{edit}: {text}");
        let few = text.contains(" are enough for a difference:\nfresh ");
        assert_eq!(few, edit.starts_with("s/"), "{edit}: {text}");
    }
}

#[test]
fn a_console_that_fails_is_a_difference() {
    for program in [&["/nonexistent"][..], &["false"], &["sh", "-c", "exit 0"]] {
        assert_eq!(days(1, 500, program).status.code(), Some(1));
    }
    let failing = format!("{PEER} console; exit 3");
    assert_eq!(days(1, 500, &["sh", "-c", &failing]).status.code(), Some(1));
}

#[test]
fn wrong_arguments_are_told() {
    let run = Command::new(PEER).arg("days").output().unwrap();
    assert_eq!(run.status.code(), Some(2));
}

/// Records that were sent, and the clear alerts about them, as the lines of a day show them.
#[derive(Default)]
struct AlertsHeard {
    /// Checksums of what was sent since the last start, the latest first; and of what was sent before it.
    sent: Vec<[u8; 4]>,
    earlier: Vec<[u8; 4]>,
    /// Good alerts about each of the last eight; refused ones about the ninth, and about one from before a start.
    good: [u32; 8],
    ninth: u32,
    before_start: u32,
}

impl AlertsHeard {
    fn line(&mut self, line: &[u8], lines: &[String]) {
        let text = String::from_utf8_lossy(line).to_string();
        let words: Vec<&str> = text.split(' ').collect();
        match (words[0], lines[0].as_str()) {
            ("fresh", "fresh ok") | ("start", "start ok") => {
                self.earlier = std::mem::take(&mut self.sent);
            }
            ("receive", _) => self.heard(words[1], lines),
            // What this line writes is a set, and no record.
            ("set", _) => return,
            _ => {}
        }
        let resent = lines.iter().any(|line| line.starts_with("0 resent"));
        if let Some(out) = lines.iter().find_map(|line| line.strip_prefix("out ")) {
            let out = hex::read(out.as_bytes()).unwrap();
            for record in wire::frame(&out).unwrap().iter().filter(|_| !resent) {
                self.sent.insert(0, alert::checksum(&out[record.start..record.fragment.end]));
            }
        }
    }

    /// A datagram that is one clear alert.
    fn heard(&mut self, datagram: &str, lines: &[String]) {
        let Some(bytes) = hex::read(datagram.as_bytes()) else { return };
        let &[0x42, _, _, _, _, a, b, c, d] = &bytes[..] else { return };
        let Some(answer) = lines.get(1) else { return };
        let place = |list: &[[u8; 4]]| list.iter().position(|sum| *sum == [a, b, c, d]);
        let is_good = ["0 warning", "0 critical", "0 fatal"].iter().any(|w| answer.starts_with(w));
        match (place(&self.sent), is_good, answer.starts_with("0 refused 14")) {
            (Some(place), true, _) => self.good[place] += 1,
            (Some(8), _, true) => self.ninth += 1,
            (None, _, true) if place(&self.earlier).is_some() => self.before_start += 1,
            _ => {}
        }
    }
}

#[test]
fn random_days_have_alerts_about_each_of_eight_records_and_no_more() {
    let mut alerts = AlertsHeard::default();
    let mut model = Console::default();
    for seed in 0..60 {
        day::random(seed, &mut model, &mut |line: &[u8], lines: Vec<String>| {
            alerts.line(line, &lines);
            true
        });
    }
    let AlertsHeard { good, ninth, before_start, .. } = alerts;
    assert!(good.iter().all(|count| *count > 0), "{good:?}");
    assert!(ninth > 0 && before_start > 0, "{ninth} {before_start}");
}

/// What is due in Open, with and without a started handshake beside it, occurs.
#[test]
fn random_days_meet_every_row_of_open() {
    let rows = rows::of_days(1, 300);
    assert_eq!(rows.missing(), Vec::<String>::new());
    assert!(rows.seen().keys().all(|row| !row.ends_with(": 18")));
}

/// The stored day has them too, but for those that take chance.
#[test]
fn the_stored_day_meets_the_rows_of_a_reboot() {
    let mut rows = Rows::default();
    stored::day().lines().for_each(|line| rows.line(line.as_bytes()));
    for row in [
        "Open: hello of the open one: resent",
        "Open: hello of neither: reply",
        "Open: hello of neither: 12",
        "Open: hello behind another record: 8",
        "Open: clear alert: 8",
        "Open+Replied: hello of the open one: resent",
        "Open+Replied: hello of the started one: resent",
        "Open+Replied: hello of neither: 12",
        "Open+Replied: hello of neither: 13",
        "Open+Replied: hello of neither: reply",
        "Open+Replied: hello behind another record: 8",
        "Open+Replied: clear change cipher spec: spec",
        "Open+Replied: clear change cipher spec: 12",
        "Open+Replied: clear alert: 12",
        "Open+Replied: clear alert: 14",
        "Open+Replied: clear alert: warning",
        "Open+Replied: clear alert: critical",
        "Open+Replied: clear alert: fatal",
        "Open+Replied: protected data under open: data",
        "Open+Replied: protected data under started: 9",
        "Open+Replied: protected alert under started: 9",
        "Open+Replied: protected handshake under started: 9",
        "Open+Replied: protected data under both: data",
        "Open+Replied: protected alert under open: barred",
        "Open+Replied: send: ok",
        "Open+Replied: alert clear: ok",
        "Open+Replied: alert clear: 6",
        "Open+Replied: alert protected: ok",
        "Open+Replied: close: ok",
        "Open+Spec: clear change cipher spec: 8",
        "Open+Spec: clear alert: warning",
        "Open+Spec: hello of neither: reply",
        "Open+Spec: protected data under open: data",
        "Open+Spec: protected data under started: 9",
        "Open+Spec: protected alert under started: 9",
        "Open+Spec: protected change cipher spec under started: 9",
        "Open+Spec: protected alert under open: critical",
        "Open+Spec: protected handshake under open: again",
        "Open+Spec: protected handshake under open: 11",
        "Open+Spec: protected handshake under open: 12",
        "Open+Spec: protected handshake under open: 17",
        "Open+Spec: protected handshake under neither: 9",
        "Open+Spec: protected handshake under started: open",
        "Open+Spec: protected handshake under started: 10",
        "Open+Spec: protected handshake under started: 11",
        "Open+Spec: protected handshake under started: 12",
        "Open+Spec: protected handshake under started: 17",
        "Open+Spec: protected handshake under both: open",
        "Open+Spec: protected handshake under both: 17",
    ] {
        assert!(rows.seen().contains_key(row), "the stored day lacks {row}");
    }
}
