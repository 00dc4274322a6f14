//! Short messages: the worked example of the console, and the places where the rules are easily read wrongly.

use peer::handshakes::{secret, session};
use peer::keys::Kind;
use peer::script::Script;

const RANDOM: &str = "808182838485868788898a8b8c8d8e8f";

fn open() -> Script {
    let mut script = Script::new(&session(), &secret());
    script.fresh();
    script.hello(0x10, Kind::Sha80, 3);
    script.flight();
    script
}

fn message(script: &mut Script, hex: &str) -> Vec<String> {
    script.line(&format!("message {hex} {RANDOM} 128"))
}

fn parts(lines: &[String]) -> &str {
    let behind = lines[lines.len() - 1].split(" parts=").nth(1).unwrap();
    behind.split(" started=").next().unwrap()
}

#[test]
fn the_worked_example() {
    let mut script = open();
    let second = "0b050423f2c00100030702026f6e9959f733b660690efefc";
    for _ in 0..2 {
        let lines = message(&mut script, second);
        assert_eq!(lines[0], "message waiting 7 1 2 ports 9202 49153");
        assert_eq!(parts(&lines), "7:1/2");
    }
    let lines = message(&mut script, "0b050423f2c00100030702026f74686572");
    assert_eq!((&lines[0][..], parts(&lines)), ("message refused 20", "7:1/2"));
    let lines = message(&mut script, "0b050423f2c0010003070201640001706f73697469");
    assert_eq!(
        lines[0],
        "message gathered 640001706f736974696f6e9959f733b660690efefc ports 9202 49153"
    );
    assert_eq!(lines[1..3], ["receive records 1", "0 data 3 8"]);
    assert_eq!(parts(&lines), "-");
    let lines = message(&mut script, "06050423f2c00164000273696e676c6550e39ff02612d4815536");
    assert_eq!(
        lines[..3],
        ["message received 7 19 ports 9202 49153", "receive records 1", "0 data 3 6"]
    );
}

#[test]
fn the_gathering_is_no_part_of_the_connection() {
    let mut script = open();
    message(&mut script, "0b050423f2c001000309030178");
    for line in ["close", "start", "close"] {
        assert_eq!(parts(&script.line(line)), "9:1/3");
    }
    assert_eq!(parts(&script.line(&format!("message 0b050423f2c001000309030278 00 128"))), "9:1/3");
    assert_eq!(
        parts(&script.line(&format!("message 0b050423f2c001000309030278 {RANDOM} 127"))),
        "9:1/3"
    );
    message(&mut script, "0b050423f2c001000309030278");
    let lines = message(&mut script, "0b050423f2c001000309030378");
    assert_eq!(lines[0], "message gathered 787878 ports 9202 49153");
    assert!(lines[1].starts_with("receive refused "), "{lines:?}");
    assert_eq!(parts(&lines), "-");
    message(&mut script, "0b050423f2c001000309030178");
    assert_eq!(parts(&script.fresh()), "-");
}
