//! How the program starts and ends: bad session files, a wrong command line, exit status by meaning.

mod common;

use common::{signal, Gatewayd, Place};
use std::fs;
use std::os::unix::fs::PermissionsExt;
use std::process::{Command, Output, Stdio};
use std::thread;
use std::time::Duration;

/// Runs it to its end; a gateway that should have refused to start and did not is killed.
fn run(words: &[&str]) -> Output {
    let mut child = Command::new(env!("CARGO_BIN_EXE_gatewayd"))
        .args(words)
        .stdout(Stdio::piped())
        .stderr(Stdio::piped())
        .spawn()
        .unwrap();
    for _ in 0..1000 {
        if child.try_wait().unwrap().is_some() {
            return child.wait_with_output().unwrap();
        }
        thread::sleep(Duration::from_millis(5));
    }
    child.kill().unwrap();
    panic!("{words:?}: it runs");
}

/// Exit status, and what is said: one line.
fn refused(place: &Place, listen: &str) -> (i32, String) {
    let (sessions, state) = (place.sessions(), place.state());
    let output = run(&[
        "--sessions",
        sessions.to_str().unwrap(),
        "--state",
        state.to_str().unwrap(),
        "--listen",
        listen,
    ]);
    let said = String::from_utf8(output.stderr).unwrap();
    assert_eq!(said.lines().count(), 1, "{said}");
    assert!(!said.contains("panicked"), "{said}");
    (output.status.code().unwrap(), said)
}

const ANY: &str = "127.0.0.1:0";
const GOOD: &str = "0102030405060708 000102030405060708090a0b0c0d0e0f10111213 Sea Star\n";

#[test]
fn words() {
    let help = run(&["--help"]);
    assert!(help.status.success() && help.stdout.starts_with(b"gatewayd:"));
    let version = run(&["--version"]);
    assert!(version.status.success() && version.stdout.starts_with(b"gatewayd 0."));
    assert_eq!(run(&[]).status.code(), Some(2));
    assert_eq!(run(&["--nonsense"]).status.code(), Some(2));
    assert_eq!(run(&["--sessions"]).status.code(), Some(2));
}

#[test]
fn bad_session_files() {
    let place = Place::new("sessions");
    assert_eq!(refused(&place, ANY).0, 3);
    let write = |bytes: &[u8], mode: u32| {
        fs::write(place.sessions(), bytes).unwrap();
        fs::set_permissions(place.sessions(), fs::Permissions::from_mode(mode)).unwrap();
    };
    for (bytes, fault) in [
        (&b""[..], "no session in it"),
        (b"# nothing\n\n", "no session in it"),
        (b"0102\n", "sessions:1:1: the identifier has 2 bytes, not 8"),
        (b"# c\n 01020304050607zz 00 A\n", "sessions:2:16: the identifier has a character"),
        (b"0102030405060708 0001 A\n", "sessions:1:18: the secret has 2 bytes, not 20"),
        (b"0102030405060708\n", "sessions:1:17: the secret is missing"),
        (b"\xff\n", "sessions:1:1: not UTF-8"),
        (&[0; 4096], "sessions:1:1: the identifier has a character"),
        (&GOOD.as_bytes()[..58], "sessions:1:59: the ship's name is missing"),
        (
            GOOD.repeat(2).as_bytes(),
            "sessions:2:1: the identifier 0102030405060708 is planted twice",
        ),
    ] {
        write(bytes, 0o600);
        let (status, said) = refused(&place, ANY);
        assert!(status == 3 && said.contains(fault), "{status} {said} instead of {fault}");
    }
    for mode in [0o604, 0o640, 0o644, 0o602, 0o666] {
        write(GOOD.as_bytes(), mode);
        let (status, said) = refused(&place, ANY);
        assert!(status == 3 && said.contains("others can read or write it"), "{status} {said}");
    }
    fs::remove_file(place.sessions()).unwrap();
    fs::create_dir(place.sessions()).unwrap();
    assert_eq!(refused(&place, ANY).0, 3);
}

#[test]
fn state_and_port() {
    let place = Place::new("state");
    place.plant(1);
    fs::write(place.state(), "a file").unwrap();
    assert_eq!(refused(&place, ANY).0, 4);
    fs::remove_file(place.state()).unwrap();

    let running = Gatewayd::start(&place, ANY, &[]);
    let (status, said) = refused(&place, ANY);
    assert!(status == 4 && said.contains("another gateway runs"), "{status} {said}");
    let other = Place::new("state2");
    other.plant(1);
    assert_eq!(refused(&other, &running.address.to_string()).0, 5);

    running.kill();
    // Of an older gateway.
    for old in ["journal", "barred"] {
        fs::write(place.state().join(old), "").unwrap();
        let (status, said) = refused(&place, ANY);
        assert!(status == 4 && said.contains("of an older gateway"), "{status} {said}");
        fs::remove_file(place.state().join(old)).unwrap();
    }
    // Tables of another version, tables of somebody else, and no database at all.
    let store = place.state().join("store.db");
    let sql = |text: &str| {
        rusqlite::Connection::open(&store).unwrap().execute_batch(text).unwrap();
    };
    sql("UPDATE store SET version = 7");
    let (status, said) = refused(&place, ANY);
    assert!(status == 4 && said.contains("tables of version 7"), "{status} {said}");
    sql("DROP TABLE store");
    let (status, said) = refused(&place, ANY);
    assert!(status == 4 && said.contains("no such table: store"), "{status} {said}");
    fs::remove_file(place.state().join("store.db-wal")).unwrap();
    fs::write(&store, "not a database, whatever its name; and long enough".repeat(100)).unwrap();
    let (status, said) = refused(&place, ANY);
    assert!(status == 4 && said.contains("not a database"), "{status} {said}");
    fs::remove_file(&store).unwrap();
    fs::create_dir(&store).unwrap();
    assert_eq!(refused(&place, ANY).0, 4);
}

/// Root may write everywhere, so somebody else has to try.
#[test]
fn no_rights() {
    let place = Place::new("rights");
    place.plant(1);
    Gatewayd::start(&place, ANY, &[]).end();
    let owned = |path: std::path::PathBuf| {
        Command::new("chown").arg("65534").arg(path).output().unwrap().status.success()
    };
    if !owned(place.sessions()) {
        println!("skipped: only root can give a file away");
        return;
    }
    let output = Command::new("setpriv")
        .args(["--reuid", "65534", "--regid", "65534", "--clear-groups", "--"])
        .args([env!("CARGO_BIN_EXE_gatewayd"), "--listen", ANY, "--sessions"])
        .arg(place.sessions())
        .arg("--state")
        .arg(place.state())
        .output()
        .unwrap();
    let said = String::from_utf8(output.stderr).unwrap();
    assert_eq!(output.status.code(), Some(4), "{said}");
    assert!(said.lines().count() == 1 && said.contains("Permission denied"), "{said}");
}

#[test]
fn both_signals_end_it_with_the_tallies() {
    let place = Place::new("signals");
    place.plant(2);
    let tallies = Gatewayd::start(&place, ANY, &[]).end();
    assert!(tallies.contains("0\t0\t0\t0\t0 of 32\tidle\tship 1\n"), "{tallies}");
    let mut running = Gatewayd::start(&place, ANY, &[]);
    signal(&running.child, "INT");
    assert_eq!(running.child.wait().unwrap().code(), Some(0));
}
