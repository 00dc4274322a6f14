//! `why` over a gateway's store: the ship's saved connection is the one that is asked, with its secret, and nothing changes.

mod common;

use common::{name, wait_for, Gatewayd, Place, Ship};
use gateway::{Answer, Connection, Tally, REPLY_ROOM};
use gatewayd::why::ask::{answer, Failure};
use gatewayd::why::facts::SIZE;
use gatewayd::why::options::Options;

/// What a copy says to the datagram when it receives it, as the facts of one of the refusals.
fn received(
    connection: &Connection,
    _: u32,
    datagram: &[u8],
    random: &[u8; 16],
    index: usize,
) -> Option<[u8; SIZE]> {
    let mut copy = connection.clone();
    let (mut tally, mut out) = (Tally::default(), [0; REPLY_ROOM]);
    let refusal = match copy.receive(&mut tally, datagram, random, &mut out) {
        Err(refused) => refused.refusal.number(),
        Ok(received) => match received.answers().nth(index) {
            None => 16,
            Some(Answer::Refused(refusal)) => refusal.number(),
            Some(_) => 0,
        },
    };
    let mut facts = [0; SIZE];
    (facts[3], facts[7], facts[15], facts[35]) = (refusal, connection.state() as u8, 4, 1);
    Some(facts)
}

#[test]
fn the_saved_connection_is_asked() {
    let place = Place::new("why");
    place.plant(2);
    let gatewayd = Gatewayd::start(&place, "127.0.0.1:0", &[]);
    let mut ship = Ship::new(0, gatewayd.address);
    ship.open(1);
    ship.send(&ship.data(40));
    wait_for("the report", || place.listed(0).len() == 1);
    let mut options = Options {
        store: place.at(),
        sessions: place.sessions(),
        ship: name(0),
        index: 0,
        edition: 1,
        packet: None,
        raw: true,
        json: false,
    };
    let mut damaged = ship.data(41);
    damaged[5] ^= 1;
    let clear = vec![0x44, 0, 1, 7];
    // Beside the running gateway and without it, as often as one likes.
    for turn in 0..2 {
        for (datagram, number) in [
            (&ship.data(40), 11),
            (&ship.data(41), 0),
            (&ship.data(8), 10),
            (&damaged, 9),
            (&clear, 8),
            (&vec![], 1),
        ] {
            let told = answer(&options, datagram, &received).unwrap();
            match number {
                0 => assert!(told.contains(" is not refused. "), "{told}"),
                _ => assert!(told.contains(&format!(" is refused {number}: ")), "{told}"),
            }
            // In hexadecimal it is the same, and the facts by name have the number.
            let hexadecimal = Options { raw: false, json: true, ..options.clone() };
            let text = peer::hex::write(datagram);
            let json = answer(&hexadecimal, text.as_bytes(), &received).unwrap();
            assert!(json.contains(&format!("\"refusal\":{number}")), "{json}");
        }
        if turn == 0 {
            signal_end(&gatewayd);
        }
    }
    assert_eq!(place.listed(0).len(), 1);
    // A record that is not there, a ship that is not there, another secret, a sessions file that anybody can read, no store.
    options.index = 1;
    assert!(answer(&options, &ship.data(41), &received)
        .unwrap()
        .starts_with("There is nothing to ask"));
    options.index = 0;
    let status = |options: &Options| -> Option<u8> {
        answer(options, &ship.data(41), &received).err().map(|Failure { status, .. }| status)
    };
    assert_eq!(status(&Options { ship: "none".to_string(), ..options.clone() }), Some(2));
    assert_eq!(status(&Options { packet: Some(1), raw: false, ..options.clone() }), Some(2));
    let nowhere = gatewayd::store::Where::Directory(place.path.join("nowhere"));
    assert_eq!(status(&Options { store: nowhere, ..options.clone() }), Some(4));
    assert_eq!(status(&Options { sessions: place.path.join("none"), ..options.clone() }), Some(3));
    // Ship 1 never said hello: its connection is fresh, and has no place for data.
    options.ship = name(1);
    assert!(answer(&options, &ship.data(41), &received).unwrap().contains(" is refused 8: "));
}

fn signal_end(gatewayd: &Gatewayd) {
    common::signal(&gatewayd.child, "TERM");
    std::thread::sleep(std::time::Duration::from_millis(300));
}
