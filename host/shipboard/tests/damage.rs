//! The bytes of saved units, damaged one at a time, and lent in other lengths: each such string is refused with 16 by every call, which
//! then touches nothing, or it is a saved unit.

use shipboard::raw::{self, Result as Raw};
use shipboard::{Tally, Unit};

const REFUSED: Raw = Raw { refusal: 16, written: 0, count: 0 };

/// A unit in Idle, one in Sent, and a Closed one.
fn units() -> Vec<Unit> {
    let idle = Unit::fresh(&[7; 8], &[9; 20], 64).expect("a fresh unit");
    let mut sent = idle.clone();
    sent.hello(&[3; 16], &[3, 2], 4, &mut [0; 45]).expect("a hello");
    let mut closed = sent.clone();
    closed.close().expect("closed");
    vec![idle, sent, closed]
}

/// Which bytes are a saved unit, said a second time.
fn is_saved(bytes: &[u8]) -> bool {
    let one_of = |at: usize, most: u8| bytes[at] <= most;
    bytes.len() == 180
        && bytes.starts_with(b"WTU\x01")
        && one_of(40, 7)
        && one_of(115, 3)
        && (bytes[101] == 2 || bytes[101] == 3)
}

/// Every call on these bytes, and whether one of them touched anything.
fn calls(bytes: &[u8]) -> (Vec<Raw>, bool) {
    let (mut state, mut tally, mut out, mut answers) =
        (bytes.to_vec(), [1; 16], [0xa5; 1323], [0xa5; 192]);
    let given = vec![
        raw::state(&state),
        raw::arrived(&state),
        raw::width(&state),
        raw::again(&state, &mut out),
        raw::hello(&mut state, &[3; 16], &[2], 0, &mut out),
        raw::send_data(&mut state, b"x", &mut out),
        raw::send_alert(&mut state, 1, 1, 90, b"", &mut out),
        raw::send_alert(&mut state, 0, 1, 90, b"", &mut out),
        raw::receive(&mut state, &mut tally, &[0x43, 0, 0, 0, 0, 0], &mut out, &mut answers),
        raw::start(&mut state),
        raw::close(&mut state),
    ];
    let touched = (&state[..], tally, out, answers) != (bytes, [1; 16], [0xa5; 1323], [0xa5; 192]);
    (given, touched)
}

#[test]
fn damaged_bytes() {
    let (mut tried, mut right) = (0, 0);
    for unit in units() {
        for place in 0..180 {
            for byte in 0..=255 {
                let mut damaged = unit.save().to_vec();
                damaged[place] = byte;
                let (given, touched) = calls(&damaged);
                tried += 1;
                if is_saved(&damaged) {
                    right += 1;
                    assert_eq!(given[0].refusal, 0, "byte {place} set to {byte}");
                    assert_eq!(given[0].count, usize::from(damaged[40]));
                    assert_eq!(given[2].count, usize::from(damaged[161]));
                } else {
                    assert!(given.iter().all(|result| *result == REFUSED), "{place}, {byte}");
                    assert!(
                        !touched,
                        "byte {place} set to {byte}: a refused call touched something"
                    );
                }
            }
        }
    }
    println!("{tried} damaged units: {right} are saved units, {} refused with 16", tried - right);
}

#[test]
fn other_lengths() {
    let saved = units()[0].save().to_vec();
    for length in (0..180).chain(181..400) {
        let mut bytes = saved.clone();
        bytes.resize(length, 0);
        let (given, touched) = calls(&bytes);
        assert!(given.iter().all(|result| *result == REFUSED) && !touched, "{length}");
        assert_eq!(raw::fresh(&[7; 8], &[9; 20], 64, &mut bytes), REFUSED);
    }
    let (mut state, mut out) = (saved.clone(), [0; 128]);
    let hello = [0x43, 0, 0, 0, 0, 0];
    for (tally, answers) in [(15, 192), (17, 192), (16, 191), (16, 193), (0, 0)] {
        let (mut tally, mut answers) = (vec![0; tally], vec![0; answers]);
        assert_eq!(raw::receive(&mut state, &mut tally, &hello, &mut out, &mut answers), REFUSED);
    }
    for room in [0, 1, 127] {
        let given = raw::receive(&mut state, &mut [0; 16], &hello, &mut out[..room], &mut [0; 192]);
        assert_eq!(given.refusal, 6);
    }
    assert_eq!(state, saved);
}

/// Every length of what fresh and hello are lent, and every width and key refresh about their limits.
#[test]
fn limits() {
    for (id, secret, width) in
        [(7, 20, 32), (9, 20, 32), (8, 19, 32), (8, 21, 32), (8, 20, 31), (8, 20, 65), (0, 0, 0)]
    {
        assert!(Unit::fresh(&vec![1; id], &vec![1; secret], width).is_err());
    }
    for width in 32..=64 {
        assert_eq!(
            Unit::fresh(&[1; 8], &[1; 20], width).map(|unit| unit.width()),
            Ok(width as usize)
        );
    }
    let fresh = units()[0].clone();
    let mut out = [0; 45];
    for (random, macs, refresh, room, refusal) in [
        (15, &[2u8][..], 0, 45, 16),
        (17, &[2], 0, 45, 16),
        (16, &[], 0, 45, 16),
        (16, &[2, 2], 0, 45, 16),
        (16, &[1], 0, 45, 16),
        (16, &[2, 3, 2], 0, 45, 16),
        (16, &[2], 256, 45, 16),
        (16, &[2], 255, 42, 6),
        (16, &[2, 3], 255, 44, 6),
    ] {
        let mut unit = fresh.clone();
        let refused = unit.hello(&vec![1; random], macs, refresh, &mut out[..room]);
        assert_eq!(refused.map_err(|refused| refused.number()), Err(refusal));
        assert_eq!(unit, fresh);
    }
    let mut unit = fresh;
    assert_eq!(unit.hello(&[1; 16], &[2], 255, &mut out[..43]).map(<[u8]>::len), Ok(43));
    assert_eq!(Tally::default().save(), &[0; 16]);
}
