//! What is refused as a whole prints its number, where the fault lies, and its meaning; and a refusal leaves all as it was.

use gateway::{Connection, Refusal, Tally};

fn fresh() -> Connection {
    Connection::fresh(&[7; 8], &[9; 20], 32).expect("the sizes are right")
}

#[test]
fn refused_datagrams() {
    let (mut connection, mut tally, mut out) = (fresh(), Tally::default(), [0; 128]);
    let record = [0xc4, 0, 0, 0, 1, 7];
    let cut = [&record[..], &[0xc4, 0]].concat();
    let mut said = |datagram: &[u8], random: &[u8], room: usize| {
        connection
            .receive(&mut tally, datagram, random, &mut out[..room])
            .expect_err("it is refused")
            .to_string()
    };
    assert_eq!(said(&[], &[3; 16], 128), "refused 1 at 0: datagram of 0 or over 1,400 bytes");
    assert_eq!(said(&cut, &[3; 16], 128), "refused 2 at 6: a record header's fields pass the end");
    assert_eq!(said(&record, &[3; 16], 127), "refused 6: output buffer too short");
    assert!(said(&record, &[3; 15], 128).starts_with("refused 16: argument out of range"));
    assert_eq!((connection, tally), (fresh(), Tally::default()));
}

#[test]
fn stored_bytes() {
    assert_eq!(Connection::fresh(&[7; 9], &[9; 20], 32), Err(Refusal::Argument));
    for width in [0, 31, 65, 288, u32::MAX] {
        assert_eq!(Connection::fresh(&[7; 8], &[9; 20], width), Err(Refusal::Argument));
    }
    assert_eq!(Connection::load(&[]), Err(Refusal::Argument));
    let mut saved = *fresh().save();
    assert_eq!(Connection::load(&saved), Ok(fresh()));
    saved[40] = 6;
    assert_eq!(Connection::load(&saved), Err(Refusal::Argument));
    assert!(!format!("{:?}", fresh()).contains('9'));
}
