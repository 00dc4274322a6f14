//! A handshake by the second implementation's unit with the exported library: connections in each state, with the unit that
//! goes with them.

use gateway::{raw, Connection, State, Tally};
use peer::keys::Kind;
use peer::unit::{Hello, Unit};
use peer::wire::Content;

pub const ID: [u8; 8] = [0xa0, 0xa1, 0xa2, 0xa3, 0xa4, 0xa5, 0xa6, 0xa7];
pub const SECRET: [u8; 20] = [0x5c; 20];
pub const RANDOM: [u8; 16] = [0x80; 16];

/// A connection, and the unit at its other end.
pub struct Link {
    pub connection: Connection,
    pub unit: Unit,
}

impl Link {
    /// A fresh connection, in Idle.
    pub fn new() -> Link {
        let connection = Connection::fresh(&ID, &SECRET, 32).expect("the session is in range");
        Link { connection, unit: Unit::new(&ID, &SECRET) }
    }

    /// A connection in the state, reached by what leads there.
    pub fn in_state(state: State, kind: Kind) -> Link {
        let mut link = Link::new();
        if state != State::Idle {
            link.greet(kind);
        }
        match state {
            State::Idle | State::Replied => {}
            State::Spec => link.take(&link.unit.clear(Content::ChangeCipherSpec, true, 1, &[1])),
            State::Open => link.open(),
            State::Closed => {
                link.open();
                link.connection.close().expect("an open connection can be closed");
            }
            State::Barred => {
                link.open();
                let fatal = link.record(Content::Alert, 7, &[3, 40, 0, 0, 0, 0]);
                link.take(&fatal);
            }
        }
        assert_eq!(link.connection.state(), state);
        link
    }

    fn greet(&mut self, kind: Kind) {
        let datagram = self.hello(kind);
        let mut out = [0; 128];
        let mut tally = Tally::default();
        let received = self.connection.receive(&mut tally, &datagram, &RANDOM, &mut out);
        let reply = received.expect("the hello is taken").to_send().to_vec();
        self.unit.hear_reply(&reply).expect("the unit takes the reply");
    }

    /// The unit's hello, as a datagram; the same one each time.
    pub fn hello(&mut self, kind: Kind) -> Vec<u8> {
        self.unit.say_hello(&Hello::plain(&[0x10; 16], &ID, kind, 3).message())
    }

    fn open(&mut self) {
        let flight = self.unit.flight().expect("the unit heard the reply");
        self.take(&flight);
    }

    /// A protected record of the unit's, as a datagram.
    pub fn record(&self, content: Content, number: u16, bytes: &[u8]) -> Vec<u8> {
        self.unit.protect(content, false, number, bytes).expect("the unit heard the reply")
    }

    fn take(&mut self, datagram: &[u8]) {
        let (mut out, mut tally) = ([0; 128], Tally::default());
        let received = self.connection.receive(&mut tally, datagram, &RANDOM, &mut out);
        received.expect("the datagram is soundly framed");
    }
}

/// What a receive is lent besides the datagram; each byte is one that no call leaves by chance.
#[derive(Clone, PartialEq, Eq)]
pub struct Lent {
    pub state: Vec<u8>,
    pub tally: Vec<u8>,
    pub out: Vec<u8>,
    pub answers: Vec<u8>,
}

impl Lent {
    pub fn new(state: &[u8]) -> Lent {
        let (tally, out, answers) = (vec![1; 16], vec![0xa5; 128], vec![0x5a; 192]);
        Lent { state: state.to_vec(), tally, out, answers }
    }

    pub fn receive(&mut self, datagram: &[u8], random: &[u8]) -> raw::Result {
        raw::receive(
            &mut self.state,
            &mut self.tally,
            datagram,
            random,
            &mut self.out,
            &mut self.answers,
        )
    }
}
