//! The ship that a day is about, as the simulator knows one: the calls of a shipboard end. It is the
//! proved one (`proved`), and the second implementation's is put beside it by `Judged`, which makes
//! each call on both and wants the same outcome.

use peer::ship;
use peer::shore::Tally;
use std::cell::RefCell;
use std::rc::Rc;

/// A shipboard end. A refusal is its number.
pub trait Ship {
    fn hello(&mut self, random: &[u8], macs: &[u8], refresh: u8) -> Result<Vec<u8>, u8>;
    /// The hello or the flight again, until the gateway is known to have the flight.
    fn again(&mut self) -> Result<Vec<u8>, u8>;
    fn receive(&mut self, datagram: &[u8]) -> Heard;
    fn send(&mut self, data: &[u8]) -> Result<Vec<u8>, u8>;
    /// A protected alert about the record lent.
    fn alert(&mut self, level: u8, description: u8, record: &[u8]) -> Result<Vec<u8>, u8>;
}

/// What a datagram gave.
#[derive(Clone, PartialEq, Eq, Debug)]
pub enum Heard {
    /// Refused as a whole, by its number and, where it is unsound, the place.
    Refused(u8, Option<usize>),
    Records {
        answers: Vec<Result<ship::Answer, u8>>,
        out: Option<Vec<u8>>,
    },
}

impl Heard {
    /// The flight, where the datagram opened.
    pub fn flight(&self) -> Option<&[u8]> {
        match self {
            Heard::Records { out, .. } => out.as_deref(),
            Heard::Refused(..) => None,
        }
    }

    /// Whether it has anything from the gateway that was not refused.
    pub fn is_news(&self) -> bool {
        matches!(self, Heard::Records { answers, .. } if answers.iter().any(Result::is_ok))
    }
}

/// More room than any datagram needs.
const ROOM: usize = 2048;

/// The ship of the second implementation.
pub struct Second {
    ship: ship::Ship,
    tally: Tally,
}

impl Second {
    pub fn fresh(session: &[u8], secret: &[u8], width: u32) -> Result<Second, String> {
        let ship = ship::Ship::fresh(session, secret, width);
        let ship = ship.map_err(|refusal| format!("{refusal:?}"))?;
        Ok(Second { ship, tally: Tally::default() })
    }
}

impl Ship for Second {
    fn hello(&mut self, random: &[u8], macs: &[u8], refresh: u8) -> Result<Vec<u8>, u8> {
        self.ship.hello(random, macs, refresh.into(), ROOM).map_err(|refusal| refusal as u8)
    }

    fn again(&mut self) -> Result<Vec<u8>, u8> {
        self.ship.again(ROOM).map_err(|refusal| refusal as u8)
    }

    fn receive(&mut self, datagram: &[u8]) -> Heard {
        match self.ship.receive(datagram, ROOM, &mut self.tally) {
            ship::Received::Refused(refusal) => Heard::Refused(refusal as u8, None),
            ship::Received::Unframed(fault) => Heard::Refused(fault.refusal, Some(fault.offset)),
            ship::Received::Records { answers, out } => {
                let numbered = |answer: ship::Judged| answer.map_err(|refusal| refusal as u8);
                Heard::Records { answers: answers.into_iter().map(numbered).collect(), out }
            }
        }
    }

    fn send(&mut self, data: &[u8]) -> Result<Vec<u8>, u8> {
        self.ship.send(data, ROOM).map_err(|refusal| refusal as u8)
    }

    fn alert(&mut self, level: u8, description: u8, record: &[u8]) -> Result<Vec<u8>, u8> {
        let sent = self.ship.alert(true, level, description, record, ROOM);
        sent.map_err(|refusal| refusal as u8)
    }
}

/// The first call whose outcomes differ, of all the ships of a day.
pub type Difference = Rc<RefCell<Option<String>>>;

/// A ship and its judge: each call is made on both.
pub struct Judged<S, J> {
    pub ship: S,
    pub judge: J,
    pub difference: Difference,
}

impl<S: Ship, J: Ship> Judged<S, J> {
    fn same<T: PartialEq + std::fmt::Debug>(&mut self, call: &str, got: T, wanted: T) -> T {
        if got != wanted {
            let told = || format!("{call}: the ship {got:?}, its judge {wanted:?}");
            self.difference.borrow_mut().get_or_insert_with(told);
        }
        got
    }
}

impl<S: Ship, J: Ship> Ship for Judged<S, J> {
    fn hello(&mut self, random: &[u8], macs: &[u8], refresh: u8) -> Result<Vec<u8>, u8> {
        let wanted = self.judge.hello(random, macs, refresh);
        let got = self.ship.hello(random, macs, refresh);
        self.same("hello", got, wanted)
    }

    fn again(&mut self) -> Result<Vec<u8>, u8> {
        let (got, wanted) = (self.ship.again(), self.judge.again());
        self.same("again", got, wanted)
    }

    fn receive(&mut self, datagram: &[u8]) -> Heard {
        let (got, wanted) = (self.ship.receive(datagram), self.judge.receive(datagram));
        self.same("receive", got, wanted)
    }

    fn send(&mut self, data: &[u8]) -> Result<Vec<u8>, u8> {
        let (got, wanted) = (self.ship.send(data), self.judge.send(data));
        self.same("send", got, wanted)
    }

    fn alert(&mut self, level: u8, description: u8, record: &[u8]) -> Result<Vec<u8>, u8> {
        let wanted = self.judge.alert(level, description, record);
        let got = self.ship.alert(level, description, record);
        self.same("alert", got, wanted)
    }
}

#[cfg(test)]
mod tests {
    use super::*;
    use crate::proved::Proved;
    use peer::shore::{Received, Shore};

    const SESSION: [u8; 8] = [5; 8];
    const SECRET: [u8; 20] = [7; 20];

    fn fresh(width: u32) -> Second {
        Second::fresh(&SESSION, &SECRET, width).unwrap()
    }

    fn ashore(shore: &mut Shore, datagram: &[u8]) -> Option<Vec<u8>> {
        match shore.receive(datagram, &[8; 16], 128, &mut Tally::default()) {
            Received::Records { out, .. } => out,
            other => panic!("{other:?}"),
        }
    }

    /// A handshake, data both ways, and again until the first data.
    fn day(ship: &mut impl Ship) {
        let mut shore = Shore::fresh(&SESSION, &SECRET, 32).unwrap();
        assert_eq!(ship.again(), Err(8));
        let hello = ship.hello(&[1; 16], &[2], 4).unwrap();
        assert_eq!(ship.again(), Ok(hello.clone()));
        let reply = ashore(&mut shore, &hello).unwrap();
        let heard = ship.receive(&reply);
        let flight = heard.flight().unwrap().to_vec();
        assert_eq!((heard.is_news(), ship.again()), (true, Ok(flight.clone())));
        assert_eq!(ashore(&mut shore, &flight), None);
        ashore(&mut shore, &ship.send(b"report").unwrap());
        assert!(ship.receive(&shore.send(b"order", 100).unwrap()).is_news());
        let late = shore.send(b"late", 100).unwrap();
        for _ in 0..40 {
            ship.receive(&shore.send(b"order", 100).unwrap());
        }
        ship.receive(&late);
        assert!(!ship.receive(&[0]).is_news());
        assert_eq!(ship.again(), Err(8));
        ship.alert(2, 0, &late).unwrap();
    }

    #[test]
    fn a_ship_and_its_judge_agree() {
        let mut ship =
            Judged { ship: fresh(32), judge: fresh(32), difference: Difference::default() };
        day(&mut ship);
        assert_eq!(*ship.difference.borrow(), None);
    }

    #[test]
    fn the_proved_ship_and_its_judge_agree() {
        let proved = Proved::fresh(&SESSION, &SECRET, 32).unwrap();
        let mut ship = Judged { ship: proved, judge: fresh(32), difference: Difference::default() };
        day(&mut ship);
        assert_eq!(*ship.difference.borrow(), None);
    }

    #[test]
    fn a_judge_of_another_width_does_not() {
        let mut ship =
            Judged { ship: fresh(32), judge: fresh(64), difference: Difference::default() };
        day(&mut ship);
        let difference = ship.difference.take().unwrap();
        assert!(
            difference.starts_with("receive: the ship Records { answers: [Err(10)]"),
            "{difference}"
        );
    }
}
