//! Short messages: the gatherer of their parts in its 5,700 bytes, and a message taken.

use std::fmt;

use crate::connection::{done, refusal};
use crate::{
    raw, Connection, Received, Refusal, Refused, Tally, ANSWERS_SIZE, ASSEMBLY_ROOM, GATHERER_SIZE,
    REFERENCES_MOST, SAID_SIZE,
};

/// The parts of short messages that wait for further ones: up to eleven of a reference, four references at once. With the
/// buffer in which a gathered datagram is shown.
#[derive(Clone)]
pub struct Gatherer {
    bytes: Box<[u8; GATHERER_SIZE]>,
    assembly: Box<[u8; ASSEMBLY_ROOM]>,
}

/// A reference that waits: how many of its parts have come, and how many there are.
#[derive(Clone, Copy, PartialEq, Eq, Debug)]
pub struct Held {
    pub reference: u8,
    pub have: usize,
    pub total: u8,
}

#[derive(Clone, Copy, PartialEq, Eq, Debug)]
pub struct Ports {
    pub destination: u16,
    pub originator: u16,
}

/// What became of a short message.
#[derive(Clone, Copy, PartialEq, Eq, Debug)]
pub enum Gathered<'d> {
    /// It waits for further parts.
    Waiting { ports: Ports, held: Held },
    /// Its datagram stands in the message, from `start` on.
    Alone { ports: Ports, start: usize, datagram: &'d [u8] },
    /// Its datagram was gathered from several.
    Whole { ports: Ports, datagram: &'d [u8] },
}

/// A short message that was taken for a connection: what became of it, and what its datagram got, where it shows one.
#[derive(Clone, Debug)]
pub struct Messaged<'d, 'o> {
    pub gathered: Gathered<'d>,
    pub got: Option<Result<Received<'d, 'o>, Refused>>,
}

impl Gatherer {
    /// A gatherer that holds nothing.
    pub fn new() -> Gatherer {
        let mut bytes = Box::new([0; GATHERER_SIZE]);
        let made = raw::gatherer(&mut bytes[..]);
        debug_assert_eq!(made.refusal, 0);
        Gatherer { bytes, assembly: Box::new([0; ASSEMBLY_ROOM]) }
    }

    /// The gatherer that was saved; bytes that are no saved gatherer are refused with 16.
    pub fn load(saved: &[u8]) -> Result<Gatherer, Refusal> {
        done(raw::held(saved, 0))?;
        let mut gatherer = Gatherer::new();
        gatherer.bytes.copy_from_slice(saved);
        Ok(gatherer)
    }

    /// The bytes to store.
    pub fn save(&self) -> &[u8; GATHERER_SIZE] {
        &self.bytes
    }

    /// The references that wait, by rising reference.
    pub fn held(&self) -> Vec<Held> {
        let mut held: Vec<Held> = (0..REFERENCES_MOST as u32)
            .map(|slot| raw::held(&self.bytes[..], slot))
            .filter(|slot| slot.count >> 8 != 0)
            .map(|slot| Held {
                reference: (slot.count & 0xff) as u8,
                have: slot.written,
                total: (slot.count >> 8) as u8,
            })
            .collect();
        held.sort_by_key(|held| held.reference);
        held
    }

    /// Drops a reference; one that is not held changes nothing.
    pub fn drop_reference(&mut self, reference: u8) {
        let dropped = raw::drop(&mut self.bytes[..], reference.into());
        debug_assert_eq!(dropped.refusal, 0);
    }

    /// Gathers one short message: its user data.
    pub fn gather<'d>(&'d mut self, message: &'d [u8]) -> Result<Gathered<'d>, Refusal> {
        let mut said = [0; SAID_SIZE];
        done(raw::gather(&mut self.bytes[..], message, &mut self.assembly[..], &mut said))?;
        Ok(self.told(&said, message).expect("a message that was gathered is told of"))
    }

    /// Takes one short message for a connection. `random` and `out` are as for [`Connection::receive`].
    pub fn message<'d, 'o>(
        &'d mut self,
        connection: &mut Connection,
        tally: &mut Tally,
        message: &'d [u8],
        random: &[u8],
        out: &'o mut [u8],
    ) -> Result<Messaged<'d, 'o>, Refusal> {
        let (mut said, mut answers) = ([0; SAID_SIZE], [0; ANSWERS_SIZE]);
        let given = raw::message(
            connection.lent(),
            tally.lent(),
            &mut self.bytes[..],
            message,
            &mut self.assembly[..],
            random,
            &mut said,
            out,
            &mut answers,
        );
        let (refused, out): (_, &'o [u8]) = (refusal(given), out);
        let Some(gathered) = self.told(&said, message) else {
            return Err(refused.expect("a message that tells nothing was refused"));
        };
        let got = gathered.datagram().map(|datagram| match refused {
            Some(refusal) => Err(Refused { refusal, offset: given.count }),
            None => {
                let to_send = &out[..given.written];
                Ok(Received { datagram, answers, count: given.count, to_send })
            }
        });
        Ok(Messaged { gathered, got })
    }

    /// What the 10 bytes tell; nothing where they were left as zeros.
    fn told<'d>(&'d self, said: &[u8; SAID_SIZE], message: &'d [u8]) -> Option<Gathered<'d>> {
        let number = |at: usize| u16::from_be_bytes([said[at], said[at + 1]]);
        let (ports, place) = (Ports { destination: number(4), originator: number(6) }, number(8));
        let place = usize::from(place);
        match said[0] {
            0 => None,
            1 => {
                let held = Held { reference: said[1], have: said[2].into(), total: said[3] };
                Some(Gathered::Waiting { ports, held })
            }
            2 => Some(Gathered::Alone { ports, start: place, datagram: &message[place..] }),
            _ => Some(Gathered::Whole { ports, datagram: &self.assembly[..place] }),
        }
    }
}

impl<'d> Gathered<'d> {
    /// The datagram that is shown, if one is.
    pub fn datagram(&self) -> Option<&'d [u8]> {
        match self {
            Gathered::Waiting { .. } => None,
            Gathered::Alone { datagram, .. } | Gathered::Whole { datagram, .. } => Some(datagram),
        }
    }

    /// The ports of the message.
    pub fn ports(&self) -> Ports {
        match self {
            Gathered::Waiting { ports, .. }
            | Gathered::Alone { ports, .. }
            | Gathered::Whole { ports, .. } => *ports,
        }
    }
}

impl Default for Gatherer {
    fn default() -> Gatherer {
        Gatherer::new()
    }
}

/// What is held, and its bytes: not what stood in the assembly buffer.
impl PartialEq for Gatherer {
    fn eq(&self, other: &Gatherer) -> bool {
        self.bytes == other.bytes
    }
}

impl Eq for Gatherer {}

impl fmt::Debug for Gatherer {
    fn fmt(&self, to: &mut fmt::Formatter) -> fmt::Result {
        write!(to, "Gatherer({:?})", self.held())
    }
}
