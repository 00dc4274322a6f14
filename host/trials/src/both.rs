//! Both proved ends on one bad link (02, P14), as one can watch it: after a handshake in order, the two ends send while the link drops,
//! repeats and reorders what they wrote and adds what anybody could. What each end hands out is held to the theorem's set: data that the
//! other end sent, as sent, each at most once, and exactly those that arrived before any record of a number higher by the width.

use std::collections::BTreeMap;

use gateway::Connection;
use peer::rng::Rng;
use shipboard::Unit;

const STEPS: usize = 300;
const SHORT: usize = 40;
const WARNING: u32 = 1;
const USER_CANCELED: u32 = 90;

#[derive(Default)]
struct Seen {
    sent: u64,
    handed_out: u64,
    never_arrived: u64,
    too_late: u64,
    repeated: u64,
    strange: u64,
}

/// So many links, each with its own session, keys, widths and faults.
pub fn run(links: u64, seed: u64) -> Result<String, String> {
    let mut seen = Seen::default();
    for link in 1..=links {
        let told = |wrong| format!("trials: both: seed {seed}, link {link}: {wrong}");
        one(&mut Rng::new(seed.wrapping_mul(1_000_003) + link), &mut seen).map_err(told)?;
    }
    if seen.never_arrived == 0 || seen.too_late == 0 || seen.repeated == 0 || seen.strange == 0 {
        return Err(format!("trials: both: seed {seed}: {links} links did not meet every case"));
    }
    Ok(format!(
        "trials: both: {links} links: of {} reports sent {} were handed out, each as sent and once; {} never arrived, {} came too late, \
         {} came again; {} strange datagrams changed nothing",
        seen.sent, seen.handed_out, seen.never_arrived, seen.too_late, seen.repeated, seen.strange
    ))
}

/// One course: from the end that sends to the end that hands out.
struct Course {
    width: u16,
    /// All that was written to this end, the handshake too.
    written: Vec<Vec<u8>>,
    /// Data sent, by number, and what was handed out.
    sent: BTreeMap<u16, Vec<u8>>,
    handed_out: BTreeMap<u16, Vec<u8>>,
    /// Numbers of the records of these keys that have arrived, and those data that the theorem speaks for.
    arrived: Vec<u16>,
    due: Vec<u16>,
}

impl Course {
    fn new(width: u32, written: Vec<Vec<u8>>) -> Course {
        Course {
            width: width as u16,
            written,
            sent: BTreeMap::new(),
            handed_out: BTreeMap::new(),
            arrived: vec![0],
            due: Vec::new(),
        }
    }

    fn write_data(&mut self, datagram: Vec<u8>, data: Vec<u8>) {
        self.sent.insert(number_of(&datagram), data);
        self.written.push(datagram);
    }

    /// A datagram that the other end wrote arrives, and these data are handed out by it.
    fn arrive(
        &mut self,
        datagram: &[u8],
        given: Vec<(u16, Vec<u8>)>,
        seen: &mut Seen,
    ) -> Result<(), String> {
        let number = number_of(datagram);
        let is_data = datagram[0] & 0x0f == 4;
        let first = is_data && !self.arrived.contains(&number);
        let early = self.arrived.iter().all(|other| *other < number + self.width);
        match (is_data, first, early) {
            (true, true, true) => {
                if given != [(number, self.sent[&number].clone())] {
                    return Err(format!("report {number} arrived in time and gave {given:?}"));
                }
                self.due.push(number);
            }
            _ if !given.is_empty() => {
                return Err(format!("{number} came late or again and gave {given:?}"))
            }
            (true, true, false) => seen.too_late += 1,
            (true, false, _) => seen.repeated += 1,
            _ => {}
        }
        if is_protected(datagram) {
            self.arrived.push(number);
        }
        for (number, data) in given {
            if self.handed_out.insert(number, data).is_some() {
                return Err(format!("report {number} was handed out twice"));
            }
        }
        Ok(())
    }

    /// The list at the end: what was due, as sent.
    fn ended(&self, seen: &mut Seen) -> Result<(), String> {
        let listed: Vec<u16> = self.handed_out.keys().copied().collect();
        let mut due = self.due.clone();
        due.sort_unstable();
        if listed != due
            || self.handed_out.iter().any(|(number, data)| self.sent.get(number) != Some(data))
        {
            return Err("the list is not that of the reports that arrived in time".to_string());
        }
        seen.sent += self.sent.len() as u64;
        seen.handed_out += self.handed_out.len() as u64;
        seen.never_arrived +=
            self.sent.keys().filter(|number| !self.arrived.contains(number)).count() as u64;
        Ok(())
    }
}

/// The two ends, just open, and the course to each.
struct Ends {
    shore: Connection,
    ship: Unit,
    tallies: (gateway::Tally, shipboard::Tally),
    ashore: Course,
    aboard: Course,
    session: (Vec<u8>, Vec<u8>),
}

impl Ends {
    /// A handshake in order.
    fn open(rng: &mut Rng) -> Result<Ends, String> {
        let (id, secret) = (rng.bytes(8), rng.bytes(20));
        let widths = (rng.between(32, 64) as u32, rng.between(32, 64) as u32);
        let wrong = |what: &str| what.to_string();
        let mut shore = Connection::fresh(&id, &secret, widths.0).map_err(|x| x.to_string())?;
        let mut ship = Unit::fresh(&id, &secret, widths.1).map_err(|x| x.to_string())?;
        let mut tallies = (gateway::Tally::default(), shipboard::Tally::default());
        let macs = rng.pick(&[vec![2], vec![3], vec![2, 3], vec![3, 2]]);
        let refresh = rng.between(0, 20) as u32;
        let (mut out, mut other) = ([0; 2048], [0; 2048]);
        let hello = ship
            .hello(&rng.bytes(16), &macs, refresh, &mut out)
            .map_err(|x| x.to_string())?
            .to_vec();
        let received = shore
            .receive(&mut tallies.0, &hello, &rng.bytes(16), &mut out)
            .map_err(|x| x.to_string())?;
        let reply = received.to_send().to_vec();
        let received =
            ship.receive(&mut tallies.1, &reply, &mut other).map_err(|x| x.to_string())?;
        let flight = received.to_send().to_vec();
        shore
            .receive(&mut tallies.0, &flight, &rng.bytes(16), &mut out)
            .map_err(|x| x.to_string())?;
        if shore.state() != gateway::State::Open || ship.state() != shipboard::State::Opening {
            return Err(wrong("the handshake did not open"));
        }
        Ok(Ends {
            shore,
            ship,
            tallies,
            ashore: Course::new(widths.0, vec![hello, flight]),
            aboard: Course::new(widths.1, vec![reply]),
            session: (id, secret),
        })
    }

    fn ship_sends(&mut self, rng: &mut Rng) -> Result<(), String> {
        let size = rng.between(1, SHORT);
        let data = rng.bytes(size);
        let mut out = [0; 2048];
        let datagram = self.ship.send_data(&data, &mut out).map_err(|x| x.to_string())?.to_vec();
        self.ashore.write_data(datagram, data);
        Ok(())
    }

    fn shore_sends(&mut self, rng: &mut Rng) -> Result<(), String> {
        let size = rng.between(1, SHORT);
        let data = rng.bytes(size);
        let mut out = [0; 2048];
        let datagram = self.shore.send_data(&data, &mut out).map_err(|x| x.to_string())?.to_vec();
        self.aboard.write_data(datagram, data);
        Ok(())
    }

    fn warns(&mut self, rng: &mut Rng) -> Result<(), String> {
        let mut out = [0; 2048];
        let about = rng.bytes(7);
        if rng.percent(50) {
            let sense = shipboard::Sense::Protected;
            let alert = self.ship.send_alert(sense, WARNING, USER_CANCELED, &about, &mut out);
            self.ashore.written.push(alert.map_err(|x| x.to_string())?.to_vec());
        } else {
            let sense = gateway::Sense::Protected;
            let alert = self.shore.send_alert(sense, WARNING, USER_CANCELED, &about, &mut out);
            self.aboard.written.push(alert.map_err(|x| x.to_string())?.to_vec());
        }
        Ok(())
    }

    fn shore_hears(&mut self, datagram: &[u8], rng: &mut Rng) -> Vec<(u16, Vec<u8>)> {
        let mut out = [0; 2048];
        let random = rng.bytes(16);
        match self.shore.receive(&mut self.tallies.0, datagram, &random, &mut out) {
            Err(_) => Vec::new(),
            Ok(received) => received
                .answers()
                .filter_map(|answer| match answer {
                    gateway::Answer::Data { number, bytes, .. } => Some((number, bytes.to_vec())),
                    _ => None,
                })
                .collect(),
        }
    }

    fn ship_hears(&mut self, datagram: &[u8]) -> Vec<(u16, Vec<u8>)> {
        let mut out = [0; 2048];
        match self.ship.receive(&mut self.tallies.1, datagram, &mut out) {
            Err(_) => Vec::new(),
            Ok(received) => received
                .answers()
                .filter_map(|answer| match answer {
                    shipboard::Answer::Data { number, bytes, .. } => Some((number, bytes.to_vec())),
                    _ => None,
                })
                .collect(),
        }
    }

    /// A datagram without a record that is genuine for that end: noise, a changed record, one of its own turned back, and ashore
    /// a hello of somebody else.
    fn strange(&mut self, to_shore: bool, rng: &mut Rng) -> Vec<u8> {
        let (towards, from) = if to_shore {
            (&self.ashore.written, &self.aboard.written)
        } else {
            (&self.aboard.written, &self.ashore.written)
        };
        match rng.under(4) {
            0 => {
                let size = rng.between(1, 60);
                rng.bytes(size)
            }
            1 => {
                let mut changed = rng.pick(towards);
                if is_protected(&changed) {
                    let at = rng.under(changed.len());
                    changed[at] ^= 1 << rng.under(8);
                    changed
                } else {
                    vec![0]
                }
            }
            2 => rng.pick(from),
            _ => {
                let mut out = [0; 2048];
                let mut other = Unit::fresh(&self.session.0, &self.session.1, 32)
                    .expect("the session is in range");
                other
                    .hello(&rng.bytes(16), &[2], 3, &mut out)
                    .expect("a fresh unit says hello")
                    .to_vec()
            }
        }
    }
}

fn one(rng: &mut Rng, seen: &mut Seen) -> Result<(), String> {
    let mut ends = Ends::open(rng)?;
    // How much of what is written arrives at all, how much of it the link holds back, and how far it then reaches.
    let (kept, held, reach) =
        (rng.between(30, 100), rng.between(0, 90), rng.pick(&[3, 20, 100, 1000]));
    let mut waiting: Vec<(bool, Vec<u8>)> = Vec::new();
    for _ in 0..STEPS {
        let before = (ends.ashore.written.len(), ends.aboard.written.len());
        match rng.under(10) {
            0..=2 => ends.ship_sends(rng)?,
            3 => ends.shore_sends(rng)?,
            4 if rng.percent(20) => ends.warns(rng)?,
            5 => {
                let to_shore = rng.percent(70);
                let strange = ends.strange(to_shore, rng);
                seen.strange += 1;
                let given = if to_shore {
                    ends.shore_hears(&strange, rng)
                } else {
                    ends.ship_hears(&strange)
                };
                if !given.is_empty() {
                    return Err(format!("a strange datagram gave {given:?}"));
                }
            }
            _ if rng.percent(held) => {}
            _ => deliver(&mut ends, &mut waiting, reach, rng, seen)?,
        }
        for datagram in ends.ashore.written[before.0..].iter().filter(|_| rng.percent(kept)) {
            waiting.push((true, datagram.clone()));
        }
        for datagram in ends.aboard.written[before.1..].iter().filter(|_| rng.percent(kept)) {
            waiting.push((false, datagram.clone()));
        }
    }
    while !waiting.is_empty() {
        deliver(&mut ends, &mut waiting, reach, rng, seen)?;
    }
    if ends.shore.state() != gateway::State::Open
        || matches!(ends.ship.state(), shipboard::State::Closed | shipboard::State::Barred)
    {
        return Err("an end has closed".to_string());
    }
    ends.ashore.ended(seen)?;
    ends.aboard.ended(seen)
}

/// One of those that wait arrives; now and then it waits on, and so comes again; now and then an old one comes, the handshake's too.
fn deliver(
    ends: &mut Ends,
    waiting: &mut Vec<(bool, Vec<u8>)>,
    reach: usize,
    rng: &mut Rng,
    seen: &mut Seen,
) -> Result<(), String> {
    let old = rng.percent(5);
    if waiting.is_empty() && !old {
        return Ok(());
    }
    let (to_shore, datagram) = if old {
        let to_shore = rng.percent(60);
        (to_shore, rng.pick(if to_shore { &ends.ashore.written } else { &ends.aboard.written }))
    } else {
        let at = rng.under(waiting.len().min(reach));
        if rng.percent(10) {
            waiting[at].clone()
        } else {
            waiting.remove(at)
        }
    };
    if to_shore {
        let given = ends.shore_hears(&datagram, rng);
        ends.ashore.arrive(&datagram, given, seen)
    } else {
        let given = ends.ship_hears(&datagram);
        ends.aboard.arrive(&datagram, given, seen)
    }
}

/// The number of the first record; of a flight and a reply it counts for nothing, since no data stand there.
fn number_of(datagram: &[u8]) -> u16 {
    u16::from_be_bytes([datagram[1], datagram[2]])
}

fn is_protected(datagram: &[u8]) -> bool {
    datagram[0] & 0x20 != 0
}
