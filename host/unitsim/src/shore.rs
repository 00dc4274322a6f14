//! The gateway as it must be: all that the link delivers goes to the real one and through the
//! shore's rules, and the real one's replies must be the same to the byte.

use crate::messages::Messages;
use crate::options::Options;
use peer::capture::{Capture, Way};
use peer::shore::{Answer, Received, Shore, Tally};
use peer::wire;
use std::io;
use std::net::{IpAddr, SocketAddr, UdpSocket};
use std::time::Duration;

pub struct Gateway {
    socket: UdpSocket,
    /// Somebody else's, on another host where there is one.
    stranger: UdpSocket,
    rules: Shore,
    pub tally: Tally,
    /// What must be in the list, in its order: number and bytes.
    pub handed_out: Vec<(u16, Vec<u8>)>,
    /// What came from the gateway and was not looked at yet.
    pub inbox: Vec<Vec<u8>>,
    capture: Option<Capture>,
    /// The bearer, where it is short messages.
    pub messages: Option<Messages>,
}

const REPLY_WITHIN: Duration = Duration::from_secs(30);
const STRANGER_WAITS: Duration = Duration::from_millis(100);
const ROOM: usize = 128;
/// In a reply: record header 5, message header 3, version 1.
const RANDOM_AT: usize = 9;

impl Gateway {
    pub fn new(options: &Options) -> Result<Gateway, String> {
        let told = |error: io::Error| error.to_string();
        let socket = connected(options.to).map_err(told)?;
        let rules = Shore::fresh(&options.session, &options.secret, options.width)
            .map_err(|refusal| format!("{refusal:?}"))?;
        let capture = options.capture.as_deref().map(Capture::create).transpose().map_err(told)?;
        Ok(Gateway {
            socket,
            stranger: strangers(options.to).map_err(told)?,
            rules,
            tally: Tally::default(),
            handed_out: Vec::new(),
            inbox: Vec::new(),
            capture,
            messages: options.messages.map(Messages::new),
        })
    }

    /// What the link carries of a datagram: it, or its messages.
    pub fn carried(&mut self, datagram: Vec<u8>) -> Vec<Vec<u8>> {
        match &mut self.messages {
            Some(messages) => messages.split(&datagram),
            None => vec![datagram],
        }
    }

    pub fn deliver(&mut self, sent: &[u8]) -> Result<(), String> {
        if let Some(messages) = &mut self.messages {
            messages.settle();
        }
        self.socket.send(sent).map_err(|error| error.to_string())?;
        self.note(Way::ToShore, sent)?;
        let shown = match &mut self.messages {
            Some(messages) => messages.take(sent),
            None => Some(sent.to_vec()),
        };
        match shown {
            Some(datagram) => self.received(&datagram),
            None => self.hear(Duration::ZERO),
        }
    }

    /// A datagram is with the gateway.
    fn received(&mut self, datagram: &[u8]) -> Result<(), String> {
        // The rules tell whether a reply is due; its random is the gateway's own.
        let due =
            reply(&self.rules.clone().receive(datagram, &[0; 16], ROOM, &mut Tally::default()))
                .is_some();
        let mut random = vec![0; 16];
        if due {
            let real = self.wait_for_reply()?;
            random = real[RANDOM_AT..RANDOM_AT + 16].to_vec();
            let received = self.judge(datagram, &random);
            if reply(&received).as_ref() != Some(&real) {
                return Err("the gateway's reply is not that of the rules".to_string());
            }
            self.inbox.push(real);
        } else {
            self.judge(datagram, &random);
        }
        self.hear(Duration::ZERO)
    }

    /// A hello of somebody else, which the gateway answers to him, or not. The rules do not hear of
    /// it: what they say of the ship must stay as it is.
    pub fn strange(&mut self, hello: &[u8]) -> Result<(), String> {
        self.stranger.send(hello).map_err(|error| error.to_string())?;
        let _ = self.stranger.recv(&mut [0; 2048]);
        Ok(())
    }

    fn judge(&mut self, datagram: &[u8], random: &[u8]) -> Received {
        let received = self.rules.receive(datagram, random, ROOM, &mut self.tally);
        if let Received::Records { answers, .. } = &received {
            let records = wire::frame(datagram).unwrap_or_default();
            for (answer, record) in answers.iter().zip(records) {
                if let Ok(Answer::Data { start, length }) = answer {
                    self.handed_out
                        .push((record.number, datagram[*start..start + length].to_vec()));
                }
            }
        }
        received
    }

    fn wait_for_reply(&mut self) -> Result<Vec<u8>, String> {
        loop {
            let datagram = self.next(REPLY_WITHIN)?.ok_or("the gateway did not answer a hello")?;
            if datagram.len() > 60 && datagram[0] == 0xc3 {
                return Ok(datagram);
            }
            self.inbox.push(datagram);
        }
    }

    /// Takes in what has come.
    pub fn hear(&mut self, wait: Duration) -> Result<(), String> {
        while let Some(datagram) = self.next(wait)? {
            self.inbox.push(datagram);
        }
        Ok(())
    }

    /// Waits for the next datagram, but no longer than this.
    pub fn wait(&mut self, longest: Duration) -> Result<(), String> {
        let datagram = self.next(longest)?;
        self.inbox.extend(datagram);
        Ok(())
    }

    fn note(&mut self, way: Way, datagram: &[u8]) -> Result<(), String> {
        let noted = self.capture.as_mut().map_or(Ok(()), |capture| capture.add(way, datagram));
        noted.map_err(|error| format!("capture: {error}"))
    }

    fn next(&mut self, wait: Duration) -> Result<Option<Vec<u8>>, String> {
        let mut buffer = [0; 2048];
        let told = |error: io::Error| error.to_string();
        self.socket.set_nonblocking(wait.is_zero()).map_err(told)?;
        if !wait.is_zero() {
            self.socket.set_read_timeout(Some(wait)).map_err(told)?;
        }
        let received = self.socket.recv(&mut buffer);
        self.socket.set_nonblocking(false).map_err(told)?;
        match received {
            Ok(size) => {
                self.note(Way::ToShip, &buffer[..size])?;
                match &self.messages {
                    Some(messages) => messages.hear(&buffer[..size]).map(Some),
                    None => Ok(Some(buffer[..size].to_vec())),
                }
            }
            Err(error) if error.kind() == io::ErrorKind::WouldBlock => Ok(None),
            Err(error) => Err(error.to_string()),
        }
    }
}

fn connected(to: SocketAddr) -> io::Result<UdpSocket> {
    let any = if to.is_ipv4() { "0.0.0.0:0" } else { "[::]:0" };
    let socket = UdpSocket::bind(any)?;
    socket.connect(to)?;
    Ok(socket)
}

/// For a gateway on this machine, on another of its addresses.
fn strangers(to: SocketAddr) -> io::Result<UdpSocket> {
    let socket = match to.ip() {
        IpAddr::V4(ip) if ip.is_loopback() => {
            let socket = UdpSocket::bind("127.0.0.99:0")?;
            socket.connect(to)?;
            socket
        }
        _ => connected(to)?,
    };
    socket.set_read_timeout(Some(STRANGER_WAITS))?;
    Ok(socket)
}

fn reply(received: &Received) -> Option<Vec<u8>> {
    match received {
        Received::Records { out, .. } => out.clone(),
        _ => None,
    }
}
