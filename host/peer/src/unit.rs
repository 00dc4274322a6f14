//! The ship's end: the unit says hello, reads the reply, changes the cipher spec, finishes, and
//! sends data and alerts. It checks all that it hears.

use crate::alert;
use crate::finished;
use crate::hello;
use crate::keys::{Keys, Kind, Writer};
use crate::wire::{self, Content};

/// One entry of a key list (WTLS 10.5.1.2, KeyExchangeId).
#[derive(Clone, PartialEq, Eq, Debug)]
pub struct KeyId {
    pub suite: u8,
    pub parameters: Parameters,
    pub identifier: Identifier,
}

#[derive(Clone, PartialEq, Eq, Debug)]
pub enum Parameters {
    Index(u8),
    Explicit(Vec<u8>),
}

#[derive(Clone, PartialEq, Eq, Debug)]
pub enum Identifier {
    Null,
    Text {
        character_set: u16,
        name: Vec<u8>,
    },
    Binary(Vec<u8>),
    KeyHash(Vec<u8>),
    X509Name(Vec<u8>),
    /// A type that 10.5.1.2 does not know, with bytes behind it.
    Unknown(u8, Vec<u8>),
}

/// A ClientHello to be written. Every length field is that of its list; bounds are not looked at.
#[derive(Clone, PartialEq, Eq, Debug)]
pub struct Hello {
    pub version: u8,
    pub random: Vec<u8>,
    pub session: Vec<u8>,
    pub client_key_ids: Vec<KeyId>,
    pub trusted_key_ids: Vec<KeyId>,
    pub suites: Vec<u8>,
    pub compressions: Vec<u8>,
    pub numbering: u8,
    pub refresh: u8,
}

pub struct Unit {
    session: Vec<u8>,
    secret: Vec<u8>,
    hello: Vec<u8>,
    /// Set by a reply.
    connection: Option<Connection>,
}

/// What the unit knows after a reply.
#[derive(Clone)]
pub struct Connection {
    /// The hello that was replied to.
    pub hello: Vec<u8>,
    pub keys: Keys,
    /// The unit's Finished message.
    pub finished: Vec<u8>,
    /// The last record heard from the shore, for the checksums of alerts.
    pub last_heard: Vec<u8>,
}

impl Hello {
    /// The plain hello of a resumption.
    pub fn plain(random: &[u8], session: &[u8], kind: Kind, refresh: u8) -> Hello {
        Hello {
            version: 1,
            random: random.to_vec(),
            session: session.to_vec(),
            client_key_ids: Vec::new(),
            trusted_key_ids: Vec::new(),
            suites: vec![0, kind.number()],
            compressions: vec![0],
            numbering: 2,
            refresh,
        }
    }

    /// The whole handshake message.
    pub fn message(&self) -> Vec<u8> {
        let mut body = vec![self.version];
        body.extend(&self.random);
        body.push(self.session.len() as u8);
        body.extend(&self.session);
        body.extend(key_list(&self.client_key_ids));
        body.extend(key_list(&self.trusted_key_ids));
        body.push(self.suites.len() as u8);
        body.extend(&self.suites);
        body.push(self.compressions.len() as u8);
        body.extend(&self.compressions);
        body.extend([self.numbering, self.refresh]);
        hello::message(1, &body)
    }
}

fn key_list(ids: &[KeyId]) -> Vec<u8> {
    let entries: Vec<u8> = ids.iter().flat_map(key_id).collect();
    [&(entries.len() as u16).to_be_bytes()[..], &entries].concat()
}

fn key_id(id: &KeyId) -> Vec<u8> {
    let mut bytes = vec![id.suite];
    match &id.parameters {
        Parameters::Index(index) => bytes.push(*index),
        Parameters::Explicit(set) => {
            bytes.push(255);
            bytes.extend((set.len() as u16).to_be_bytes());
            bytes.extend(set);
        }
    }
    let (kind, rest) = match &id.identifier {
        Identifier::Null => (0, Vec::new()),
        Identifier::Text { character_set, name } => {
            (1, [&character_set.to_be_bytes()[..], &counted(name)].concat())
        }
        Identifier::Binary(identifier) => (2, counted(identifier)),
        Identifier::KeyHash(hash) => (254, hash.clone()),
        Identifier::X509Name(name) => (255, counted(name)),
        Identifier::Unknown(kind, rest) => (*kind, rest.clone()),
    };
    bytes.push(kind);
    bytes.extend(rest);
    bytes
}

fn counted(bytes: &[u8]) -> Vec<u8> {
    [&[bytes.len() as u8], bytes].concat()
}

impl Unit {
    pub fn new(session: &[u8], secret: &[u8]) -> Unit {
        Unit {
            session: session.to_vec(),
            secret: secret.to_vec(),
            hello: Vec::new(),
            connection: None,
        }
    }

    pub fn connection(&self) -> Option<&Connection> {
        self.connection.as_ref()
    }

    pub fn connection_mut(&mut self) -> Option<&mut Connection> {
        self.connection.as_mut()
    }

    /// Goes on with another connection, and gives the one that it had.
    pub fn exchange(&mut self, connection: Connection) -> Option<Connection> {
        self.connection.replace(connection)
    }

    /// The hello as a datagram: clear, number 0, no length. It is remembered for the Finished.
    pub fn say_hello(&mut self, message: &[u8]) -> Vec<u8> {
        self.hello = message.to_vec();
        self.clear(Content::Handshake, false, 0, message)
    }

    pub fn last_hello(&self) -> &[u8] {
        &self.hello
    }

    /// Reads a reply to the last hello and checks all of it: framing, ServerHello, change cipher
    /// spec, the shore's code and its Finished.
    pub fn hear_reply(&mut self, reply: &[u8]) -> Result<(), String> {
        let records = wire::frame(reply).map_err(|fault| format!("{fault:?}"))?;
        let [first, second, third] = &records[..] else {
            return Err(format!("{} records in a reply", records.len()));
        };
        let fragment = |record: &wire::Record| &reply[record.fragment.clone()];
        let types = [first.type_byte, second.type_byte, third.type_byte];
        let numbers = [first.number, second.number, third.number];
        if types != [0xc3, 0xc1, 0x63] || numbers != [0, 1, 0] || fragment(second) != [1] {
            return Err("another layout of the reply".to_string());
        }
        let server_hello = fragment(first);
        let keys = self.read_server_hello(server_hello)?;
        let length = keys
            .verify(Writer::Shore, third.type_byte, third.number, fragment(third))
            .ok_or("the code of the shore's Finished is wrong")?;
        let theirs = &fragment(third)[..length];
        let hellos = [&self.hello[..], server_hello];
        let expected = finished::verify_data(&self.secret, Writer::Shore, &hellos);
        if theirs != finished::write(&expected) {
            return Err("the shore's Finished is wrong".to_string());
        }
        let messages = [&self.hello[..], server_hello, theirs];
        let ours = finished::verify_data(&self.secret, Writer::Unit, &messages);
        self.connection = Some(Connection {
            hello: self.hello.clone(),
            keys,
            finished: finished::write(&ours),
            last_heard: reply[third.start..].to_vec(),
        });
        Ok(())
    }

    /// ServerHello of a resumption: it repeats the session, chooses a pair that was offered, and
    /// repeats the key refresh.
    fn read_server_hello(&self, message: &[u8]) -> Result<Keys, String> {
        let hello = hello::read(&self.hello).map_err(|_| "no sound hello was said")?;
        if message.len() != 35 {
            return Err("a ServerHello of another length".to_string());
        }
        let kind = Kind::assigned(message[31]).ok_or("an unknown MAC")?;
        let random = &message[4..20];
        let expected = hello::write_server(random, &self.session, kind, hello.refresh);
        if message != expected || !hello.suites.contains(&[0, kind.number()]) {
            return Err("a ServerHello that does not fit the hello".to_string());
        }
        Ok(Keys {
            secret: self.secret.clone(),
            server_random: random.to_vec(),
            client_random: hello.random,
            kind,
            refresh: hello.refresh,
        })
    }

    /// Change cipher spec and Finished in one datagram: clear number 1, protected number 0.
    pub fn flight(&self) -> Option<Vec<u8>> {
        let change = self.clear(Content::ChangeCipherSpec, true, 1, &[1]);
        Some([change, self.finished(false, 0)?].concat())
    }

    pub fn finished(&self, with_length: bool, number: u16) -> Option<Vec<u8>> {
        let message = self.connection.as_ref()?.finished.clone();
        self.protect(Content::Handshake, with_length, number, &message)
    }

    pub fn clear(&self, content: Content, with_length: bool, number: u16, bytes: &[u8]) -> Vec<u8> {
        wire::write(wire::type_byte(content, false, with_length), number, bytes)
    }

    pub fn protect(
        &self,
        content: Content,
        with_length: bool,
        number: u16,
        bytes: &[u8],
    ) -> Option<Vec<u8>> {
        let keys = &self.connection.as_ref()?.keys;
        Some(keys.protect(Writer::Unit, content, with_length, number, bytes))
    }

    /// An alert's content with the checksum of the last record heard.
    pub fn alert(&self, level: u8, description: u8) -> Vec<u8> {
        let last = self.connection.as_ref().map_or(&[][..], |connection| &connection.last_heard);
        alert::write(level, description, alert::checksum(last))
    }

    /// Checks a datagram of one record from the shore and gives its content: data, or an alert.
    pub fn hear(&mut self, datagram: &[u8]) -> Result<Vec<u8>, String> {
        self.connection.as_mut().ok_or("nothing was agreed")?.hear(datagram)
    }
}

impl Connection {
    pub fn hear(&mut self, datagram: &[u8]) -> Result<Vec<u8>, String> {
        let records = wire::frame(datagram).map_err(|fault| format!("{fault:?}"))?;
        let [record] = &records[..] else { return Err("more than one record".to_string()) };
        let fragment = &datagram[record.fragment.clone()];
        let content = if record.protected {
            let length = self
                .keys
                .verify(Writer::Shore, record.type_byte, record.number, fragment)
                .ok_or("the shore's code is wrong")?;
            &fragment[..length]
        } else {
            fragment
        };
        match record.content {
            Content::Data if record.protected && !content.is_empty() => {}
            Content::Alert if alert::read(content).is_some() => {}
            _ => return Err("neither data nor an alert".to_string()),
        }
        self.last_heard = datagram.to_vec();
        Ok(content.to_vec())
    }
}
