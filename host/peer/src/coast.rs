//! The shore as a ship hears it: replies and records of any number and content, right and wrong, for
//! the ship's days. It checks all that it hears from the ship.

use crate::alert;
use crate::finished;
use crate::hello::{self, ClientHello, ServerHello};
use crate::keys::{Keys, Kind, Writer};
use crate::wire::{self, Content};

pub struct Coast {
    secret: Vec<u8>,
    hello: Option<Heard>,
    connection: Option<Connection>,
}

/// The ship's last hello.
struct Heard {
    message: Vec<u8>,
    hello: ClientHello,
}

/// What follows from a ServerHello.
#[derive(Clone)]
pub struct Connection {
    pub keys: Keys,
    pub server_hello: Vec<u8>,
    /// The shore's Finished message.
    pub finished: Vec<u8>,
    /// The same with the unit's label, which is wrong.
    pub mislabelled: Vec<u8>,
    unit_finished: Vec<u8>,
}

impl Coast {
    pub fn new(secret: &[u8]) -> Coast {
        Coast { secret: secret.to_vec(), hello: None, connection: None }
    }

    pub fn connection(&self) -> Option<&Connection> {
        self.connection.as_ref()
    }

    /// The ship's last hello, as it was walked.
    pub fn hello(&self) -> Option<&ClientHello> {
        self.hello.as_ref().map(|heard| &heard.hello)
    }

    pub fn hello_message(&self) -> &[u8] {
        self.hello.as_ref().map_or(&[], |heard| &heard.message)
    }

    /// A hello of the ship: one clear record without a length, number 0, and an acceptable message.
    pub fn hear_hello(&mut self, datagram: &[u8], session: &[u8]) -> Result<(), String> {
        let Some(message) = datagram.strip_prefix(&[0x43, 0, 0]) else {
            return Err("another layout of the hello".to_string());
        };
        let hello = hello::read(message).map_err(|_| "a malformed hello")?;
        let kind = hello::choose(&hello, session).map_err(|_| "a hello that is not acceptable")?;
        if hello.suites[0] != [0, kind.number()] || ![40, 42].contains(&message.len()) {
            return Err("a hello with more in it".to_string());
        }
        self.hello = Some(Heard { message: message.to_vec(), hello });
        Ok(())
    }

    /// What a ServerHello to the last hello leads to; nothing where it names no kind of the profile.
    pub fn connection_of(&self, server_hello: &[u8]) -> Option<Connection> {
        let heard = self.hello.as_ref()?;
        let read = hello::read_server(server_hello)?;
        let keys = Keys {
            secret: self.secret.clone(),
            server_random: read.random,
            client_random: heard.hello.random.clone(),
            kind: Kind::assigned(read.suite[1])?,
            refresh: read.refresh,
        };
        let verify = |writer, messages: &[&[u8]]| {
            finished::write(&finished::verify_data(&self.secret, writer, messages))
        };
        let server_hello = server_hello.to_vec();
        let finished = verify(Writer::Shore, &[&heard.message, &server_hello]);
        let mislabelled = verify(Writer::Unit, &[&heard.message, &server_hello]);
        let unit_finished = verify(Writer::Unit, &[&heard.message, &server_hello, &finished]);
        Some(Connection { keys, server_hello, finished, mislabelled, unit_finished })
    }

    /// The ship goes by this ServerHello now.
    pub fn adopt(&mut self, server_hello: &[u8]) {
        self.connection = self.connection_of(server_hello);
    }

    /// Nothing is agreed any more.
    pub fn forget(&mut self) {
        self.hello = None;
        self.connection = None;
    }

    /// An acceptable ServerHello.
    pub fn plain(&self, random: &[u8], session: &[u8], kind: Kind, refresh: u8) -> ServerHello {
        let message = hello::write_server(random, session, kind, refresh);
        hello::read_server(&message).expect("a session of 8 bytes at most")
    }

    /// The reply with this ServerHello as the shore writes it; nothing where no Finished follows.
    pub fn reply(&self, server_hello: &[u8]) -> Option<Vec<u8>> {
        let connection = self.connection_of(server_hello)?;
        Some(
            [
                self.clear(Content::Handshake, true, 0, server_hello),
                self.clear(Content::ChangeCipherSpec, true, 1, &[1]),
                connection.protect(Content::Handshake, false, 0, &connection.finished),
            ]
            .concat(),
        )
    }

    pub fn clear(&self, content: Content, with_length: bool, number: u16, bytes: &[u8]) -> Vec<u8> {
        wire::write(wire::type_byte(content, false, with_length), number, bytes)
    }

    pub fn protect(
        &self,
        content: Content,
        with_length: bool,
        number: u16,
        bytes: &[u8],
    ) -> Option<Vec<u8>> {
        Some(self.connection.as_ref()?.protect(content, with_length, number, bytes))
    }

    /// The ship's flight: change cipher spec and the right Finished.
    pub fn hear_flight(&self, flight: &[u8]) -> Result<(), String> {
        let connection = self.connection.as_ref().ok_or("nothing was agreed")?;
        let protect =
            |bytes| connection.keys.protect(Writer::Unit, Content::Handshake, false, 0, bytes);
        let expected = [
            self.clear(Content::ChangeCipherSpec, true, 1, &[1]),
            protect(&connection.unit_finished),
        ];
        match flight == expected.concat() {
            true => Ok(()),
            false => Err("another flight".to_string()),
        }
    }

    /// A datagram of one record from the ship: data or an alert, without a length.
    pub fn hear(&self, datagram: &[u8]) -> Result<(), String> {
        let records = wire::frame(datagram).map_err(|fault| format!("{fault:?}"))?;
        let [record] = &records[..] else { return Err("more than one record".to_string()) };
        let fragment = &datagram[record.fragment.clone()];
        let content = match (record.protected, &self.connection) {
            (false, _) => fragment,
            (true, None) => return Err("nothing was agreed".to_string()),
            (true, Some(connection)) => {
                let (type_byte, number) = (record.type_byte, record.number);
                let length = connection.keys.verify(Writer::Unit, type_byte, number, fragment);
                &fragment[..length.ok_or("the ship's code is wrong")?]
            }
        };
        let sound = match record.content {
            Content::Data => record.protected && !content.is_empty(),
            Content::Alert => alert::read(content).is_some(),
            _ => false,
        };
        match sound && record.type_byte & wire::LENGTH == 0 {
            true => Ok(()),
            false => Err("neither data nor an alert".to_string()),
        }
    }
}

impl Connection {
    /// A record of the shore under these keys.
    pub fn protect(
        &self,
        content: Content,
        with_length: bool,
        number: u16,
        bytes: &[u8],
    ) -> Vec<u8> {
        self.keys.protect(Writer::Shore, content, with_length, number, bytes)
    }
}
