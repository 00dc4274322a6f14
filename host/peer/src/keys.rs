//! Keys by number and the code of a protected record (WTLS 9.2.3.2, 11.2, 11.3.1).

use crate::hmac::{hmac, prf};
use crate::wire::{self, Content};

/// The two MAC kinds of the profile (Appendix A, table 6).
#[derive(Clone, Copy, PartialEq, Eq, Debug)]
pub enum Kind {
    Sha80,
    Sha,
}

impl Kind {
    pub fn assigned(number: u8) -> Option<Kind> {
        match number {
            2 => Some(Kind::Sha80),
            3 => Some(Kind::Sha),
            _ => None,
        }
    }

    pub fn number(self) -> u8 {
        match self {
            Kind::Sha80 => 2,
            Kind::Sha => 3,
        }
    }

    pub fn code_size(self) -> usize {
        match self {
            Kind::Sha80 => 10,
            Kind::Sha => 20,
        }
    }
}

/// Who writes the record.
#[derive(Clone, Copy, PartialEq, Eq, Debug)]
pub enum Writer {
    Unit,
    Shore,
}

impl Writer {
    fn label(self) -> &'static str {
        match self {
            Writer::Unit => "client expansion",
            Writer::Shore => "server expansion",
        }
    }
}

/// All that the keys of one handshake come from.
#[derive(Clone, PartialEq, Eq, Debug)]
pub struct Keys {
    pub secret: Vec<u8>,
    pub server_random: Vec<u8>,
    pub client_random: Vec<u8>,
    pub kind: Kind,
    pub refresh: u8,
}

/// The number that seeds the keys for `number`: the last one that mandated a refresh.
pub fn key_number(refresh: u8, number: u16) -> u16 {
    if refresh > 15 {
        return 0;
    }
    number - number % 2u16.pow(u32::from(refresh))
}

impl Keys {
    pub fn mac_secret(&self, writer: Writer, number: u16) -> Vec<u8> {
        let number = key_number(self.refresh, number).to_be_bytes();
        let seed: [&[u8]; 3] = [&number, &self.server_random, &self.client_random];
        prf(&self.secret, writer.label(), &seed, 20)
    }

    /// HMAC over number, type byte, content length and content, cut to the kind's size.
    pub fn code(&self, writer: Writer, type_byte: u8, number: u16, content: &[u8]) -> Vec<u8> {
        let secret = self.mac_secret(writer, number);
        let length = (content.len() as u16).to_be_bytes();
        let code = hmac(&secret, &[&number.to_be_bytes(), &[type_byte], &length, content]);
        code[..self.kind.code_size()].to_vec()
    }

    /// A protected record as on the wire.
    pub fn protect(
        &self,
        writer: Writer,
        content: Content,
        with_length: bool,
        number: u16,
        bytes: &[u8],
    ) -> Vec<u8> {
        let type_byte = wire::type_byte(content, true, with_length);
        let code = self.code(writer, type_byte, number, bytes);
        wire::write(type_byte, number, &[bytes, &code].concat())
    }

    /// The content's length within a fragment, if its code is right. A fragment shorter than
    /// its code has none.
    pub fn verify(
        &self,
        writer: Writer,
        type_byte: u8,
        number: u16,
        fragment: &[u8],
    ) -> Option<usize> {
        let length = fragment.len().checked_sub(self.kind.code_size())?;
        let (content, code) = fragment.split_at(length);
        (self.code(writer, type_byte, number, content) == code).then_some(length)
    }
}

#[cfg(test)]
mod tests {
    use super::*;

    /// Cases H to J.
    #[test]
    fn key_numbers() {
        assert_eq!(key_number(3, 19), 16);
        assert_eq!(key_number(10, 1023), 0);
        assert_eq!(key_number(10, 1024), 1024);
        assert_eq!(key_number(0, 7), 7);
        assert_eq!(key_number(16, 65535), 0);
        assert_eq!(key_number(15, 65535), 32768);
        assert_eq!(key_number(255, 65535), 0);
    }

    #[test]
    fn too_short_for_a_code() {
        let keys = Keys {
            secret: vec![1; 20],
            server_random: vec![2; 16],
            client_random: vec![3; 16],
            kind: Kind::Sha80,
            refresh: 0,
        };
        assert_eq!(keys.verify(Writer::Unit, 0x64, 0, &[0; 9]), None);
        let code = keys.code(Writer::Unit, 0x64, 0, &[]);
        assert_eq!(keys.verify(Writer::Unit, 0x64, 0, &code), Some(0));
        assert_eq!(keys.verify(Writer::Unit, 0xe4, 0, &code), None);
    }
}
