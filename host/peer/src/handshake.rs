//! One handshake with the unit: what its reply leaves behind, the window of its records and our
//! own sending numbers. The shore holds one, and beside an open one at most one that is started.

use crate::finished;
use crate::hello;
use crate::keys::{Keys, Writer};
use crate::shore::Refusal;
use crate::window::{Verdict, Window};
use crate::wire::{self, Content, Record};

#[derive(Clone, PartialEq, Eq, Debug)]
pub struct Handshake {
    /// Nothing before the first reply, after a start and once the session is barred.
    kept: Option<Kept>,
    window: Window,
    /// Nothing before the first reply.
    sending: Option<Sending>,
}

#[derive(Clone, PartialEq, Eq, Debug)]
struct Kept {
    hello: Vec<u8>,
    reply: Vec<u8>,
    keys: Keys,
    unit_verify_data: Vec<u8>,
}

/// Our next numbers (65,536 once spent).
#[derive(Clone, PartialEq, Eq, Debug)]
struct Sending {
    protected: u32,
    clear: u32,
}

/// A new reply: the records that it consists of.
pub type Records = [Vec<u8>; 3];

const SPENT: u32 = 65536;

impl Handshake {
    /// Before any hello.
    pub fn none(window: Window) -> Handshake {
        Handshake { kept: None, window, sending: None }
    }

    pub fn window(&self) -> &Window {
        &self.window
    }

    /// The next protected and clear sending numbers; none before the first reply.
    pub fn next_numbers(&self) -> Option<(u32, u32)> {
        self.sending.as_ref().map(|sending| (sending.protected, sending.clear))
    }

    pub fn hello(&self) -> Option<&[u8]> {
        self.kept.as_ref().map(|kept| &kept.hello[..])
    }

    pub fn keys(&self) -> Option<&Keys> {
        self.kept.as_ref().map(|kept| &kept.keys)
    }

    /// The reply to the hello that this handshake was made by; none to any other.
    pub fn reply_to(&self, message: &[u8]) -> Option<&[u8]> {
        match &self.kept {
            Some(kept) if kept.hello == message => Some(&kept.reply),
            _ => None,
        }
    }

    /// A new reply to an acceptable hello: ServerHello, change cipher spec, Finished. Afterwards
    /// our protected records count on from 1, the clear ones from 2; the window is left alone.
    pub fn reply(&mut self, client_hello: &[u8], session: &[u8], keys: Keys) -> Records {
        let Keys { secret, server_random, kind, refresh, .. } = &keys;
        let server_hello = hello::write_server(server_random, session, *kind, *refresh);
        let hellos = [client_hello, &server_hello];
        let ours = finished::write(&finished::verify_data(secret, Writer::Shore, &hellos));
        let unit_verify_data =
            finished::verify_data(secret, Writer::Unit, &[client_hello, &server_hello, &ours]);
        let clear = |content| wire::type_byte(content, false, true);
        let records = [
            wire::write(clear(Content::Handshake), 0, &server_hello),
            wire::write(clear(Content::ChangeCipherSpec), 1, &[1]),
            keys.protect(Writer::Shore, Content::Handshake, false, 0, &ours),
        ];
        let (hello, reply) = (client_hello.to_vec(), records.concat());
        self.kept = Some(Kept { hello, reply, keys, unit_verify_data });
        self.sending = Some(Sending { protected: 1, clear: 2 });
        records
    }

    /// The unit's change cipher spec.
    pub fn empty_window(&mut self) {
        self.window = self.window.emptied();
    }

    /// Start again forgets the window and the kept hello.
    pub fn forget(&mut self) {
        self.empty_window();
        self.kept = None;
    }

    /// What could resume a barred session.
    pub fn blank(&mut self) {
        self.kept = None;
    }

    /// The content's length, if the code of a record of the unit is right under these keys.
    pub fn content_length(&self, record: &Record, fragment: &[u8]) -> Option<usize> {
        self.keys()?.verify(Writer::Unit, record.type_byte, record.number, fragment)
    }

    /// Too old, repeated, or marked.
    pub fn mark(&mut self, number: u16) -> Result<(), Refusal> {
        match self.window.verdict(number) {
            Verdict::TooOld => Err(Refusal::TooOld),
            Verdict::Repeated => Err(Refusal::Repeated),
            Verdict::New => {
                self.window.accept(number);
                Ok(())
            }
        }
    }

    /// Whether a Finished has the contents that are due; 12 for any other message.
    pub fn is_right(&self, content: &[u8]) -> Result<bool, Refusal> {
        let data = finished::read(content).ok_or(Refusal::Malformed)?;
        Ok(matches!(&self.kept, Some(kept) if kept.unit_verify_data == data))
    }

    /// A protected record of ours: 15, then 6.
    pub fn protect(
        &mut self,
        content: Content,
        bytes: &[u8],
        room: usize,
    ) -> Result<Vec<u8>, Refusal> {
        let (Some(kept), Some(sending)) = (&self.kept, &mut self.sending) else {
            return Err(Refusal::NotAllowed);
        };
        let number = unspent(sending.protected)?;
        let record = kept.keys.protect(Writer::Shore, content, false, number, bytes);
        if room < record.len() {
            return Err(Refusal::Room);
        }
        sending.protected += 1;
        Ok(record)
    }

    /// A clear alert of ours: 15, then 6.
    pub fn clear_alert(&mut self, content: &[u8], room: usize) -> Result<Vec<u8>, Refusal> {
        let Some(sending) = &mut self.sending else { return Err(Refusal::NotAllowed) };
        let number = unspent(sending.clear)?;
        let record = wire::write(wire::type_byte(Content::Alert, false, false), number, content);
        if room < record.len() {
            return Err(Refusal::Room);
        }
        sending.clear += 1;
        Ok(record)
    }
}

pub(crate) fn unspent(next: u32) -> Result<u16, Refusal> {
    if next == SPENT {
        return Err(Refusal::Spent);
    }
    Ok(next as u16)
}
