//! The two hellos (WTLS 10.5.1.2 and 10.5.1.3).

use crate::keys::Kind;
use crate::set;

/// A ClientHello message, header included, is at most this long (house rule).
pub const LARGEST_HELLO: usize = 256;

/// What a walked ClientHello says that matters for a resumption. Key lists are walked and
/// forgotten.
#[derive(Clone, PartialEq, Eq, Debug)]
pub struct ClientHello {
    pub version: u8,
    pub random: Vec<u8>,
    pub session: Vec<u8>,
    pub suites: Vec<[u8; 2]>,
    pub compressions: Vec<u8>,
    pub numbering: u8,
    pub refresh: u8,
}

/// The fields of a ClientHello message, from the front, between its size as a whole and its end.
#[derive(Clone, Copy, PartialEq, Eq, PartialOrd, Ord, Debug)]
pub enum Field {
    Size,
    Header,
    Version,
    Random,
    Session,
    ClientIds,
    TrustedIds,
    Suites,
    Compressions,
    Numbering,
    Refresh,
    End,
}

/// Walks a whole ClientHello message; the first field at fault if it is malformed.
pub fn read(message: &[u8]) -> Result<ClientHello, Field> {
    if message.len() > LARGEST_HELLO {
        return Err(Field::Size);
    }
    let mut body = read_body(message).ok_or(Field::Header)?;
    let version = body.uint8().ok_or(Field::Version)?;
    let random = body.take(16).ok_or(Field::Random)?.to_vec();
    let session = body.list8(0, 8).ok_or(Field::Session)?.left.to_vec();
    body.list16().and_then(walk_key_ids).ok_or(Field::ClientIds)?;
    body.list16().and_then(walk_key_ids).ok_or(Field::TrustedIds)?;
    let suites = body.list8(2, 255).and_then(read_suites).ok_or(Field::Suites)?;
    let compressions = body.list8(1, 255).ok_or(Field::Compressions)?.left.to_vec();
    let numbering = body.uint8().ok_or(Field::Numbering)?;
    let refresh = body.uint8().ok_or(Field::Refresh)?;
    body.end().ok_or(Field::End)?;
    Ok(ClientHello { version, random, session, suites, compressions, numbering, refresh })
}

/// What stands behind the header of a ClientHello, which must be as long as the header says.
fn read_body(message: &[u8]) -> Option<Reader<'_>> {
    let mut message = Reader { left: message };
    if message.uint8()? != 1 {
        return None;
    }
    let body = message.list16()?;
    message.end()?;
    Some(body)
}

/// CipherSuite is two bytes, so the list's length is even (8.3).
fn read_suites(mut list: Reader) -> Option<Vec<[u8; 2]>> {
    let mut suites = Vec::new();
    while !list.left.is_empty() {
        suites.push([list.uint8()?, list.uint8()?]);
    }
    Some(suites)
}

fn walk_key_ids(mut list: Reader) -> Option<()> {
    while !list.left.is_empty() {
        walk_key_id(&mut list)?;
    }
    Some(())
}

/// KeyExchangeId: suite, parameter specifier, identifier. Explicit parameters (index 255) fill their
/// own length as those of the suite do.
fn walk_key_id(list: &mut Reader) -> Option<()> {
    let suite = list.uint8()?;
    let parameter_index = list.uint8()?;
    if parameter_index == 255 {
        let _set = set::read(suite, list.list16()?.left).ok()?;
    }
    match list.uint8()? {
        0 => {}
        1 => {
            let _character_set = list.take(2)?;
            let _name = list.list8(1, 255)?;
        }
        2 | 255 => {
            let _identifier = list.list8(1, 255)?;
        }
        254 => {
            let _key_hash = list.take(20)?;
        }
        _ => return None,
    }
    Some(())
}

/// What an acceptable hello has, in the order in which it is asked for.
#[derive(Clone, Copy, PartialEq, Eq, Debug)]
pub enum Condition {
    Version,
    Session,
    Pair,
    Compression,
    Numbering,
}

/// The MAC kind chosen for an acceptable hello: version 1, the planted session, the first pair of
/// null cipher with SHA_80 or SHA, null compression, explicit numbering. Else the first of these
/// that fails.
pub fn choose(hello: &ClientHello, planted: &[u8]) -> Result<Kind, Condition> {
    let kind = hello.suites.iter().find_map(|suite| match suite {
        [0, mac] => Kind::assigned(*mac),
        _ => None,
    });
    let asked = |holds: bool, condition| holds.then_some(()).ok_or(condition);
    asked(hello.version == 1, Condition::Version)?;
    asked(hello.session == planted, Condition::Session)?;
    let kind = kind.ok_or(Condition::Pair)?;
    asked(hello.compressions.contains(&0), Condition::Compression)?;
    asked(hello.numbering == 2, Condition::Numbering)?;
    Ok(kind)
}

/// The ServerHello message that answers a resumption. The client key number is 0: 10.5.1.3 fixes
/// no other for an abbreviated handshake.
pub fn write_server(random: &[u8], session: &[u8], kind: Kind, refresh: u8) -> Vec<u8> {
    let mut body = vec![1];
    body.extend(random);
    body.push(session.len() as u8);
    body.extend(session);
    body.push(0);
    body.extend([0, kind.number()]);
    body.extend([0, 2, refresh]);
    message(2, &body)
}

/// What a ServerHello says, in the order of its layout (10.5.1.3).
#[derive(Clone, PartialEq, Eq, Debug)]
pub struct ServerHello {
    pub version: u8,
    pub random: Vec<u8>,
    pub session: Vec<u8>,
    pub client_key: u8,
    pub suite: [u8; 2],
    pub compression: u8,
    pub numbering: u8,
    pub refresh: u8,
}

impl ServerHello {
    /// The whole handshake message. The length field is that of the session; bounds are not looked at.
    pub fn message(&self) -> Vec<u8> {
        let mut body = vec![self.version];
        body.extend(&self.random);
        body.push(self.session.len() as u8);
        body.extend(&self.session);
        body.push(self.client_key);
        body.extend(self.suite);
        body.extend([self.compression, self.numbering, self.refresh]);
        message(2, &body)
    }
}

/// Reads a whole ServerHello message; nothing if it is malformed: a length that is not the rest's, a
/// session identifier over 8 bytes, a cut, bytes left over.
pub fn read_server(message: &[u8]) -> Option<ServerHello> {
    let mut message = Reader { left: message };
    if message.uint8()? != 2 {
        return None;
    }
    let mut body = message.list16()?;
    message.end()?;

    let version = body.uint8()?;
    let random = body.take(16)?.to_vec();
    let session = body.list8(0, 8)?.left.to_vec();
    let client_key = body.uint8()?;
    let suite = [body.uint8()?, body.uint8()?];
    let compression = body.uint8()?;
    let numbering = body.uint8()?;
    let refresh = body.uint8()?;
    body.end()?;
    Some(ServerHello {
        version,
        random,
        session,
        client_key,
        suite,
        compression,
        numbering,
        refresh,
    })
}

/// A handshake message: type, length, body (10.5).
pub fn message(kind: u8, body: &[u8]) -> Vec<u8> {
    let mut message = vec![kind];
    message.extend((body.len() as u16).to_be_bytes());
    message.extend(body);
    message
}

/// Takes fields from the front; each gives nothing if it would pass the end.
pub(crate) struct Reader<'a> {
    pub(crate) left: &'a [u8],
}

impl<'a> Reader<'a> {
    pub(crate) fn take(&mut self, count: usize) -> Option<&'a [u8]> {
        if count > self.left.len() {
            return None;
        }
        let (taken, left) = self.left.split_at(count);
        self.left = left;
        Some(taken)
    }

    pub(crate) fn uint8(&mut self) -> Option<u8> {
        Some(self.take(1)?[0])
    }

    pub(crate) fn list8(&mut self, floor: usize, ceiling: usize) -> Option<Reader<'a>> {
        let length = usize::from(self.uint8()?);
        if length < floor || length > ceiling {
            return None;
        }
        Some(Reader { left: self.take(length)? })
    }

    pub(crate) fn list16(&mut self) -> Option<Reader<'a>> {
        let length = self.take(2)?;
        let length = usize::from(u16::from_be_bytes([length[0], length[1]]));
        Some(Reader { left: self.take(length)? })
    }

    pub(crate) fn end(&self) -> Option<()> {
        self.left.is_empty().then_some(())
    }
}

#[cfg(test)]
mod tests {
    use super::*;

    fn body(
        session: &[u8],
        ids: &[u8],
        suites: &[u8],
        compressions: &[u8],
        numbering: u8,
    ) -> Vec<u8> {
        let mut body = vec![1];
        body.extend([7; 16]);
        body.push(session.len() as u8);
        body.extend(session);
        body.extend((ids.len() as u16).to_be_bytes());
        body.extend(ids);
        body.extend([0, 0]);
        body.push(suites.len() as u8);
        body.extend(suites);
        body.push(compressions.len() as u8);
        body.extend(compressions);
        body.extend([numbering, 3]);
        body
    }

    fn well_formed(ids: &[u8]) -> bool {
        read(&message(1, &body(&[9; 8], ids, &[0, 2], &[0], 2))).is_ok()
    }

    #[test]
    fn identifiers() {
        assert!(well_formed(&[]));
        assert!(well_formed(&[5, 0, 0]));
        assert!(well_formed(&[5, 255, 0, 0, 0]));
        assert!(well_formed(&[5, 255, 0, 2, 8, 8, 0]));
        assert!(well_formed(&[5, 1, 1, 0, 3, 1, 65, 5, 1, 2, 1, 66, 5, 1, 255, 1, 67]));
        assert!(well_formed(&[[5, 1, 254].to_vec(), vec![6; 20]].concat()));
        assert!(!well_formed(&[[5, 1, 254].to_vec(), vec![6; 19]].concat()));
        assert!(!well_formed(&[5, 1, 1, 0, 3, 0]));
        assert!(!well_formed(&[5, 1, 2, 0]));
        assert!(!well_formed(&[5, 1, 255, 0]));
        assert!(!well_formed(&[5, 1, 3, 1, 1]));
        assert!(!well_formed(&[5, 255, 0, 3, 8, 8, 0]));
        assert!(!well_formed(&[5, 1]));
        assert!(!well_formed(&[5]));
    }

    #[test]
    fn explicit_sets() {
        let dh = [0, 0, 1, 23, 0, 1, 5];
        let entry = |suite: u8, index: u8, set: &[u8]| {
            [&[suite, index, 0, set.len() as u8][..], set, &[0]].concat()
        };
        assert!(well_formed(&entry(2, 255, &dh)));
        assert!(well_formed(&[entry(4, 255, &dh), entry(5, 255, &dh[1..])].concat()));
        assert!(!well_formed(&entry(2, 255, &dh[1..])));
        assert!(!well_formed(&entry(2, 255, &[])));
        assert!(!well_formed(&entry(11, 255, &dh)));
        assert!(well_formed(&entry(10, 255, &[])));
        assert!(well_formed(&entry(19, 255, &[])));
        assert!(well_formed(&[2, 254, 0]));
    }

    #[test]
    fn bounds_of_the_lists() {
        let check = |session: &[u8], suites: &[u8], compressions: &[u8]| {
            read(&message(1, &body(session, &[], suites, compressions, 2))).map(|_| ())
        };
        assert_eq!(check(&[], &[0, 2], &[0]), Ok(()));
        assert_eq!(check(&[9; 9], &[0, 2], &[0]), Err(Field::Session));
        assert_eq!(check(&[9; 8], &[], &[0]), Err(Field::Suites));
        assert_eq!(check(&[9; 8], &[0, 2, 0], &[0]), Err(Field::Suites));
        assert_eq!(check(&[9; 8], &[0, 2], &[]), Err(Field::Compressions));
        assert_eq!(check(&[9; 9], &[], &[]), Err(Field::Session));
    }

    /// A body cut after so many bytes lacks the field that the cut goes through.
    #[test]
    fn the_first_field_at_fault() {
        let ids = [5, 0, 0];
        let whole = body(&[9; 8], &ids, &[0, 2], &[0], 2);
        let fields = [
            (Field::Version, 1),
            (Field::Random, 16),
            (Field::Session, 9),
            (Field::ClientIds, 5),
            (Field::TrustedIds, 2),
            (Field::Suites, 3),
            (Field::Compressions, 2),
            (Field::Numbering, 1),
            (Field::Refresh, 1),
        ];
        let mut cut = 0;
        for (field, size) in fields {
            for _ in 0..size {
                assert_eq!(read(&message(1, &whole[..cut])), Err(field), "{cut}");
                cut += 1;
            }
        }
        assert_eq!(cut, whole.len());
        assert_eq!(read(&message(1, &[&whole[..], &[0]].concat())), Err(Field::End));
        assert_eq!(read(&message(1, &whole)[..40]), Err(Field::Header));
        assert_eq!(read(&[1, 0]), Err(Field::Header));
        assert_eq!(read(&[1; 257]), Err(Field::Size));
        assert_eq!(read(&[1; 256]), Err(Field::Header));
        let trusted = body(&[9; 8], &[], &[0, 2], &[0], 2);
        let spoiled = [&trusted[..28], &[0, 1, 5], &trusted[30..]].concat();
        assert_eq!(read(&message(1, &spoiled)), Err(Field::TrustedIds));
    }

    #[test]
    fn left_over_cut_and_too_long() {
        let whole = body(&[9; 8], &[], &[0, 2], &[0], 2);
        let message_of = |body: &[u8]| message(1, body);
        assert!(read(&message_of(&[&whole[..], &[0]].concat())).is_err());
        for cut in 0..whole.len() {
            assert!(read(&message_of(&whole[..cut])).is_err());
            assert!(read(&message_of(&whole)[..cut]).is_err());
        }
        assert!(read(&[message_of(&whole), vec![0]].concat()).is_err());
        let padded = |extra: usize| {
            let ids = [vec![1, 255, 0, extra as u8], vec![0; extra], vec![0]].concat();
            message_of(&body(&[9; 8], &ids, &[0, 2], &[0], 2))
        };
        assert_eq!(padded(211).len(), 256);
        assert!(read(&padded(211)).is_ok());
        assert_eq!(read(&padded(212)), Err(Field::Size));
    }

    #[test]
    fn server_hellos() {
        let whole = write_server(&[7; 16], &[9; 8], Kind::Sha, 3);
        let read = read_server(&whole).unwrap();
        assert_eq!(read.message(), whole);
        assert_eq!((read.version, read.client_key, read.suite), (1, 0, [0, 3]));
        assert_eq!((read.random, read.session), (vec![7; 16], vec![9; 8]));
        assert_eq!((read.compression, read.numbering, read.refresh), (0, 2, 3));
        for cut in 0..whole.len() {
            assert!(read_server(&whole[..cut]).is_none());
            assert!(cut < 3 || read_server(&message(2, &whole[3..cut])).is_none());
        }
        assert!(read_server(&[&whole[..], &[0]].concat()).is_none());
        assert!(read_server(&message(2, &[&whole[3..], &[0]].concat())).is_none());
        assert!(read_server(&message(1, &whole[3..])).is_none());
        let of_session = |size: usize| write_server(&[7; 16], &vec![9; size], Kind::Sha, 3);
        assert!(read_server(&of_session(0)).is_some());
        assert!(read_server(&of_session(7)).is_some());
        assert!(read_server(&of_session(9)).is_none());
    }

    #[test]
    fn choice() {
        let hello = |suites: &[u8], compressions: &[u8], numbering: u8| {
            read(&message(1, &body(&[9; 8], &[], suites, compressions, numbering))).unwrap()
        };
        let chosen = |suites: &[u8]| choose(&hello(suites, &[0], 2), &[9; 8]);
        let planted = [9; 8];
        assert_eq!(chosen(&[0, 2, 0, 3]), Ok(Kind::Sha80));
        assert_eq!(chosen(&[5, 2, 0, 1, 0, 3, 0, 2]), Ok(Kind::Sha));
        assert_eq!(chosen(&[0, 7]), Err(Condition::Pair));
        assert_eq!(choose(&hello(&[0, 2], &[4, 0], 2), &planted), Ok(Kind::Sha80));
        assert_eq!(choose(&hello(&[0, 2], &[4], 2), &planted), Err(Condition::Compression));
        assert_eq!(choose(&hello(&[0, 2], &[0], 1), &planted), Err(Condition::Numbering));
        assert_eq!(choose(&hello(&[0, 2], &[0], 2), &[8; 8]), Err(Condition::Session));
        assert_eq!(choose(&hello(&[0, 7], &[4], 1), &[8; 8]), Err(Condition::Session));
        assert_eq!(choose(&hello(&[0, 7], &[4], 1), &planted), Err(Condition::Pair));
        assert_eq!(choose(&hello(&[0, 2], &[4], 1), &planted), Err(Condition::Compression));
        let later = ClientHello { version: 2, ..hello(&[0, 7], &[4], 1) };
        assert_eq!(choose(&later, &[8; 8]), Err(Condition::Version));
    }
}
