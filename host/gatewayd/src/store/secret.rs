//! The places of the secret in the bytes of a connection: blank in the store, where those who read reports may look, and put back
//! from the sessions file.

use crate::sessions::Secret;
use gateway::{Connection, Refusal, State, SECRET_PLACES, SECRET_SIZE, STATE_SIZE};

pub fn blanked(connection: &Connection) -> [u8; STATE_SIZE] {
    let mut bytes = *connection.save();
    for place in SECRET_PLACES {
        bytes[place..place + SECRET_SIZE].fill(0);
    }
    bytes
}

/// A barred connection has no secret any more, and gets none; nor does a started handshake that is none.
pub fn put_back(blanked: &[u8], secret: &Secret) -> Result<Connection, Refusal> {
    let connection = Connection::load(blanked)?;
    if connection.state() == State::Barred {
        return Ok(connection);
    }
    let mut bytes = *connection.save();
    let [handshake, started] = SECRET_PLACES;
    bytes[handshake..handshake + SECRET_SIZE].copy_from_slice(secret);
    if bytes[STARTED_STATE] != 0 {
        bytes[started..started + SECRET_SIZE].copy_from_slice(secret);
    }
    Connection::load(&bytes)
}

/// The state of the started handshake; 0 where there is none.
const STARTED_STATE: usize = 490;

#[cfg(test)]
mod tests {
    use super::*;
    use gateway::WIDTH_LEAST;

    #[test]
    fn blank_in_the_store_and_whole_again() {
        let secret = *b"a secret of 20 bytes";
        let connection = Connection::fresh(&[7; 8], &secret, WIDTH_LEAST).unwrap();
        let mut bytes = *connection.save();
        whole_again(&bytes, &secret);
        // one that was started beside it holds the same secret
        let (handshake, started) = bytes.split_at_mut(STARTED_STATE);
        started.copy_from_slice(&handshake[40..]);
        started[0] = 1;
        whole_again(&bytes, &secret);
    }

    fn whole_again(bytes: &[u8], secret: &Secret) {
        let connection = Connection::load(bytes).unwrap();
        let stored = blanked(&connection);
        assert!(!stored.windows(4).any(|bytes| secret.windows(4).any(|part| part == bytes)));
        assert!(put_back(&stored, secret).unwrap() == connection);
        assert!(put_back(&stored[1..], secret).is_err());
    }
}
