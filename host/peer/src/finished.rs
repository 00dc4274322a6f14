//! The Finished message (WTLS 10.5.9).

use crate::hmac::prf;
use crate::keys::Writer;
use crate::sha1::sha1;

/// The first 12 bytes of PRF(master secret, label, H(handshake messages)). The messages are whole,
/// their headers included, and without record headers.
pub fn verify_data(secret: &[u8], writer: Writer, messages: &[&[u8]]) -> Vec<u8> {
    let label = match writer {
        Writer::Unit => "client finished",
        Writer::Shore => "server finished",
    };
    prf(secret, label, &[&sha1(messages)], 12)
}

/// Type 20, length 12, the data.
pub fn write(verify_data: &[u8]) -> Vec<u8> {
    [&[20, 0, 12], verify_data].concat()
}

/// The 12 bytes of a well-formed Finished; nothing for any other content.
pub fn read(content: &[u8]) -> Option<&[u8]> {
    match content {
        [20, 0, 12, data @ ..] if data.len() == 12 => Some(data),
        _ => None,
    }
}
