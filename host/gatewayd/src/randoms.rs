//! Fresh random bytes, of the system's making.

use std::fs::File;
use std::io::{self, Read};

pub struct Randoms {
    source: File,
    bytes: [u8; SIZE],
    used: usize,
}

const SIZE: usize = 4096;
const EACH: usize = 16;

impl Randoms {
    pub fn open() -> Result<Randoms, String> {
        let source =
            File::open("/dev/urandom").map_err(|error| format!("/dev/urandom: {error}"))?;
        Ok(Randoms { source, bytes: [0; SIZE], used: SIZE })
    }

    /// Bytes that nobody has had before.
    pub fn fresh(&mut self) -> io::Result<[u8; EACH]> {
        if self.used == SIZE {
            self.source.read_exact(&mut self.bytes)?;
            self.used = 0;
        }
        let mut random = [0; EACH];
        random.copy_from_slice(&self.bytes[self.used..self.used + EACH]);
        self.used += EACH;
        Ok(random)
    }
}
