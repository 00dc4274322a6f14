//! SHA-1, FIPS 180-1.

pub type Digest = [u8; 20];

/// A hash under way: the chaining words, the block that is not yet full, the bytes taken so far.
#[derive(Clone)]
pub struct Sha1 {
    words: [u32; 5],
    block: [u8; 64],
    filled: usize,
    length: u64,
}

/// The digest of the pieces, one after the other.
pub fn sha1(pieces: &[&[u8]]) -> Digest {
    let mut hash = Sha1::new();
    for piece in pieces {
        hash.add(piece);
    }
    hash.finish()
}

impl Sha1 {
    /// Section 7: the initial words.
    pub fn new() -> Sha1 {
        Sha1 {
            words: [0x67452301, 0xefcdab89, 0x98badcfe, 0x10325476, 0xc3d2e1f0],
            block: [0; 64],
            filled: 0,
            length: 0,
        }
    }

    pub fn add(&mut self, mut bytes: &[u8]) {
        self.length += bytes.len() as u64;
        while !bytes.is_empty() {
            let taken = bytes.len().min(64 - self.filled);
            self.block[self.filled..self.filled + taken].copy_from_slice(&bytes[..taken]);
            self.filled += taken;
            bytes = &bytes[taken..];
            if self.filled == 64 {
                compress(&mut self.words, &self.block);
                self.filled = 0;
            }
        }
    }

    /// Section 4: a one bit, zeros, and the length in bits as the last 8 bytes of a block.
    pub fn finish(mut self) -> Digest {
        let bits = self.length * 8;
        self.add(&[0x80]);
        while self.filled != 56 {
            self.add(&[0]);
        }
        self.add(&bits.to_be_bytes());
        let mut digest = [0; 20];
        for (bytes, word) in digest.chunks_mut(4).zip(self.words) {
            bytes.copy_from_slice(&word.to_be_bytes());
        }
        digest
    }
}

impl Default for Sha1 {
    fn default() -> Sha1 {
        Sha1::new()
    }
}

/// Section 7, steps a to e, for one block of 64 bytes.
fn compress(words: &mut [u32; 5], block: &[u8; 64]) {
    let schedule = schedule(block);
    let [mut a, mut b, mut c, mut d, mut e] = *words;
    for (t, w) in schedule.iter().enumerate() {
        let (f, k) = round(t, b, c, d);
        let turned =
            a.rotate_left(5).wrapping_add(f).wrapping_add(e).wrapping_add(*w).wrapping_add(k);
        (a, b, c, d, e) = (turned, a, b.rotate_left(30), c, d);
    }
    for (word, add) in words.iter_mut().zip([a, b, c, d, e]) {
        *word = word.wrapping_add(add);
    }
}

/// Section 7, steps a and b: the 80 words of a block.
fn schedule(block: &[u8; 64]) -> [u32; 80] {
    let mut w = [0; 80];
    for (word, bytes) in w.iter_mut().zip(block.chunks(4)) {
        *word = u32::from_be_bytes([bytes[0], bytes[1], bytes[2], bytes[3]]);
    }
    for t in 16..80 {
        w[t] = (w[t - 3] ^ w[t - 8] ^ w[t - 14] ^ w[t - 16]).rotate_left(1);
    }
    w
}

/// Sections 5 and 6: the function and the constant of round t.
fn round(t: usize, b: u32, c: u32, d: u32) -> (u32, u32) {
    match t {
        0..=19 => ((b & c) | (!b & d), 0x5a827999),
        20..=39 => (b ^ c ^ d, 0x6ed9eba1),
        40..=59 => ((b & c) | (b & d) | (c & d), 0x8f1bbcdc),
        _ => (b ^ c ^ d, 0xca62c1d6),
    }
}

#[cfg(test)]
mod tests {
    use super::*;
    use crate::hex;

    fn check(message: &[u8], digest: &str) {
        assert_eq!(hex::write(&sha1(&[message])), digest);
    }

    #[test]
    fn published_vectors() {
        check(b"abc", "a9993e364706816aba3e25717850c26c9cd0d89d");
        check(
            b"abcdbcdecdefdefgefghfghighijhijkijkljklmklmnlmnomnopnopq",
            "84983e441c3bd26ebaae4aa1f95129e5e54670f1",
        );
        check(&[b'a'; 1_000_000], "34aa973cd4c4daa4f61eeb2bdbad27316534016f");
        check(b"", "da39a3ee5e6b4b0d3255bfef95601890afd80709");
    }

    #[test]
    fn pieces_are_one_message() {
        let message: Vec<u8> = (0..200u8).collect();
        for cut in 0..=200 {
            let (front, back) = message.split_at(cut);
            assert_eq!(sha1(&[front, back]), sha1(&[&message]));
        }
    }
}
