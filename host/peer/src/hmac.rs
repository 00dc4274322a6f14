//! HMAC with SHA-1 (RFC 2104, WTLS 11.3.1) and the pseudo-random function (WTLS 11.3.2).

use crate::sha1::{sha1, Digest, Sha1};

/// HMAC of the pieces, one after the other, under the secret.
pub fn hmac(secret: &[u8], pieces: &[&[u8]]) -> Digest {
    let mut inner = Sha1::new();
    inner.add(&pad(secret, 0x36));
    for piece in pieces {
        inner.add(piece);
    }
    sha1(&[&pad(secret, 0x5c), &inner.finish()])
}

/// The secret, hashed if it is longer than a block, filled with zeros to a block, each byte
/// XORed with ipad or opad.
fn pad(secret: &[u8], with: u8) -> [u8; 64] {
    let mut block = [0; 64];
    if secret.len() > 64 {
        block[..20].copy_from_slice(&sha1(&[secret]));
    } else {
        block[..secret.len()].copy_from_slice(secret);
    }
    block.map(|byte| byte ^ with)
}

/// PRF(secret, label, seed) = P_hash(secret, label + seed), the first `size` bytes. It uses the
/// full SHA-1 for every MAC kind (Appendix A, table 6).
pub fn prf(secret: &[u8], label: &str, seed: &[&[u8]], size: usize) -> Vec<u8> {
    let mut labelled = label.as_bytes().to_vec();
    for piece in seed {
        labelled.extend_from_slice(piece);
    }
    let mut out = Vec::new();
    let mut a = labelled.clone();
    while out.len() < size {
        a = hmac(secret, &[&a]).to_vec();
        out.extend_from_slice(&hmac(secret, &[&a, &labelled]));
    }
    out.truncate(size);
    out
}

#[cfg(test)]
mod tests {
    use super::*;
    use crate::hex;

    #[test]
    fn rfc_2202() {
        let counted: Vec<u8> = (1..=25).collect();
        let long = b"Test Using Larger Than Block-Size Key and Larger Than One Block-Size Data";
        let cases: [(&[u8], &[u8], &str); 7] = [
            (&[0x0b; 20], b"Hi There", "b617318655057264e28bc0b6fb378c8ef146be00"),
            (b"Jefe", b"what do ya want for nothing?", "effcdf6ae5eb2fa2d27416d5f184df9c259a7c79"),
            (&[0xaa; 20], &[0xdd; 50], "125d7342b9ac11cd91a39af48aa17b4f63f175d3"),
            (&counted, &[0xcd; 50], "4c9007f4026250c6bc8414f9bf50c86c2d7235da"),
            (&[0x0c; 20], b"Test With Truncation", "4c1a03424b55e07fe7f27be1d58bb9324a9a5a04"),
            (
                &[0xaa; 80],
                b"Test Using Larger Than Block-Size Key - Hash Key First",
                "aa4ae5e15272d00e95705637ce8a3b55ed402112",
            ),
            (&[0xaa; 80], long, "e8e99d0f45237d786d6bbaa7965c7808bbff1a91"),
        ];
        for (secret, data, published) in cases {
            assert_eq!(hex::write(&hmac(secret, &[data])), published);
        }
    }

    /// The value is that of `tools/vectors`, line expand-100.
    #[test]
    fn expansion() {
        let secret: Vec<u8> = (0x30..0x44).collect();
        let server: Vec<u8> = (0x80..0x90).collect();
        let client: Vec<u8> = (0x10..0x20).collect();
        let block = prf(&secret, "client expansion", &[&[0, 16], &server, &client], 100);
        assert_eq!(
            hex::write(&block),
            "057092712772ccceba1ad8cb9900e98083428285abd5e964994c20e3bc92d08a83d0c43a16779931\
             b006c05739b500c25907ccab0c89d1bd32f83e2ac74713d7333cdcb76909be2e8a4c5e35818afad5\
             dd5cd2cc4a77b326d9d0524efd698adce73fcc87"
        );
    }
}
