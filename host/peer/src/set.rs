//! Explicit parameter sets (WTLS 10.5.1.2, ParameterSet): what they are, read and written.

use crate::hello::Reader;
use crate::hex;

/// The contents of a set, behind its length.
#[derive(Clone, PartialEq, Eq, Debug)]
pub enum Set {
    DiffieHellman {
        e: u8,
        p: Vec<u8>,
        g: Vec<u8>,
    },
    Curve {
        field: Field,
        a: Vec<u8>,
        b: Vec<u8>,
        seed: Vec<u8>,
        base: Vec<u8>,
        order: Vec<u8>,
        cofactor: Vec<u8>,
    },
}

#[derive(Clone, PartialEq, Eq, Debug)]
pub enum Field {
    Prime(Vec<u8>),
    Two { m: u16, basis: Basis },
}

#[derive(Clone, PartialEq, Eq, Debug)]
pub enum Basis {
    Onb,
    Trinomial(u16),
    Pentanomial(u16, u16, u16),
    Polynomial(Vec<u8>),
}

/// What a set of a key exchange suite is (appendix A).
#[derive(Clone, Copy, PartialEq, Eq, Debug)]
pub enum Kind {
    DiffieHellman,
    Curve,
    /// RSA and all others: no structure is read.
    Skipped,
}

#[derive(Clone, Copy, PartialEq, Eq, Debug)]
pub struct Malformed;

pub fn kind(suite: u8) -> Kind {
    match suite {
        2..=4 => Kind::DiffieHellman,
        11..=18 => Kind::Curve,
        _ => Kind::Skipped,
    }
}

/// Reads the set of a suite, which must fill the bytes; nothing for one that is skipped.
pub fn read(suite: u8, bytes: &[u8]) -> Result<Option<Set>, Malformed> {
    let mut reader = Reader { left: bytes };
    let set = match kind(suite) {
        Kind::Skipped => return Ok(None),
        Kind::DiffieHellman => read_diffie_hellman(&mut reader),
        Kind::Curve => read_curve(&mut reader),
    };
    match (set, reader.end()) {
        (Some(set), Some(())) => Ok(Some(set)),
        _ => Err(Malformed),
    }
}

fn read_diffie_hellman(reader: &mut Reader) -> Option<Set> {
    let e = reader.uint8()?;
    let p = reader.list16()?.left.to_vec();
    let g = reader.list16()?.left.to_vec();
    (!p.is_empty() && !g.is_empty()).then_some(Set::DiffieHellman { e, p, g })
}

fn read_curve(reader: &mut Reader) -> Option<Set> {
    let field = match reader.uint8()? {
        1 => Field::Prime(opaque(reader)?),
        2 => Field::Two { m: uint16(reader)?, basis: read_basis(reader)? },
        _ => return None,
    };
    let (a, b) = (opaque(reader)?, opaque(reader)?);
    let seed = reader.list8(0, 255)?.left.to_vec();
    let (base, order, cofactor) = (opaque(reader)?, opaque(reader)?, opaque(reader)?);
    Some(Set::Curve { field, a, b, seed, base, order, cofactor })
}

fn read_basis(reader: &mut Reader) -> Option<Basis> {
    Some(match reader.uint8()? {
        1 => Basis::Onb,
        2 => Basis::Trinomial(uint16(reader)?),
        3 => Basis::Pentanomial(uint16(reader)?, uint16(reader)?, uint16(reader)?),
        4 => Basis::Polynomial(opaque(reader)?),
        _ => return None,
    })
}

/// opaque <1..2^8-1>
fn opaque(reader: &mut Reader) -> Option<Vec<u8>> {
    Some(reader.list8(1, 255)?.left.to_vec())
}

fn uint16(reader: &mut Reader) -> Option<u16> {
    let bytes = reader.take(2)?;
    Some(u16::from_be_bytes([bytes[0], bytes[1]]))
}

impl Set {
    /// The set as it stands in a specifier, without its length. Bounds are not looked at.
    pub fn write(&self) -> Vec<u8> {
        match self {
            Set::DiffieHellman { e, p, g } => [vec![*e], counted16(p), counted16(g)].concat(),
            Set::Curve { field, a, b, seed, base, order, cofactor } => {
                let mut bytes = field.write();
                for vector in [a, b, seed, base, order, cofactor] {
                    bytes.extend(counted(vector));
                }
                bytes
            }
        }
    }

    /// The set in words.
    pub fn words(&self) -> String {
        match self {
            Set::DiffieHellman { e, p, g } => format!("dh e={e} p={} g={}", word(p), word(g)),
            Set::Curve { field, a, b, seed, base, order, cofactor } => format!(
                "ec {} a={} b={} seed={} base={} order={} cofactor={}",
                field.words(),
                word(a),
                word(b),
                word(seed),
                word(base),
                word(order),
                word(cofactor)
            ),
        }
    }
}

impl Field {
    fn write(&self) -> Vec<u8> {
        match self {
            Field::Prime(p) => [vec![1], counted(p)].concat(),
            Field::Two { m, basis } => [vec![2], m.to_be_bytes().to_vec(), basis.write()].concat(),
        }
    }

    fn words(&self) -> String {
        match self {
            Field::Prime(p) => format!("prime p={}", word(p)),
            Field::Two { m, basis } => format!("two m={m} {}", basis.words()),
        }
    }
}

impl Basis {
    fn write(&self) -> Vec<u8> {
        match self {
            Basis::Onb => vec![1],
            Basis::Trinomial(k) => [vec![2], k.to_be_bytes().to_vec()].concat(),
            Basis::Pentanomial(k1, k2, k3) => {
                let mut bytes = vec![3];
                for k in [k1, k2, k3] {
                    bytes.extend(k.to_be_bytes());
                }
                bytes
            }
            Basis::Polynomial(irreducible) => [vec![4], counted(irreducible)].concat(),
        }
    }

    fn words(&self) -> String {
        match self {
            Basis::Onb => "onb".to_string(),
            Basis::Trinomial(k) => format!("trinomial {k}"),
            Basis::Pentanomial(k1, k2, k3) => format!("pentanomial {k1} {k2} {k3}"),
            Basis::Polynomial(irreducible) => format!("polynomial {}", word(irreducible)),
        }
    }
}

fn word(bytes: &[u8]) -> String {
    match bytes {
        [] => "-".to_string(),
        _ => hex::write(bytes),
    }
}

fn counted(bytes: &[u8]) -> Vec<u8> {
    [&[bytes.len() as u8], bytes].concat()
}

fn counted16(bytes: &[u8]) -> Vec<u8> {
    [&(bytes.len() as u16).to_be_bytes()[..], bytes].concat()
}

#[cfg(test)]
mod tests {
    use super::*;

    fn said(suite: u8, set: &str) -> String {
        match read(suite, &hex::read(set.as_bytes()).unwrap()) {
            Ok(None) => "skipped".to_string(),
            Err(Malformed) => "12".to_string(),
            Ok(Some(set)) => set.words(),
        }
    }

    #[test]
    fn words_of_sets() {
        assert_eq!(said(2, "00000117000105"), "dh e=0 p=17 g=05");
        assert_eq!(said(4, "ff0002abcd000105"), "dh e=255 p=abcd g=05");
        assert_eq!(
            said(14, "0200a303000300060007010101020002030401050102"),
            "ec two m=163 pentanomial 3 6 7 a=01 b=02 seed=- base=0304 order=05 cofactor=02"
        );
        assert_eq!(
            said(11, "0102fffe010101020109020304010501ff"),
            "ec prime p=fffe a=01 b=02 seed=09 base=0304 order=05 cofactor=ff"
        );
        let rest = "01010102000203040105 0102".replace(' ', "");
        let of = |field: &str| said(18, &format!("{field}{rest}"));
        let tail = " a=01 b=02 seed=- base=0304 order=05 cofactor=02";
        assert_eq!(of("02000001"), format!("ec two m=0 onb{tail}"));
        assert_eq!(
            of("02007102 0009".replace(' ', "").as_str()),
            format!("ec two m=113 trinomial 9{tail}")
        );
        assert_eq!(of("0200710403010203"), format!("ec two m=113 polynomial 010203{tail}"));
        assert_eq!(said(8, "ffff"), "skipped");
    }

    #[test]
    fn malformed_sets() {
        for (suite, set) in [
            (2, ""),
            (2, "00"),
            (2, "000000000105"),
            (2, "0000011700"),
            (2, "000001170000"),
            (2, "0000011700010500"),
            (3, "0000021700"),
            (11, ""),
            (11, "0101170101010201090203040105010100"),
            (11, "03011701010102000203040105 0102"),
            (11, "0100010101020002030401050102"),
            (14, "0200a30501010102000203040105 0102"),
            (14, "0200a30001010102000203040105 0102"),
            (14, "0200"),
            (14, "0200a3"),
            (14, "0200a302"),
            (14, "0200a30300010002"),
            (14, "0200a30400010101020002030401050102"),
            (14, "0101170001020002030401050102"),
            (14, "01011701010102000003040105 0102"),
        ] {
            assert_eq!(said(suite, &set.replace(' ', "")), "12", "{suite} {set}");
        }
    }

    #[test]
    fn what_is_read_is_written_back() {
        for (suite, set) in [
            (2, "00000117000105"),
            (14, "0200a303000300060007010101020002030401050102"),
            (11, "0102fffe010101020109020304010501ff"),
            (12, "0200000101010102000203040105 0102"),
        ] {
            let bytes = hex::read(set.replace(' ', "").as_bytes()).unwrap();
            assert_eq!(read(suite, &bytes).unwrap().unwrap().write(), bytes);
        }
    }
}
