//! The list of MAC kinds (WTLS Appendix A, table 6) in its two editions: the older has SHA_XOR_40
//! under 4, its sizes unshown; April 2001's says of 4 "Algorithm removed".

/// What an edition says of a number.
#[derive(Debug, PartialEq, Eq)]
pub struct Kind {
    pub name: &'static str,
    /// key size and MAC size in bytes, where the list shows them
    pub sizes: Option<(u8, u8)>,
}

/// An edition other than the two.
#[derive(Debug, PartialEq, Eq)]
pub struct UnknownEdition;

/// Edition 1 is the older, 2 that of April 2001; no kind for a number that is not listed.
pub fn kind(edition: u8, number: u8) -> Result<Option<Kind>, UnknownEdition> {
    let removed = match edition {
        1 => Some(Kind { name: "SHA_XOR_40", sizes: None }),
        2 => None,
        _ => return Err(UnknownEdition),
    };
    let shown = |name, key, mac| Some(Kind { name, sizes: Some((key, mac)) });
    Ok(match number {
        0 => shown("SHA_0", 0, 0),
        1 => shown("SHA_40", 20, 5),
        2 => shown("SHA_80", 20, 10),
        3 => shown("SHA", 20, 20),
        4 => removed,
        5 => shown("MD5_40", 16, 5),
        6 => shown("MD5_80", 16, 10),
        7 => shown("MD5", 16, 16),
        _ => None,
    })
}
