//! The list of MAC kinds in its two editions (002 appendix A, table 6).

use crate::{raw, NAME_ROOM};
use std::fmt;

/// Which list a number is looked up in.
#[derive(Clone, Copy, PartialEq, Eq, Debug)]
pub enum Edition {
    /// The older list, with SHA_XOR_40.
    Older = 1,
    /// That of April 2001, without it.
    April2001 = 2,
}

/// A MAC kind as an edition lists it.
#[derive(Clone, Copy, PartialEq, Eq)]
pub struct MacKind {
    name: [u8; NAME_ROOM],
    length: usize,
    sizes: Option<(usize, usize)>,
}

impl Edition {
    /// The MAC kind with a number; none where this edition does not list it.
    ///
    /// ```
    /// use gateway::Edition;
    ///
    /// let kind = Edition::Older.mac(4).expect("the older list has it");
    /// assert_eq!((kind.name(), kind.sizes()), ("SHA_XOR_40", None));
    /// assert_eq!(Edition::April2001.mac(4), None);
    /// assert_eq!(Edition::April2001.mac(2).and_then(|kind| kind.sizes()), Some((20, 10)));
    /// ```
    pub fn mac(self, number: u8) -> Option<MacKind> {
        let mut name = [0; NAME_ROOM];
        let told = raw::mac(self as u32, u32::from(number), &mut name);
        let shown = told.count >> 15 == 1;
        let sizes = shown.then_some((told.count >> 8 & 0x7f, told.count & 0xff));
        (told.written > 0).then_some(MacKind { name, length: told.written, sizes })
    }
}

impl MacKind {
    pub fn name(&self) -> &str {
        std::str::from_utf8(&self.name[..self.length]).expect("the list is in ASCII")
    }

    /// The sizes of its key and of its code, in bytes, where the list shows them.
    pub fn sizes(&self) -> Option<(usize, usize)> {
        self.sizes
    }
}

impl fmt::Debug for MacKind {
    fn fmt(&self, f: &mut fmt::Formatter) -> fmt::Result {
        write!(f, "{}", self.name())
    }
}
