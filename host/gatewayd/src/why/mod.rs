//! `why`, the command: why a datagram was refused, in words that a duty planner can act on (02, P5). What the reason is, and its facts,
//! is the library's; here it is asked and told.

pub mod ask;
pub mod facts;
pub mod input;
pub mod options;
pub mod reason;
pub mod words;
