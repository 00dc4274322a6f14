//! The shore end of the link as a program. The connections are the proved library's; here are the
//! sessions, the routes, the store and the network around them.

pub mod budget;
pub mod clock;
pub mod datagram;
pub mod fleet;
pub mod handshakes;
pub mod hex;
pub mod hints;
pub mod inbox;
pub mod log;
pub mod messages;
pub mod note;
pub mod options;
pub mod randoms;
pub mod refusals;
pub mod reports;
pub mod routes;
pub mod run;
pub mod search;
pub mod sessions;
pub mod ship;
pub mod shore;
pub mod signals;
pub mod socket;
pub mod store;
pub mod throttle;
pub mod trial;
pub mod waiting;
pub mod way;
pub mod why;
