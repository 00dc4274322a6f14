//! The shipboard end of one link, for Rust: WTLS (WAP-261, 6 April 2001) between a ship's unit and the shore, proved in Rattle.
//!
//! [`Unit`] is the ship's end of one connection, [`Tally`] its tally. Both are plain bytes: there is no heap behind them, and they may be
//! stored and loaded again. Every refusal is a [`Refusal`], which prints its number and its meaning.
//!
//! ```
//! use shipboard::{Answer, Tally, Unit};
//!
//! let mut unit = Unit::fresh(&[7; 8], &[9; 20], shipboard::WIDTH_LEAST)?;
//! let mut out = [0; shipboard::SEND_ROOM];
//! let hello = unit.hello(&[3; 16], &[3, 2], 4, &mut out)?.to_vec(); // to be sent
//! assert_eq!(unit.again(&mut out)?, hello); // and again, while no reply comes
//! let mut tally = Tally::default();
//! let request = [0x43, 0, 0, 0, 0, 0]; // what comes: a HelloRequest, in the middle of a handshake
//! let received = unit.receive(&mut tally, &request, &mut out)?;
//! assert_eq!(received.answers().next(), Some(Answer::Ignored));
//! assert_eq!(received.to_send(), b"");
//! # Ok::<(), Box<dyn std::error::Error>>(())
//! ```
//!
//! What each call promises is proved of the library, for all inputs (`crates/shipboard` and below). This wrapper is not proved; it is
//! tested (`tests/`). Only [`raw`] has unsafe code.

mod answer;
pub mod raw;
mod refusal;
mod tally;
mod unit;

pub use answer::{Answer, Answers, Received};
pub use refusal::Refusal;
pub use tally::Tally;
pub use unit::{Refused, Sense, State, Unit};

/// Sizes, in bytes.
pub const STATE_SIZE: usize = 180;
pub const TALLY_SIZE: usize = 16;
pub const ANSWER_SIZE: usize = 24;
pub const ANSWERS_SIZE: usize = 192;
pub const ID_SIZE: usize = 8;
pub const SECRET_SIZE: usize = 20;
/// Where a saved unit holds its secret.
pub const SECRET_PLACE: usize = 49;
pub const RANDOM_SIZE: usize = 16;
/// The widths that a window may have.
pub const WIDTH_LEAST: u32 = 32;
pub const WIDTH_MOST: u32 = 64;
/// The least room that a receive needs for our flight.
pub const FLIGHT_ROOM: usize = 128;
/// Room for anything that a hello or an again can write.
pub const AGAIN_ROOM: usize = 45;
pub const DATAGRAM_MOST: usize = 1400;
pub const DATA_MOST: usize = 1300;
/// Room for anything that a send can write.
pub const SEND_ROOM: usize = 1323;
