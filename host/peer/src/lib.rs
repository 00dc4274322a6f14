//! The ship's end and the shore's rules of WTLS, written a second time from the papers.
//!
//! This crate shares no code, table or generated file with the proved gateway. It exists to be
//! held against it: both read the same lines, and every line that they write must be the same.
//!
//! The papers are WAP-261-WTLS-20010406-a ("WTLS", cited by section), FIPS 180-1, RFC 2104 and
//! the exact rules of the house ("the rules").

#![forbid(unsafe_code)]

pub mod alert;
pub mod capture;
pub mod coast;
pub mod console;
pub mod damage;
pub mod day;
pub mod dayconsole;
pub mod dayfile;
pub mod dayfiles;
pub mod days;
pub mod finished;
pub mod handshake;
pub mod handshakes;
pub mod hello;
pub mod hex;
pub mod hmac;
pub mod keys;
pub mod lines;
pub mod links;
pub mod lists;
pub mod macs;
pub mod messages;
pub mod parts;
pub mod report;
pub mod rng;
pub mod rows;
pub mod script;
pub mod set;
pub mod setlines;
pub mod sets;
pub mod sha1;
pub mod shapes;
pub mod ship;
pub mod shipconsole;
pub mod shipcover;
pub mod shipday;
pub mod shiplines;
pub mod shipscript;
pub mod shipstored;
pub mod shore;
pub mod short;
pub mod shrink;
pub mod stored;
pub mod storedreboots;
pub mod storedsets;
pub mod storedwhys;
pub mod unit;
pub mod why;
pub mod whycover;
pub mod whywords;
pub mod window;
pub mod wire;
