//! SIGINT and SIGTERM ask for the end, SIGHUP for a new start in the same place. std has no signals.

use std::sync::atomic::{AtomicI32, Ordering};

static ASKED: AtomicI32 = AtomicI32::new(0);

const SIGHUP: i32 = 1;
const SIGINT: i32 = 2;
const SIGTERM: i32 = 15;

/// What a signal does if it is to do nothing.
const IGNORE: usize = 1;

extern "C" {
    fn signal(number: i32, handler: usize) -> usize;
    fn geteuid() -> u32;
}

#[derive(Clone, Copy, PartialEq, Eq, Debug)]
pub enum Asked {
    Nothing,
    NewStart,
    End,
}

extern "C" fn ask(number: i32) {
    ASKED.fetch_max(number, Ordering::Relaxed);
}

pub fn listen() {
    // Storing to an atomic is allowed in a handler.
    let handler: extern "C" fn(i32) = ask;
    unsafe {
        signal(SIGHUP, handler as usize);
        signal(SIGINT, handler as usize);
        signal(SIGTERM, handler as usize);
    }
}

/// For the successor, until it listens: what asks for a new start once more must not be its end.
pub fn ignore_new_start() {
    unsafe { signal(SIGHUP, IGNORE) };
}

/// What was asked for; the end outweighs a new start.
pub fn asked() -> Asked {
    match ASKED.load(Ordering::Relaxed) {
        0 => Asked::Nothing,
        SIGHUP => Asked::NewStart,
        _ => Asked::End,
    }
}

/// A new start cannot be had: forget that it was asked for.
pub fn refuse_new_start() {
    let _ = ASKED.compare_exchange(SIGHUP, 0, Ordering::Relaxed, Ordering::Relaxed);
}

/// Who runs this program.
pub fn user() -> u32 {
    unsafe { geteuid() }
}
