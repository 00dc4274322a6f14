//! The log on standard error, and the progress line on a terminal. At most one line of a kind for
//! each ship in a given time; the next one tells how many were held back. A thread of its own
//! writes: where nobody reads, lines are dropped and counted, and the gateway goes on.

use crate::clock::Moment;
use crate::note::Note;
use crate::throttle::Throttle;
use std::io::{self, IsTerminal, Write};
use std::net::SocketAddr;
use std::sync::mpsc::{sync_channel, Receiver, SyncSender};
use std::thread;
use std::time::{Duration, Instant};

pub struct Log {
    throttle: Throttle<(Option<usize>, (u8, u8))>,
    on_terminal: bool,
    progress_at: Option<Instant>,
    lines: Option<SyncSender<String>>,
    written: Receiver<()>,
    /// Lines for which there was no room, and that no line has told of yet.
    dropped: u64,
}

/// The counts of the progress line.
#[derive(Default)]
pub struct Progress {
    pub datagrams: u64,
    pub handed_out: u64,
    pub forged: u64,
    pub too_old: u64,
    pub repeated: u64,
    pub dropped: u64,
    pub not_sent: u64,
}

const PROGRESS_EVERY: Duration = Duration::from_millis(200);
const CLEAR_LINE: &str = "\r\x1b[K";
/// So many lines may wait for whoever reads them.
const WAITING: usize = 1024;
/// So long the end waits for them.
const PATIENCE: Duration = Duration::from_secs(1);

impl Log {
    pub fn new(every: Duration) -> Log {
        let on_terminal = io::stderr().is_terminal();
        let (lines, waiting) = sync_channel(WAITING);
        let (done, written) = sync_channel(1);
        let writer = move || {
            write_all(&waiting);
            let _ = done.send(());
        };
        // Without a thread there is no log; there is nobody to tell it.
        let _ = thread::Builder::new().spawn(writer);
        Log {
            throttle: Throttle::new(every),
            on_terminal,
            progress_at: None,
            lines: Some(lines),
            written,
            dropped: 0,
        }
    }

    pub fn note(
        &mut self,
        ship: Option<(usize, &str)>,
        sender: SocketAddr,
        note: Note,
        now: Instant,
    ) {
        let key = (ship.map(|(index, _)| index), note.kind());
        let Some(held_back) = self.throttle.pass(key, now) else { return };
        let name = ship.map_or("-", |(_, name)| name);
        match held_back {
            0 => self.line(&format!("{name} {sender}: {note}")),
            _ => self.line(&format!(
                "{name} {sender}: {note} ({held_back} more since the last such line)"
            )),
        }
    }

    /// A line that is not held back.
    pub fn line(&mut self, line: &str) {
        let clear = if self.progress_at.is_some() { CLEAR_LINE } else { "" };
        let now = Moment::now();
        let told = match self.dropped {
            0 => String::new(),
            dropped => format!("{clear}{now} {dropped} lines dropped: nobody read the log\n"),
        };
        match self.write(format!("{told}{clear}{now} {line}\n")) {
            true => self.dropped = 0,
            false => self.dropped += 1,
        }
    }

    pub fn wants_progress(&self, now: Instant) -> bool {
        self.on_terminal
            && self.progress_at.is_none_or(|at| now.duration_since(at) >= PROGRESS_EVERY)
    }

    pub fn progress(&mut self, counts: &Progress, now: Instant) {
        self.progress_at = Some(now);
        let Progress { datagrams, handed_out, forged, too_old, repeated, dropped, not_sent } =
            counts;
        let taken = format!("datagrams {datagrams}, handed out {handed_out}");
        let refused = format!("forged {forged}, too old {too_old}, repeated {repeated}");
        let lost = format!("dropped by the system {dropped}, not sent {not_sent}");
        self.write(format!("{CLEAR_LINE}{taken}, {refused}, {lost}"));
    }

    /// The end of the log: the progress line is done, and what was held back is summed up.
    pub fn end(&mut self) {
        let held_back: u64 = self.throttle.untold().map(|(_, count)| count).sum();
        if self.progress_at.take().is_some() {
            self.write("\n".to_string());
        }
        if held_back > 0 {
            self.line(&format!("{held_back} more lines were held back"));
        }
        self.lines = None;
        let _ = self.written.recv_timeout(PATIENCE);
    }

    fn write(&self, text: String) -> bool {
        self.lines.as_ref().is_some_and(|lines| lines.try_send(text).is_ok())
    }
}

/// Each in one call, so that a line is whole whatever else is written there. An error on writing it
/// is nothing that could be told.
fn write_all(lines: &Receiver<String>) {
    for text in lines {
        let _ = io::stderr().write_all(text.as_bytes());
    }
}

/// To standard output; nobody need read it, and nothing waits long for him.
pub fn say(text: String) {
    write_to(io::stdout(), text);
}

/// A line where there is no log any more.
pub fn complain(line: &str) {
    write_to(io::stderr(), format!("{} {line}\n", Moment::now()));
}

fn write_to(mut out: impl Write + Send + 'static, text: String) {
    let (done, written) = sync_channel(1);
    let writer = move || {
        let _ = out.write_all(text.as_bytes());
        let _ = done.send(());
    };
    if thread::Builder::new().spawn(writer).is_ok() {
        let _ = written.recv_timeout(PATIENCE);
    }
}
