//! What happened to a datagram, for the log.

use gateway::Refusal;
use std::fmt;
use std::io::ErrorKind;

#[derive(Clone, Copy, PartialEq, Eq, Debug)]
pub enum Note {
    /// No ship's keys made it, and its sender is nobody that we know.
    Stranger,
    /// A hello that names no planted session.
    UnknownSession,
    /// A hello for which there was no room, or that was one of too many.
    HelloPassedOver,
    /// A hello that was answered.
    Answered,
    /// The sender was told that there is no connection.
    Hinted,
    /// A datagram refused as a whole; 1 to 5 begin at an offset.
    RefusedWhole {
        refusal: Refusal,
        offset: usize,
    },
    /// The record with this index is refused.
    Refused {
        refusal: Refusal,
        record: usize,
    },
    Opened,
    ClosedByAlert {
        description: u8,
    },
    /// A handshake under way was closed by an alert in the clear, the so-manieth since the start: who has seen nothing can
    /// write one (docs/GATEWAY.md).
    ClosedInClear {
        description: u8,
        so_far: u64,
    },
    ClosedByWrongFinished,
    BarredByAlert {
        description: u8,
    },
    /// An alert in the clear, for a handshake whose hello others said, too.
    AlertPassedOver,
    /// The warning 57 went out.
    Warned,
    /// A handshake beside an open connection has taken its place.
    Replaced,
    /// The system did not take a datagram of ours, the so-manieth since the start.
    NotSent {
        kind: ErrorKind,
        so_far: u64,
    },
    /// A short message that was not gathered.
    MessageRefused {
        refusal: Refusal,
    },
    /// A gathering of short messages that had waited for too long.
    GatheringDropped {
        have: usize,
        total: u8,
    },
    /// The library did not write an alert of ours.
    AlertRefused {
        refusal: Refusal,
    },
}

impl Note {
    /// Says it of the record with this index, if it is said of one.
    pub fn is_of(&mut self, index: usize) {
        if let Note::Refused { record, .. } = self {
            *record = index;
        }
    }

    /// Notes of one kind share the limit of the log. A few dozen kinds, whatever comes.
    pub fn kind(&self) -> (u8, u8) {
        match *self {
            Note::Stranger => (0, 0),
            Note::UnknownSession => (1, 0),
            Note::HelloPassedOver => (2, 0),
            Note::RefusedWhole { refusal, .. } | Note::Refused { refusal, .. } => {
                (3, refusal.number())
            }
            Note::Opened => (4, 0),
            Note::ClosedByAlert { .. } => (5, 0),
            Note::ClosedByWrongFinished => (6, 0),
            Note::BarredByAlert { .. } => (7, 0),
            Note::Warned => (8, 0),
            Note::Replaced => (9, 0),
            Note::AlertRefused { .. } => (10, 0),
            Note::NotSent { .. } => (11, 0),
            Note::Answered => (12, 0),
            Note::Hinted => (13, 0),
            Note::AlertPassedOver => (14, 0),
            Note::ClosedInClear { .. } => (15, 0),
            Note::MessageRefused { refusal } => (16, refusal.number()),
            Note::GatheringDropped { .. } => (17, 0),
        }
    }
}

impl fmt::Display for Note {
    fn fmt(&self, f: &mut fmt::Formatter) -> fmt::Result {
        match *self {
            Note::Stranger => write!(f, "dropped: no ship's, as far as it was tried"),
            Note::UnknownSession => write!(f, "dropped: the hello names no planted session"),
            Note::HelloPassedOver => write!(f, "dropped: too many hellos that name this ship"),
            Note::Answered => write!(f, "hello answered"),
            Note::Hinted => write!(f, "told that there is no connection"),
            Note::RefusedWhole { refusal, offset } => write!(f, "{refusal}, at byte {offset}"),
            Note::Refused { refusal, record } => write!(f, "{refusal}, record {record}"),
            Note::Opened => write!(f, "open"),
            Note::ClosedByAlert { description } => {
                write!(f, "closed by an alert, description {description}; started again")
            }
            Note::ClosedInClear { description, so_far } => write!(
                f,
                "handshake closed by an alert in the clear, description {description}; {so_far} so far"
            ),
            Note::ClosedByWrongFinished => write!(f, "closed by a wrong Finished; started again"),
            Note::BarredByAlert { description } => {
                write!(f, "session barred by a fatal alert, description {description}")
            }
            Note::AlertPassedOver => {
                write!(f, "dropped: an alert in the clear, and others said the same hello")
            }
            Note::Warned => write!(f, "Finished repeated: warning 57 sent"),
            Note::Replaced => write!(f, "the open connection was replaced by a new one"),
            Note::NotSent { kind, so_far } => {
                write!(f, "datagram not sent: {kind}; {so_far} so far")
            }
            Note::AlertRefused { refusal } => write!(f, "alert not sent: {refusal}"),
            Note::MessageRefused { refusal } => write!(f, "short message {refusal}"),
            Note::GatheringDropped { have, total } => {
                write!(f, "short message dropped: {have} of {total} parts had waited for too long")
            }
        }
    }
}
