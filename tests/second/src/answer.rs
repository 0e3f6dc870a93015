//! What an event answers: a refusal, or the transaction number concerned and a reply, each
//! with the number the rules give it.

use crate::tables::Reason;

#[derive(Clone, Copy, Debug, PartialEq, Eq)]
pub enum Refusal {
    OutOfRange,
    BadName,
    CutWithItself,
    Down,
    Up,
    NameExists,
    NameAbsent,
    EntryInRecord,
    LogFull,
    EntriesFull,
    NumbersSpent,
    NoRecord,
    RecordSent,
    SendToDown,
    QueueEmpty,
    OutOfOrder,
    NotUnderstood,
}

impl Refusal {
    pub fn number(self) -> u32 {
        match self {
            Refusal::OutOfRange => 1,
            Refusal::BadName => 2,
            Refusal::CutWithItself => 3,
            Refusal::Down => 4,
            Refusal::Up => 5,
            Refusal::NameExists => 6,
            Refusal::NameAbsent => 7,
            Refusal::EntryInRecord => 8,
            Refusal::LogFull => 9,
            Refusal::EntriesFull => 10,
            Refusal::NumbersSpent => 11,
            Refusal::NoRecord => 12,
            Refusal::RecordSent => 13,
            Refusal::SendToDown => 14,
            Refusal::QueueEmpty => 15,
            Refusal::OutOfOrder => 16,
            Refusal::NotUnderstood => 23,
        }
    }
}

#[derive(Clone, Copy, Debug, PartialEq, Eq)]
pub enum Reply {
    None,
    /// The name was entered, or its entry taken out.
    Moved,
    /// The record was turned into an unlink.
    Turned,
    /// The record was closed because the add was refused.
    Failed(Reason),
}

impl Reply {
    pub fn number(self) -> u32 {
        match self {
            Reply::None => 0,
            Reply::Moved => 1,
            Reply::Turned => 2,
            Reply::Failed(reason) => reason.number(),
        }
    }
}

/// An accepted event: the transaction number concerned and the reply.
#[derive(Clone, Copy, Debug, PartialEq, Eq)]
pub struct Done {
    pub number: u32,
    pub reply: Reply,
}

impl Done {
    /// Accepted without a reply.
    pub fn quiet(number: u32) -> Done {
        Done {
            number,
            reply: Reply::None,
        }
    }
}

pub type Outcome = Result<Done, Refusal>;

/// Refuses unless the condition holds.
pub fn ensure(condition: bool, refusal: Refusal) -> Result<(), Refusal> {
    if condition {
        Ok(())
    } else {
        Err(refusal)
    }
}
