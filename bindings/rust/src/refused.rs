//! The errors that say which call was refused and why.
use crate::call::Words;
use crate::explain::reason;
use crate::{Refusal, RefusedWhole, Session};
use std::error::Error;
use std::fmt;

/// A refusal in words: which call it was, which of its numbers is at fault, and the limit.
///
/// A question to a [`Session`] that names what isn't there gets one too, without a call.
#[derive(Clone, PartialEq, Eq, Hash)]
pub struct Refused {
    call: Option<usize>,
    refusal: Refusal,
    words: String,
}

impl Refused {
    /// The refused call's place in its list, counted from 0; nothing if a session was asked for what isn't there.
    pub fn call(&self) -> Option<usize> {
        self.call
    }

    /// Why, by the library's code.
    pub fn refusal(&self) -> Refusal {
        self.refusal
    }

    /// The call after those that left this session.
    pub(crate) fn after(before: &Session, call: [u32; 4], refusal: Refusal) -> Refused {
        let words = format!("{}: {}", Words(call), reason(before, call, refusal));
        Refused { call: Some(before.call_count()), refusal, words }
    }

    /// A question about something that isn't there.
    pub(crate) fn absent(words: String) -> Refused {
        Refused { call: None, refusal: Refusal::Absent, words }
    }
}

impl fmt::Display for Refused {
    fn fmt(&self, f: &mut fmt::Formatter<'_>) -> fmt::Result {
        if let Some(place) = self.call {
            write!(f, "call {place}, ")?;
        }
        f.write_str(&self.words)
    }
}

/// The words too, for a `main` that returns it prints this.
impl fmt::Debug for Refused {
    fn fmt(&self, f: &mut fmt::Formatter<'_>) -> fmt::Result {
        write!(f, "{:?} ({self})", self.refusal)
    }
}

impl Error for Refused {}

/// Why [`List::run`](crate::List::run) has no session to show.
#[derive(Clone, PartialEq, Eq, Debug)]
pub enum RunError {
    /// The whole list was refused; nothing was run.
    Whole(RefusedWhole),
    /// A call was refused: this is the first.
    Call(Refused),
}

impl fmt::Display for RunError {
    fn fmt(&self, f: &mut fmt::Formatter<'_>) -> fmt::Result {
        match self {
            RunError::Whole(refused) => write!(f, "{refused}"),
            RunError::Call(refused) => write!(f, "{refused}"),
        }
    }
}

impl Error for RunError {}

impl From<RefusedWhole> for RunError {
    fn from(refused: RefusedWhole) -> RunError {
        RunError::Whole(refused)
    }
}

impl From<Refused> for RunError {
    fn from(refused: Refused) -> RunError {
        RunError::Call(refused)
    }
}
