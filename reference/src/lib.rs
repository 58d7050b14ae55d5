//! An independent checker of unsolvability certificates for planning tasks, written
//! from the documents alone. It decides the same replies as the proved checker by its own
//! algorithms, so that a disagreement between the two means something.

pub mod assemble;
pub mod clauses;
pub mod cost;
pub mod derivation;
pub mod draft;
pub mod draw;
pub mod explain;
pub mod explicit;
pub mod fault;
pub mod file;
pub mod generate;
pub mod layout;
pub mod named;
pub mod names;
pub mod numbering;
pub mod pattern;
pub mod question;
pub mod rounds;
pub mod rules;
pub mod shape;
pub mod show;
pub mod steps;
pub mod stricter;
pub mod task;
pub mod version;
pub mod words;

use std::fmt;

use fault::Fault;
use layout::Limits;
pub use numbering::check_numbered;
pub use rounds::{check_round, Round};

/// What the checker returns.
#[derive(Clone, Copy, Debug, PartialEq, Eq, Hash)]
pub enum Reply {
    Accepted,
    /// The place is a byte of the file or a step; for 18 a byte of the list, or its length, which has no limit.
    Refused {
        number: u8,
        place: u64,
    },
}

/// What the question returns.
#[derive(Clone, Copy, Debug, PartialEq, Eq, Hash)]
pub enum Answer {
    In,
    Out,
    Refused { number: u8, place: u32 },
}

/// Checks a file: task and certificate together.
pub fn check(bytes: &[u8]) -> Reply {
    layout::read(bytes).and_then(|file| steps::check(&file)).into()
}

/// Checks a file of at most 16,384 bytes, 512 states in an explicit set and 256 steps (document 02, l); more is refused with
/// 19. Any other reply is that of `check`.
pub fn check_small(bytes: &[u8]) -> Reply {
    layout::read_within(bytes, Limits::SMALL).and_then(|file| steps::check(&file)).into()
}

/// Asks whether a state is in a state set of the file.
pub fn ask(bytes: &[u8], entry: u64, state: u64) -> Answer {
    match layout::read(bytes) {
        Err(fault) => Answer::Refused { number: fault.number, place: fault.place },
        Ok(file) => match question::answer(&file, entry, state) {
            None => Answer::Refused { number: 13, place: 0 },
            Some(true) => Answer::In,
            Some(false) => Answer::Out,
        },
    }
}

impl From<Result<(), Fault>> for Reply {
    fn from(checked: Result<(), Fault>) -> Reply {
        match checked {
            Ok(()) => Reply::Accepted,
            Err(fault) => Reply::Refused { number: fault.number, place: fault.place.into() },
        }
    }
}

impl fmt::Display for Reply {
    fn fmt(&self, f: &mut fmt::Formatter) -> fmt::Result {
        match self {
            Reply::Accepted => f.write_str("accepted"),
            Reply::Refused { number, place } => write!(f, "refused {number} {place}"),
        }
    }
}

impl fmt::Display for Answer {
    fn fmt(&self, f: &mut fmt::Formatter) -> fmt::Result {
        match self {
            Answer::In => f.write_str("in"),
            Answer::Out => f.write_str("out"),
            Answer::Refused { number, place } => write!(f, "refused {number} {place}"),
        }
    }
}
