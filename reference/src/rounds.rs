//! A check in rounds (document 02, f): some steps at a time, each call with the file's bytes alone. A round judges its own
//! steps and takes what earlier ones say as it stands; only a run of rounds from step 0 on replies as one whole check.

use std::fmt;
use std::ops::Range;

use crate::fault::Fault;
use crate::file::File;
use crate::layout::MAX_STEPS;
use crate::{layout, steps, Reply};

/// What a round returns.
#[derive(Clone, Copy, Debug, PartialEq, Eq, Hash)]
pub enum Round {
    /// The last step was reached, and says "unsolvable".
    Ended,
    /// The step to go on from.
    GoOn(u64),
    Refused {
        number: u8,
        place: u64,
    },
}

/// Checks `count` steps of a file from step `from` on, or as many as are left.
pub fn check_round(bytes: &[u8], from: u64, count: u64) -> Round {
    let checked = layout::read(bytes).and_then(|file| round(&file, from, count));
    checked.unwrap_or_else(|fault| Round::Refused { number: fault.number, place: fault.place.into() })
}

fn round(file: &File, from: u64, count: u64) -> Result<Round, Fault> {
    let Some(part) = part(file.steps.len(), from, count) else {
        return Ok(Round::Refused { number: 17, place: 0 });
    };
    let next = part.end;
    steps::check_part(file, part)?;
    Ok(if next < file.steps.len() { Round::GoOn(next as u64) } else { Round::Ended })
}

/// The steps of a round in a file with so many; none where there is no such round.
fn part(steps: usize, from: u64, count: u64) -> Option<Range<usize>> {
    let from = usize::try_from(from).ok().filter(|from| *from < steps)?;
    let count = usize::try_from(count).ok().filter(|count| (1..=MAX_STEPS).contains(count))?;
    Some(from..steps.min(from + count))
}

/// Rounds from step 0 on, each later one at the step that was handed back: the reply of them all, and how many there were.
pub fn run(mut round: impl FnMut(u64) -> Round) -> (Reply, usize) {
    let (mut from, mut rounds) = (0, 0);
    loop {
        rounds += 1;
        match round(from) {
            Round::GoOn(next) => from = next,
            Round::Ended => return (Reply::Accepted, rounds),
            Round::Refused { number, place } => return (Reply::Refused { number, place }, rounds),
        }
    }
}

impl fmt::Display for Round {
    fn fmt(&self, f: &mut fmt::Formatter) -> fmt::Result {
        match self {
            Round::Ended => f.write_str("ended"),
            Round::GoOn(step) => write!(f, "go on from {step}"),
            Round::Refused { number, place } => write!(f, "refused {number} {place}"),
        }
    }
}
