//! Both checkers give the same reply, and the expected one; else a message says who said what.

use reference::{Answer, Reply};

use crate::earlier::Build;
use crate::files::{Limited, Question, Timed};
use crate::proved;

/// The reply to a file.
pub fn reply(file: &Timed) -> Result<Reply, String> {
    let (ours, other) = (proved::reply(file.proved()), file.reference());
    if ours == other && ours == file.expected {
        return Ok(ours);
    }
    let Timed { name, expected, .. } = file;
    Err(format!("{name}: the proved checker says {ours}, the reference {other}; expected is {expected}"))
}

/// The reply to a file by the small limits.
pub fn small(limited: &Limited) -> Result<Reply, String> {
    let Limited { file, small } = limited;
    let (ours, other) = (proved::reply(file.proved_small()), file.reference_small());
    if ours == other && ours == *small {
        return Ok(ours);
    }
    let said = format!("the proved checker says {ours}, the reference {other}; expected is {small}");
    Err(format!("{} by the small limits: {said}", file.name))
}

/// An earlier build replies as this one does, where it can be called.
pub fn same(file: &Timed, build: &Build) -> Result<(), String> {
    let Some(code) = build.check(file) else { return Ok(()) };
    let (before, ours) = (proved::reply(code), proved::reply(file.proved()));
    if before == ours {
        return Ok(());
    }
    Err(format!("{}: the proved checker says {ours}, its earlier build {before}", file.name))
}

/// How many rounds of so many steps a file takes. Both checkers end with the expected reply after as many.
pub fn in_rounds(file: &Timed, steps: u64) -> Result<usize, String> {
    let (ours, other) = (file.proved_in_rounds(steps), file.reference_in_rounds(steps));
    if ours == other && ours.0 == file.expected {
        return Ok(ours.1);
    }
    let said = |(reply, rounds): (Reply, usize)| format!("{reply} after {rounds} rounds of {steps}");
    let Timed { name, expected, .. } = file;
    let (ours, other) = (said(ours), said(other));
    Err(format!("{name}: the proved checker says {ours}, the reference {other}; expected is {expected}"))
}

/// The answer to a question.
pub fn answer(question: &Question) -> Result<Answer, String> {
    let Question { name, bytes, entry, state, expected } = question;
    let ours = proved::answer(proved::ask(bytes, *entry, *state));
    let other = reference::ask(bytes, *entry, *state);
    if ours == other && ours == *expected {
        return Ok(ours);
    }
    Err(format!("{name}: the proved checker says {ours}, the reference {other}; expected is {expected}"))
}
