//! The steps in turn: a step's own fields (8), then its rule's pattern (9), or for a
//! basic statement its shape (10) and truth (11). At the end the last step must say
//! "unsolvable" (12).

use std::ops::Range;

use crate::fault::{Fault, StepCause};
use crate::file::{File, Step};
use crate::shape::Method;
use crate::{clauses, derivation, explicit, rules, shape};

/// The first fault among the steps of a file whose layout is lawful.
pub fn check(file: &File) -> Result<(), Fault> {
    check_part(file, 0..file.steps.len())
}

/// The first fault among some of its steps; 12 where the last step is one of them.
pub fn check_part(file: &File, part: Range<usize>) -> Result<(), Fault> {
    for number in part.clone() {
        check_step(file, number)?;
    }
    let last = file.steps.len() - 1;
    if part.contains(&last) && file.steps[last].kind != 3 {
        return Err(Fault::step(12, last, StepCause::NotUnsolvable));
    }
    Ok(())
}

/// One step by itself. Its premises are read as they stand in the file, whether they would pass or not.
pub fn check_step(file: &File, number: usize) -> Result<(), Fault> {
    let step = &file.steps[number];
    let fault = |reply, cause| Fault::step(reply, number, cause);
    fields(file, step, number).map_err(|cause| fault(8, cause))?;
    if step.rule > 5 {
        return derivation::check(file, step).map_err(|cause| fault(9, cause));
    }
    let holds = if step.rule == 5 {
        actions_within(file, step.entries)
    } else {
        let statement = shape::of(file, step).map_err(|cause| fault(10, cause))?;
        match statement.method {
            Method::Explicit => explicit::holds(file, &statement),
            _ => clauses::holds(file, &statement),
        }
    };
    if holds {
        Ok(())
    } else {
        Err(fault(11, StepCause::Untrue))
    }
}

/// Reply 8: rule, judgement kind, entry numbers, premise numbers, unused places.
fn fields(file: &File, step: &Step, number: usize) -> Result<(), StepCause> {
    let Some(rule) = rules::by_number(step.rule) else { return Err(StepCause::UnknownRule) };
    if step.kind != rule.judgement {
        return Err(StepCause::JudgementKind);
    }
    let entries = if step.kind == 2 { file.action_sets.len() } else { file.state_sets.len() };
    let used = rules::entries_used(step.kind);
    for (k, &entry) in step.entries.iter().enumerate() {
        if k >= used && entry != 0 {
            return Err(StepCause::UnusedNotZero);
        }
        if k < used && entry as usize >= entries {
            return Err(StepCause::EntryOutside(k as u8 + 1));
        }
    }
    for (k, &premise) in step.premises.iter().enumerate() {
        if k >= rule.premises as usize && premise != 0 {
            return Err(StepCause::UnusedNotZero);
        }
        if k < rule.premises as usize && premise as usize >= number {
            return Err(StepCause::PremiseNotEarlier(k as u8 + 1));
        }
    }
    Ok(())
}

/// B5: each action of the first set is in the second.
fn actions_within(file: &File, [a, b]: [u16; 2]) -> bool {
    let (a, b) = (file.action_sets[a as usize].marks, file.action_sets[b as usize].marks);
    (0..4).all(|w| a[w] & !b[w] == 0)
}
