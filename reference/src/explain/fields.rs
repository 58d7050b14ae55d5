//! Reply 8: which of the five conditions on a step's own fields it breaks. A step may break several:
//! all of them are told. Without a known rule, or with a judgement kind that is not the rule's,
//! the other places have no meaning to be held to.

use crate::file::File;
use crate::rules::{self, Rule};

/// One of the two entry places or three premise places of a step, counted from 1.
#[derive(Clone, Copy, Debug, PartialEq, Eq)]
pub enum Place {
    Entry(u8),
    Premise(u8),
}

/// A condition that does not hold. A number that is not listed is the file's own, which the caller's list lacks.
#[derive(Clone, Copy, Debug, PartialEq, Eq)]
pub enum FieldFault {
    UnknownRule { rule: u8 },
    NotListed { number: u8 },
    JudgementKind { rule: &'static Rule, kind: u8 },
    EntryOutside { place: Place, entry: u16, entries: usize },
    PremiseNotEarlier { place: Place, premise: u16 },
    UnusedNotZero { place: Place, value: u16 },
}

/// All conditions that the fields of a step break.
pub fn faults(file: &File, number: usize) -> Vec<FieldFault> {
    let step = &file.steps[number];
    let Some(rule) = rules::by_number(step.rule) else {
        return vec![FieldFault::UnknownRule { rule: step.rule }];
    };
    if step.kind != rule.judgement {
        return vec![FieldFault::JudgementKind { rule, kind: step.kind }];
    }
    let entries = if step.kind == 2 { file.action_sets.len() } else { file.state_sets.len() };
    let used = rules::entries_used(step.kind);
    let entry = |(k, value): (usize, u16)| {
        let place = Place::Entry(k as u8 + 1);
        match k < used {
            true if value as usize >= entries => {
                Some(FieldFault::EntryOutside { place, entry: value, entries })
            }
            false if value != 0 => Some(FieldFault::UnusedNotZero { place, value }),
            _ => None,
        }
    };
    let premise = |(k, value): (usize, u16)| {
        let place = Place::Premise(k as u8 + 1);
        match k < rule.premises as usize {
            true if value as usize >= number => Some(FieldFault::PremiseNotEarlier { place, premise: value }),
            false if value != 0 => Some(FieldFault::UnusedNotZero { place, value }),
            _ => None,
        }
    };
    let entries = step.entries.into_iter().enumerate().filter_map(entry);
    entries.chain(step.premises.into_iter().enumerate().filter_map(premise)).collect()
}
