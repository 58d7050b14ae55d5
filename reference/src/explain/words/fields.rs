//! The conditions on a step's own fields in words, with what stands there.

use super::text::JUDGEMENTS;
use crate::explain::fields::{FieldFault, Place};
use crate::file::Step;
use crate::rules;

/// A condition and what stands there instead, for the step of this number.
pub fn words(step: &Step, number: usize, fault: &FieldFault) -> String {
    match *fault {
        FieldFault::UnknownRule { rule } => {
            format!("unknown rule: the rule is {rule}; rules are 1 to {}.", rules::RULES.len())
        }
        FieldFault::NotListed { number } => {
            format!(
                "unknown rule: the file has the number {number}, which the list lacks; here it is rule 0."
            )
        }
        FieldFault::JudgementKind { rule, kind } => {
            let wanted = JUDGEMENTS[rule.judgement as usize];
            let found = JUDGEMENTS.get(kind as usize).map_or("unknown".into(), |name| format!("\"{name}\""));
            let [name, number] = [rule.name.to_string(), rule.judgement.to_string()];
            format!("wrong judgement kind: the kind is {kind}, {found}; {name} has {number}, \"{wanted}\".")
        }
        FieldFault::EntryOutside { place, entry, entries } => {
            let group = if step.kind == 2 { "action set" } else { "state set" };
            let there = numbered(entries, group);
            format!("entry outside the file: {} is {entry}; {there}.", place_name(place))
        }
        FieldFault::PremiseNotEarlier { place, premise } => {
            let earlier = numbered(number, "earlier step");
            format!("premise not an earlier step: {} is {premise}; {earlier}.", place_name(place))
        }
        FieldFault::UnusedNotZero { place, value } => {
            let name = rules::by_number(step.rule).map_or("the rule", |rule| rule.name);
            format!("unused place not zero: {} is {value}; {name} does not use it.", place_name(place))
        }
    }
}

/// The numbers that there are of a thing: "state sets are 0 to 6".
fn numbered(count: usize, thing: &str) -> String {
    match count {
        0 => format!("there is no {thing}"),
        1 => format!("the only {thing} is 0"),
        _ => format!("{thing}s are 0 to {}", count - 1),
    }
}

fn place_name(place: Place) -> String {
    match place {
        Place::Entry(1) => "the first entry number".into(),
        Place::Entry(_) => "the second entry number".into(),
        Place::Premise(k) => format!("premise {k}"),
    }
}
