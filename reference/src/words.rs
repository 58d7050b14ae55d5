//! A refusal in words: what stands at the refused place and what is wrong with it.

use crate::fault::{Cause, Fault, Group, Item, StepCause};
use crate::file::Step;
use crate::numbering::ListFault;
use crate::rules::{self, RULES};

/// One line such as "refused 9 at step 4: rule PG, premise 1 does not match S[T]<S+U".
/// `step` is the refused step, where the layout was lawful.
pub fn describe(fault: &Fault, step: Option<&Step>) -> String {
    let Fault { number, place, cause } = fault;
    match cause {
        Cause::Layout(item) => {
            format!("refused {number} at byte {place}: {}", layout(*number, *item))
        }
        Cause::Step(cause) => {
            let rule = step.map_or(String::new(), rule_name);
            format!("refused {number} at step {place}: {rule}{}", step_words(*cause, step))
        }
    }
}

/// What is wrong with a list of rule numbers: which byte, and where its number was used before.
pub fn list_words(fault: &ListFault) -> String {
    let rule = |at: usize| format!("rule {} ({})", at + 1, RULES[at].name);
    match *fault {
        ListFault::Length(length) => format!("the list's length is {length}, not {}", RULES.len()),
        ListFault::Zero { at } => {
            format!("byte {at} of the list, for {}, is 0; numbers are 1 to 255", rule(at))
        }
        ListFault::Repeated { at, earlier, number } => {
            let used = format!("which byte {earlier} uses for {}", rule(earlier));
            format!("byte {at} of the list, for {}, is {number}, {used}", rule(at))
        }
    }
}

fn rule_name(step: &Step) -> String {
    match rules::by_number(step.rule) {
        Some(rule) => format!("rule {}, ", rule.name),
        None => String::new(),
    }
}

fn layout(number: u8, item: Item) -> String {
    let named = name(item);
    match (number, item) {
        (1, _) => "the file is under 4 or over 65536 bytes, or its length field is wrong".into(),
        (2, _) => "the version is none of 1, 2 and 3".into(),
        (3, Item::Rest) => "bytes are left over".into(),
        (3, _) => format!("{named} runs past the end"),
        (4, Item::EntryLength(..)) => format!("{named} does not fit its kind"),
        (4, _) => format!("{named} is out of range"),
        (5, _) => format!("{named} names a fact that the task does not have"),
        (16, _) => format!("{named} names a fact that is on in init"),
        (6, Item::Part(_, _, "action", _)) => format!("{named} is not an action of the task"),
        (6, _) => format!("{named} does not name an entry allowed there"),
        (19, _) => format!("{named} is over the small limits"),
        (_, Item::Part(_, _, "clause", _)) => format!("{named} has too many literals for its kind"),
        _ => format!("{named} is not above the one before it"),
    }
}

fn group_name(group: Group) -> &'static str {
    match group {
        Group::ActionSet => "action set",
        Group::StateSet => "state set",
    }
}

fn name(item: Item) -> String {
    match item {
        Item::Whole => "the file".into(),
        Item::Field(field) => format!("the {field}"),
        Item::Mask(action, mask) => format!("action {action}, mask {mask}"),
        Item::Entry(group, entry) => format!("{} {entry}", group_name(group)),
        Item::EntryLength(group, entry) => format!("{} {entry}, its length", group_name(group)),
        Item::EntryKind(group, entry) => format!("{} {entry}, its kind", group_name(group)),
        Item::Part(group, entry, part, k) => format!("{} {entry}, {part} {k}", group_name(group)),
        Item::Step(step) => format!("step {step}"),
        Item::Rest => "the rest".into(),
    }
}

fn step_words(cause: StepCause, step: Option<&Step>) -> String {
    match cause {
        StepCause::UnknownRule => "there is no such rule".into(),
        StepCause::NotListed(number) => format!("the list lacks the rule number {number}"),
        StepCause::JudgementKind => "the judgement kind is not the rule's".into(),
        StepCause::EntryOutside(k) => format!("entry {k} is not in the file"),
        StepCause::PremiseNotEarlier(k) => format!("premise {k} is not an earlier step"),
        StepCause::UnusedNotZero => "an unused place is not zero".into(),
        StepCause::Premise(k) => {
            format!("premise {k} does not match {}", rule_part(step, Some(k as usize)))
        }
        StepCause::Conclusion => {
            format!("the conclusion does not match {}", rule_part(step, None))
        }
        StepCause::Shape(why) => format!("the shape is not permitted: {why}"),
        StepCause::Untrue => "the statement is not true".into(),
        StepCause::NotUnsolvable => "the last step does not say unsolvable".into(),
    }
}

/// The text of a rule's k-th premise, counted from 1, or of its conclusion.
fn rule_part(step: Option<&Step>, premise: Option<usize>) -> &'static str {
    let Some(rule) = step.and_then(|step| rules::by_number(step.rule)) else {
        return "the rule";
    };
    let (premises, conclusion) = rule.text.split_once("; ").unwrap_or(("", rule.text));
    match premise {
        Some(k) => premises.split(", ").nth(k - 1).unwrap_or("the rule"),
        None => conclusion,
    }
}
