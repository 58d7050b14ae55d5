//! A field with a fault in words: its name and place, what it holds and what it may hold.

use std::ops::Range;

use super::text::{counted, ACTION_SET_KINDS, STATE_SET_KINDS};
use crate::explain::layout::{entry_place, Allowed, LayoutFault};
use crate::fault::{Group, Item};
use crate::file::{Clause, File};
use crate::names::Names;
use crate::show;

/// The field, what it holds and what it may hold, in lines.
pub fn words(bytes: &[u8], file: &File, fault: &LayoutFault, names: &Names) -> Vec<String> {
    let Range { start, end } = fault.bytes;
    let width = counted(end - start, "byte");
    vec![
        format!("At byte {start}, {width}: {}.", name(bytes, file, fault, names)),
        holds_words(bytes, fault, names),
        allowed_words(file, fault, names),
    ]
}

fn group_name(group: Group) -> &'static str {
    match group {
        Group::ActionSet => "action set",
        Group::StateSet => "state set",
    }
}

/// The field's name; items of an entry are counted from 0.
fn name(bytes: &[u8], file: &File, fault: &LayoutFault, names: &Names) -> String {
    match fault.item {
        Item::Whole if fault.bytes.len() > 4 => "the file".into(),
        Item::Whole => "the length field".into(),
        Item::Field("fact count") => "the fact count, n".into(),
        Item::Field("goal") => "the goal mask".into(),
        Item::Field("init") => "the init state".into(),
        Item::Field("unknown mask") => "the mask of unknown facts".into(),
        Item::Field("goal off mask") => "the mask of facts that are off in a goal state".into(),
        Item::Field(field) => format!("the {field}"),
        Item::Mask(action, mask) => {
            let of = if mask == "off" { " of facts that it needs off" } else { "" };
            format!("{}, its {mask} mask{of}", show::action_title(action as usize, names))
        }
        Item::Entry(group, entry) => format!("{} {entry}", group_name(group)),
        Item::EntryLength(group, entry) => format!("{} {entry}, its length", group_name(group)),
        Item::EntryKind(group, entry) => format!("{} {entry}, its kind", group_name(group)),
        Item::Part(group, entry, part, k) => {
            let body = entry_place(file, group) + 3;
            let part = match (part, fault.bytes.start - body) {
                ("clause", offset) if fault.number == 5 && offset % 16 == 8 => {
                    format!("clause {k}, its negative mask")
                }
                ("clause", _) if fault.number == 5 => format!("clause {k}, its positive mask"),
                ("reference", _) => format!("{}, reference {k}", kind_name(group, bytes[body - 1])),
                _ => format!("{part} {k}"),
            };
            format!("{} {entry}, {part}", group_name(group))
        }
        Item::Step(step) => format!("step {step}"),
        Item::Rest => "what follows the last step".into(),
    }
}

fn kind_name(group: Group, kind: u8) -> &'static str {
    match group {
        Group::ActionSet => ACTION_SET_KINDS[kind as usize],
        Group::StateSet => STATE_SET_KINDS[kind as usize],
    }
}

fn holds_words(bytes: &[u8], fault: &LayoutFault, names: &Names) -> String {
    let Some(value) = fault.holds else { return missing(bytes, fault) };
    match fault.allowed {
        Allowed::FactsBelow(facts) => {
            let high = value & !crate::task::all_facts(facts);
            let (all, high) = (names.facts_of(value), names.facts_of(high));
            format!("It holds {value:#x}: facts {all}, of which the task does not have {high}.")
        }
        Allowed::Without(init) => {
            let (all, both) = (names.facts_of(value), names.facts_of(value & init));
            format!("It holds {value:#x}: facts {all}, of which init has {both} on.")
        }
        Allowed::Horn | Allowed::TwoLiteral => {
            let negative = bytes[fault.bytes.start + 8..fault.bytes.end].iter();
            let negative = negative.fold(0, |mask, byte| mask << 8 | *byte as u64);
            let found = Clause { positive: value, negative };
            let literals = found.positive.count_ones() + negative.count_ones();
            let positive = found.positive.count_ones();
            format!(
                "It holds {}: {positive} positive of {}.",
                show::clause(&found, names),
                counted(literals as usize, "literal")
            )
        }
        Allowed::Length { each, .. } if fault.number == 19 => {
            format!("It holds {value}, for {}.", counted((value / each) as usize, "state"))
        }
        _ if fault.item == Item::Whole && fault.bytes.len() > 4 => format!("The file has {value} bytes."),
        _ => format!("It holds {value}."),
    }
}

/// What is there of a field that runs past the end, or after it.
fn missing(bytes: &[u8], fault: &LayoutFault) -> String {
    let there = bytes.len() - fault.bytes.start;
    match fault.item {
        Item::Rest => format!(
            "There {} left over.",
            if there == 1 { "is 1 byte".into() } else { format!("are {there} bytes") }
        ),
        Item::Entry(..) if there >= 2 => {
            format!(
                "Its length says that {} follow it; the file has {}.",
                counted(fault.bytes.len() - 2, "byte"),
                there - 2
            )
        }
        _ => format!("The file has {there} of these {}.", counted(fault.bytes.len(), "byte")),
    }
}

fn allowed_words(file: &File, fault: &LayoutFault, names: &Names) -> String {
    match &fault.allowed {
        Allowed::Numbers(range) => numbers_words(file, fault, range),
        Allowed::Above(before) => {
            format!("It has to be greater than the one before it, {before}: lists of actions ascend.")
        }
        Allowed::FactsBelow(1) => "It may hold fact 0 only: the task has 1 fact.".into(),
        Allowed::FactsBelow(n) => format!("It may hold facts 0 to {} only: the task has {n} facts.", n - 1),
        Allowed::Without(init) => {
            format!("It may hold facts that are off in init only, none of {}.", names.facts_of(*init))
        }
        Allowed::Horn => "A clause of a Horn set may have at most one positive fact.".into(),
        Allowed::TwoLiteral => "A clause of a two-literal set may have at most two literals.".into(),
        Allowed::Length { .. } => length_words(fault),
        Allowed::Whole { .. } => "It has to end within the file.".into(),
        Allowed::Nothing => "The file has to end with the last step.".into(),
    }
}

fn numbers_words(file: &File, fault: &LayoutFault, range: &Range<u64>) -> String {
    let numbers = match (range.start, range.end) {
        (start, end) if start >= end => "It may hold no number".into(),
        (start, end) if start + 1 == end => format!("It may hold {start} only"),
        (start, end) => format!("It may hold {start} to {}", end - 1),
    };
    format!("{numbers}{}.", because(file, fault))
}

/// Why these numbers are allowed, where that is not plain.
fn because(file: &File, fault: &LayoutFault) -> String {
    match (fault.number, fault.item) {
        (1, _) if fault.bytes.len() == 4 => ": the number of bytes after it".into(),
        (4, Item::EntryKind(Group::ActionSet, _)) => kinds(&ACTION_SET_KINDS),
        (4, Item::EntryKind(Group::StateSet, _)) => kinds(&STATE_SET_KINDS),
        (4, Item::EntryLength(..)) => ": its kind takes one byte at least".into(),
        (6, Item::Part(_, _, "action", _)) => {
            format!(": the task has {}", counted(file.task.actions.len(), "action"))
        }
        (6, Item::Part(group, entry, ..)) if fault.allowed == Allowed::Numbers(0..entry as u64) => {
            format!(": it names an earlier {}", group_name(group))
        }
        (6, _) => format!(": the file has {}", counted(file.action_sets.len(), "action set")),
        (19, _) => BY_SMALL_LIMITS.into(),
        _ => String::new(),
    }
}

fn kinds(names: &[&str]) -> String {
    let numbered = names.iter().enumerate().map(|(kind, name)| format!("{kind} {name}"));
    format!(": {}", numbered.collect::<Vec<_>>().join(", "))
}

const BY_SMALL_LIMITS: &str = " by the small limits";

fn length_words(fault: &LayoutFault) -> String {
    let Allowed::Length { kind, fixed, each, most } = fault.allowed else { return String::new() };
    let Item::EntryLength(group, _) = fault.item else { return String::new() };
    let of = format!("the kind, here {kind} ({})", kind_name(group, kind));
    let limits = if fault.number == 19 { BY_SMALL_LIMITS } else { "" };
    match (fixed, each) {
        (0, 0) => format!("It may hold 1 only: {of}, and nothing more."),
        (_, 0) => format!("It may hold {} only: {of}, and {fixed} bytes of references.", 1 + fixed),
        _ => format!("It may hold 1 for {of}, and {each} for each of 0 to {most} items{limits}."),
    }
}
