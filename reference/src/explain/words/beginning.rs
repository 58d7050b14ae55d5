//! The text form of what stands before a layout fault. Items that were read whole are lines that
//! `assemble` takes; the beginning of the item with the fault is a comment.

use crate::draft::{Draft, DraftActions, DraftSet};
use crate::explain::layout::{entry_place, LayoutFault};
use crate::explain::Examined;
use crate::fault::Item;
use crate::file::{Clause, File};
use crate::names::Names;
use crate::show::{self, ALL};
use crate::version::Places;

/// The lines of everything before the fault, which was read.
pub fn lines(bytes: &[u8], read: &Examined, fault: &LayoutFault, names: &Names) -> Vec<String> {
    let draft = Draft::of(&read.file);
    let mut lines = head(&draft, fault.item, names);
    lines.extend((0..draft.actions.len()).map(|a| show::action_line(&draft, a, names)));
    let sets = draft.action_sets.iter().enumerate();
    lines.extend(sets.map(|(e, set)| format!("actions {e} {}", show::action_set(set, names, ALL))));
    let sets = draft.state_sets.iter().enumerate();
    lines.extend(sets.map(|(e, set)| format!("set {e} {}", show::state_set(set, names, ALL))));
    let steps = draft.steps.iter().enumerate();
    lines.extend(steps.map(|(s, step)| show::step_line(s, step, &read.lacked)));
    lines.extend(begun(bytes, &read.file, fault, names).map(|begun| format!("# {begun} ...")));
    lines
}

/// The lines of the fields up to the goal that stand before the item.
fn head(draft: &Draft, item: Item, names: &Names) -> Vec<String> {
    if matches!(item, Item::Whole | Item::Field("version")) {
        return Vec::new();
    }
    let before = show::head_parts(draft, names).into_iter();
    let before = before.take_while(|(field, _)| item != Item::Field(field)).map(|(_, part)| part);
    before.collect::<String>().lines().map(String::from).collect()
}

/// The beginning of the action, list, or set of clauses in which the fault lies.
fn begun(bytes: &[u8], file: &File, fault: &LayoutFault, names: &Names) -> Option<String> {
    let word = |place: usize| number(bytes, place, 8);
    match fault.item {
        Item::Mask(a, mask) => {
            let places = Places::of(file.task.version);
            let first = places.actions + places.action * a as usize;
            let masks = places.masks.iter().take_while(|other| **other != mask).enumerate();
            let masks = masks.map(|(k, name)| format!(" {name} {}", names.facts_of(word(first + 8 * k))));
            Some(format!("{}{}", show::action_title(a as usize, names), masks.collect::<String>()))
        }
        Item::Part(group, entry, part, count) => {
            let body = entry_place(file, group) + 3;
            let places = |width: usize| (0..count as usize).map(move |k| body + width * k);
            let clause = |p| Clause { positive: word(p), negative: word(p + 8) };
            match (part, bytes[body - 1]) {
                ("action", _) => {
                    let list = DraftActions::List(places(2).map(|p| number(bytes, p, 2) as u16).collect());
                    Some(format!("actions {entry} {}", show::action_set(&list, names, ALL)))
                }
                ("state", _) => {
                    Some(set_line(entry, &DraftSet::Explicit(places(8).map(word).collect()), names))
                }
                ("clause", 4) => {
                    Some(set_line(entry, &DraftSet::Horn(places(16).map(clause).collect()), names))
                }
                ("clause", _) => {
                    Some(set_line(entry, &DraftSet::TwoCnf(places(16).map(clause).collect()), names))
                }
                _ => None,
            }
        }
        Item::Whole | Item::Field(_) | Item::Entry(..) | Item::EntryLength(..) => None,
        Item::EntryKind(..) | Item::Step(_) | Item::Rest => None,
    }
}

fn set_line(entry: u16, set: &DraftSet, names: &Names) -> String {
    format!("set {entry} {}", show::state_set(set, names, ALL))
}

/// The number in so many bytes; all of them were read.
fn number(bytes: &[u8], place: usize, width: usize) -> u64 {
    bytes[place..place + width].iter().fold(0, |number, byte| number << 8 | *byte as u64)
}
