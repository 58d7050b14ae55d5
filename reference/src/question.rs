//! The question "is this state in that set?" of a file whose layout is lawful.

use crate::file::{marked_actions, File, StateSet};
use crate::task::State;

const MAX_DEPTH: u8 = 4;

/// Whether the state is in the entry; none for reply 13.
pub fn answer(file: &File, entry: u64, state: State) -> Option<bool> {
    let entry = usize::try_from(entry).ok().filter(|e| *e < file.state_sets.len())?;
    if state & !file.task.all_facts() != 0 || !may_be_asked(file, entry) {
        return None;
    }
    Some(holds(file, entry as u16, state))
}

/// No progression at or beneath the entry, and depth at most 4.
fn may_be_asked(file: &File, entry: usize) -> bool {
    // The depth of each entry up to this one; MAX_DEPTH + 1 for too deep or progression.
    let mut depths: Vec<u8> = Vec::with_capacity(entry + 1);
    for set in &file.state_sets[..=entry] {
        let beneath = |e: u16| depths[e as usize];
        let depth = match *set {
            StateSet::Complement(s) | StateSet::Regression(s, _) => beneath(s) + 1,
            StateSet::Intersection(s, u) | StateSet::Union(s, u) => beneath(s).max(beneath(u)) + 1,
            StateSet::Progression(..) => MAX_DEPTH + 1,
            _ => 1,
        };
        depths.push(depth.min(MAX_DEPTH + 1));
    }
    depths[entry] <= MAX_DEPTH
}

/// Membership by the meaning of the kinds; the entry may be asked.
fn holds(file: &File, entry: u16, state: State) -> bool {
    match file.state_sets[entry as usize] {
        StateSet::Complement(s) => !holds(file, s, state),
        StateSet::Intersection(s, u) => holds(file, s, state) && holds(file, u, state),
        StateSet::Union(s, u) => holds(file, s, state) || holds(file, u, state),
        StateSet::Regression(s, a) => some_action_leads_in(file, s, a, state),
        base => file.base_holds(base, state),
    }
}

fn some_action_leads_in(file: &File, s: u16, a: u16, state: State) -> bool {
    let actions = marked_actions(file.action_sets[a as usize].marks);
    actions.map(|a| &file.task.actions[a]).any(|a| a.applies(state) && holds(file, s, a.after(state)))
}
