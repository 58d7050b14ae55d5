//! Entries, states, actions and steps as explanations write them: in the text form, facts and
//! actions by their names, long lists cut short.

use crate::draft::{Draft, DraftActions, DraftSet};
use crate::file::Step;
use crate::names::Names;
use crate::show;

/// How many items of a list an explanation shows.
const FEW: usize = 8;

/// The kinds of state sets in words, by number.
pub const STATE_SET_KINDS: [&str; 11] = [
    "the empty set",
    "init",
    "the goal states",
    "a list of states",
    "a set of Horn clauses",
    "a set of two-literal clauses",
    "a complement",
    "an intersection",
    "a union",
    "a progression",
    "a regression",
];

/// The kinds of action sets in words, by number.
pub const ACTION_SET_KINDS: [&str; 3] = ["all actions", "a list of actions", "a union of action sets"];

/// The judgement kinds as document 01 writes them, by number.
pub const JUDGEMENTS: [&str; 4] = ["E dead", "E within F", "A within B, of action sets", "unsolvable"];

/// A file and the names that its facts and actions go by.
pub struct Text<'a> {
    pub draft: &'a Draft,
    pub names: &'a Names,
}

impl Text<'_> {
    /// A state as a number and as its facts, `state 2 {1}`.
    pub fn state(&self, state: u64) -> String {
        format!("state {} {}", show::state(state), self.names.facts_of(state))
    }

    /// The initial states in words, `state 0 {}` or `any of 4 initial states (state 0 {} with {1 2} on or off)`.
    pub fn inits(&self) -> String {
        let init = self.state(self.draft.init);
        if self.draft.unknown == 0 {
            return init;
        }
        let unknown = self.names.facts_of(self.draft.unknown);
        format!("any of {} ({init} with {unknown} on or off)", self.init_count())
    }

    /// How many initial states there are, `4 initial states`; from 2 to the power 32 on as a power.
    pub fn init_count(&self) -> String {
        match self.draft.unknown.count_ones() {
            unknown @ 32.. => format!("2^{unknown} initial states"),
            unknown => counted(1 << unknown, "initial state"),
        }
    }

    /// A set that a state is in; of several initial states it is one.
    pub fn having(&self, entry: u16) -> String {
        let one_of = match self.draft.state_sets[entry as usize] {
            DraftSet::Init if self.draft.unknown != 0 => format!(", as one of {}", self.init_count()),
            _ => String::new(),
        };
        format!("{}{one_of}", self.set(entry))
    }

    /// A state set, `set 3 explicit 0 1 2`.
    pub fn set(&self, entry: u16) -> String {
        format!("set {entry} {}", show::state_set(&self.draft.state_sets[entry as usize], self.names, FEW))
    }

    /// An action set, `actions 1 list 0 2`.
    pub fn actions(&self, entry: u16) -> String {
        let content = show::action_set(&self.draft.action_sets[entry as usize], self.names, FEW);
        format!("actions {entry} {content}")
    }

    /// An action with its masks, `action 1 pre {} add {1} del {0}`.
    pub fn action(&self, action: u16) -> String {
        show::action_line(self.draft, action as usize, self.names)
    }

    /// The kind of a state set in words and as a number.
    pub fn set_kind(&self, entry: u16) -> String {
        let kind = set_kind(&self.draft.state_sets[entry as usize]);
        format!("{} (kind {kind})", STATE_SET_KINDS[kind as usize])
    }

    /// The kind of an action set in words and as a number.
    pub fn actions_kind(&self, entry: u16) -> String {
        let kind = actions_kind(&self.draft.action_sets[entry as usize]);
        format!("{} (kind {kind})", ACTION_SET_KINDS[kind as usize])
    }

    /// A step, `step 4 PG dead 3 by 1 0 3`.
    pub fn step(&self, number: usize) -> String {
        format!("step {number} {}", step_content(&self.draft.steps[number]))
    }
}

/// A step without the rule's text.
fn step_content(step: &Step) -> String {
    let text = show::step_text(step);
    text.split("  #").next().unwrap_or("").to_string()
}

/// The kind number of a state set.
pub fn set_kind(set: &DraftSet) -> u8 {
    match set {
        DraftSet::Empty => 0,
        DraftSet::Init => 1,
        DraftSet::Goal => 2,
        DraftSet::Explicit(_) => 3,
        DraftSet::Horn(_) => 4,
        DraftSet::TwoCnf(_) => 5,
        DraftSet::Complement(_) => 6,
        DraftSet::Intersection(..) => 7,
        DraftSet::Union(..) => 8,
        DraftSet::Progression(..) => 9,
        DraftSet::Regression(..) => 10,
    }
}

/// The kind number of an action set.
pub fn actions_kind(set: &DraftActions) -> u8 {
    match set {
        DraftActions::All => 0,
        DraftActions::List(_) => 1,
        DraftActions::Union(..) => 2,
    }
}

/// The first few of these things, with commas between them.
pub fn few(mut things: Vec<String>) -> String {
    if things.len() > FEW {
        things.truncate(FEW);
        things.push("...".into());
    }
    things.join(", ")
}

/// A number and the thing that is counted, `1 leaf` or `2 states`.
pub fn counted(count: usize, thing: &str) -> String {
    match (count, thing) {
        (1, _) => format!("1 {thing}"),
        (_, "leaf") => format!("{count} leaves"),
        _ => format!("{count} {thing}s"),
    }
}
