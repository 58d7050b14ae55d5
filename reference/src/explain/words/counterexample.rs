//! A counterexample in words: which state it is, in which sets of the left side, and in none of which
//! on the right.

use super::text::{counted, Text};
use crate::draft::{Draft, DraftSet};
use crate::explain::counterexample::Counterexample;
use crate::explain::shape::{sides, Leaf, Sides};
use crate::file::{Clause, File, Step};
use crate::show;
use crate::task::State;

/// The counterexample in lines.
pub fn words(text: &Text, file: &File, step: &Step, found: &Counterexample) -> Vec<String> {
    let [e, f] = step.entries;
    let group = if step.rule == 5 { "Action set" } else { "Set" };
    let head = vec![format!("{group} {e} is not within {} {f}. A counterexample:", group.to_lowercase())];
    let sides = sides(file, step).ok();
    let lines = match (*found, sides) {
        (Counterexample::Action { action }, _) => about_action(text, step, action),
        (found, Some(sides)) => about_states(text, &sides, found),
        (_, None) => Vec::new(),
    };
    [head, lines].concat()
}

fn about_action(text: &Text, step: &Step, action: u16) -> Vec<String> {
    let [a, b] = step.entries.map(|entry| text.actions(entry));
    vec![format!("  {}", text.action(action)), format!("    in {a}"), format!("    not in {b}")]
}

fn about_states(text: &Text, sides: &Sides, found: Counterexample) -> Vec<String> {
    let outside = |state| [left(text, sides, state), right(text, sides, state)].concat();
    let inside: Vec<String> =
        sides.inside().iter().map(|leaf| format!("    in {}", text.having(leaf.entry))).collect();
    let head = |word: &str, state| vec![format!("  {word}{}", text.state(state))];
    let by = |action| {
        let set = sides.bracket.as_ref().map_or(String::new(), |bracket| text.actions(bracket.actions));
        vec![
            format!("  by {}", text.action(action)),
            format!("    in {set}; it applies{}", off(text, action)),
        ]
    };
    match found {
        Counterexample::State { state } => [head("", state), outside(state)].concat(),
        Counterexample::Progression { before, action, after } => {
            [head("before: ", before), inside, by(action), head("after: ", after), outside(after)].concat()
        }
        Counterexample::Regression { before, action, after } => {
            [head("before: ", before), outside(before), by(action), head("after: ", after), inside].concat()
        }
        Counterexample::Action { .. } => Vec::new(),
    }
}

/// That what the action needs off is off, where there is such a fact.
fn off(text: &Text, action: u16) -> String {
    match text.draft.actions[action as usize].off {
        0 => String::new(),
        off => format!(", since {} is off before it", text.names.facts_of(off)),
    }
}

/// The left leaves, which the state is in, the bracket among them.
fn left(text: &Text, sides: &Sides, state: State) -> Vec<String> {
    let bracket = sides.bracket.iter().map(|bracket| format!("    in {}", text.set(bracket.entry)));
    let leaf = |leaf: &Leaf| match leaf.complemented {
        false => format!("    in {}", text.having(leaf.entry)),
        true => format!("    in {}, since it is {}", text.set(leaf.entry), missing(text, leaf.base, state)),
    };
    bracket.chain(sides.left.iter().map(leaf)).collect()
}

/// The right leaves, which the state is not in, and why.
fn right(text: &Text, sides: &Sides, state: State) -> Vec<String> {
    let leaf = |leaf: &Leaf| match leaf.complemented {
        false => format!("    {}", missing(text, leaf.base, state)),
        true => format!("    not in {}, since it is in {}", text.set(leaf.entry), text.having(leaf.base)),
    };
    sides.right.iter().map(leaf).collect()
}

/// That the state is not in an entry of kinds 0 to 5, and why.
fn missing(text: &Text, entry: u16, state: State) -> String {
    let why = match &text.draft.state_sets[entry as usize] {
        DraftSet::Empty => "which has no state".into(),
        DraftSet::Init if text.draft.unknown == 0 => {
            format!("which is {} alone", text.state(text.draft.init))
        }
        DraftSet::Init => {
            let Draft { init, unknown, .. } = text.draft;
            format!("which wants {}", text.names.on_and_off(init & !state, state & !init & !unknown))
        }
        DraftSet::Goal => {
            let Draft { goal, goal_off, .. } = text.draft;
            format!("which wants {} as well", text.names.on_and_off(goal & !state, goal_off & state))
        }
        DraftSet::Explicit(states) => format!("which does not list it ({})", counted(states.len(), "state")),
        DraftSet::Horn(clauses) | DraftSet::TwoCnf(clauses) => unmet(text, clauses, state),
        // No leaf of a statement is of these kinds.
        DraftSet::Complement(_) | DraftSet::Intersection(..) | DraftSet::Union(..) => String::new(),
        DraftSet::Progression(..) | DraftSet::Regression(..) => String::new(),
    };
    format!("not in {}, {why}", text.set(entry))
}

/// The first clause that the state does not meet, counted from 0.
fn unmet(text: &Text, clauses: &[Clause], state: State) -> String {
    let failed = clauses.iter().enumerate().find(|(_, clause)| !clause.met_by(state));
    failed.map_or(String::new(), |(k, c)| {
        format!("of which it fails clause {k}, {}", show::clause(c, text.names))
    })
}
