//! An accepted file in words: the invariant, the dead sets in turn, and the steps by their rules.

use std::collections::BTreeSet;

use super::text::{counted, few, Text};
use crate::draft::DraftSet;
use crate::explain::accepted::{closure, Argument, Closure};
use crate::file::{File, StateSet};
use crate::rules::by_number;
use crate::show;

/// The argument in lines.
pub fn words(text: &Text, file: &File, argument: &Argument) -> Vec<String> {
    let mut lines = task(text);
    lines.push(String::new());
    lines.extend(invariant(text, argument));
    lines.push(String::new());
    let from = if several(file) { "an initial state" } else { "init" };
    lines.push(format!(
        "Dead are, in turn (no sequence of actions from {from} to a goal state passes a dead set):"
    ));
    for (number, set) in &argument.dead {
        lines.push(format!("  {}, by step {number} {}", text.set(*set), rule_name(file, *number)));
        lines.push(format!("    {}.", reason(file, *number)));
    }
    let last = file.steps.len() - 1;
    let premise = file.steps[last].premises[0];
    let set = text.set(file.steps[premise as usize].entries[0]);
    let by = format!("step {last} {}", rule_name(file, last));
    lines.push(format!("So the task is unsolvable, by {by}: {set} is dead (step {premise})."));
    lines.extend(parts(text, file, argument));
    lines.push(String::new());
    lines.extend(counts(file, argument));
    lines
}

/// Whether there is more than one initial state.
fn several(file: &File) -> bool {
    file.task.unknown != 0
}

fn rule_name(file: &File, number: usize) -> &'static str {
    by_number(file.steps[number].rule).map_or("", |rule| rule.name)
}

fn task(text: &Text) -> Vec<String> {
    let (init, goal) = (text.inits(), text.names.goal(text.draft.goal, text.draft.goal_off));
    let facts = counted(text.draft.facts as usize, "fact");
    let actions = counted(text.draft.actions.len(), "action");
    let mut lines = vec![
        format!("No sequence of actions leads from init, {init}, to a goal state, one with {goal}."),
        format!("The task has {facts} and {actions}."),
    ];
    lines.extend(never_applying(text));
    lines
}

/// The actions that need a fact both on and off, where there are any.
fn never_applying(text: &Text) -> Option<String> {
    let never = (0..text.draft.actions.len()).filter(|a| text.draft.actions[*a].never_applies());
    let never: Vec<String> = never.map(|a| show::action_title(a, text.names)).collect();
    let verb = if never.len() == 1 { "applies" } else { "apply" };
    let head = format!("{} never {verb}, needing a fact both on and off:", counted(never.len(), "action"));
    (!never.is_empty()).then(|| format!("{head} {}.", few(never)))
}

/// The sets that are closed under the actions, forwards (PG, PI) or backwards (RG, RI).
fn invariant(text: &Text, argument: &Argument) -> Vec<String> {
    if argument.closures.is_empty() {
        return vec!["No set that is closed under the actions is needed.".into()];
    }
    let mut lines = vec!["The invariant:".to_string()];
    for Closure { step, set, rest } in &argument.closures {
        let rule = text.draft.steps[*step].rule;
        let (way, by) = if rule < 11 { ("out of it", "into") } else { ("into it", "from") };
        let by_step = format!("step {step} {}", by_number(rule).map_or("", |rule| rule.name));
        lines.push(format!("  {}", text.set(*set)));
        lines.push(match text.draft.state_sets[*rest as usize] {
            DraftSet::Empty => {
                format!("    No action leads {way} ({by_step}; the rest, set {rest}, is empty).")
            }
            _ => format!(
                "    No action leads {way} but {by} the rest, {}, which is dead ({by_step}).",
                text.set(*rest)
            ),
        });
    }
    lines
}

/// Why the set of a step "E dead" is dead, in words for its rule.
fn reason(file: &File, number: usize) -> String {
    let step = &file.steps[number];
    let [p, q, r] = step.premises;
    let named = |k: usize, entry: usize| file.steps[step.premises[k] as usize].entries[entry];
    let Some(Closure { set, rest, .. }) = closure(file, number) else {
        return match step.rule {
            6 => "It is empty".into(),
            7 => format!("Both its parts are dead (steps {p} and {q})"),
            _ => format!("It is within set {} (step {p}), which is dead (step {q})", named(0, 1)),
        };
    };
    let leaving = format!(
        "From set {set} actions lead only into it or set {rest} (step {p}), which is dead (step {q})"
    );
    let entering = format!(
        "Into set {set} actions lead only from it or set {rest} (step {p}), which is dead (step {q})"
    );
    let (all, none) = match several(file) {
        true => ("all initial states are", "no initial state is"),
        false => ("init is", "init is not"),
    };
    match step.rule {
        9 => format!("{leaving}; its goal states, set {}, are dead (step {r})", named(2, 0)),
        10 => format!("{leaving}; {all} in set {set} (step {r}), so nothing outside it is reached but through set {rest}"),
        11 => format!("{entering}; the goal states outside it, set {}, are dead (step {r})", named(2, 0)),
        _ => format!("{entering}; {none} in set {set} (step {r}), so it is never reached but through set {rest}"),
    }
}

/// The state sets that the told ones are made of and that are not told themselves.
fn parts(text: &Text, file: &File, argument: &Argument) -> Vec<String> {
    let mut told: BTreeSet<u16> = argument.dead.iter().map(|(_, set)| *set).collect();
    told.extend(argument.closures.iter().flat_map(|c| [c.set, c.rest]));
    let mut open: Vec<u16> = told.iter().copied().collect();
    let mut parts = BTreeSet::new();
    while let Some(entry) = open.pop() {
        let named = named_by(file.state_sets[entry as usize]);
        open.extend(named.into_iter().filter(|part| !told.contains(part) && parts.insert(*part)));
    }
    let lines = parts.iter().map(|part| format!("  {}", text.set(*part)));
    let head = (!parts.is_empty()).then(|| "Parts of these sets:".to_string());
    head.into_iter().chain(lines).collect()
}

/// The state sets that an entry is made of.
fn named_by(set: StateSet) -> Vec<u16> {
    use StateSet::*;
    match set {
        Empty | Init | Goal | Explicit(_) | Horn(_) | TwoCnf(_) => Vec::new(),
        Complement(s) | Progression(s, _) | Regression(s, _) => vec![s],
        Intersection(s, u) | Union(s, u) => vec![s, u],
    }
}

/// How many steps there are of which rules, and how many of them are needed.
fn counts(file: &File, argument: &Argument) -> Vec<String> {
    let used = argument.rules.iter().map(|(rule, count)| format!("{count} {}", rule.name));
    let (needed, others) = (argument.support.len(), file.steps.len() - 1);
    let rests = match others - needed {
        0 => format!("The last step rests on all {others} others."),
        spare => format!("The last step rests on {needed} of the {others} others; of the {spare} it does not need, {} are named by no step.", argument.unnamed),
    };
    vec![format!("{}: {}.", counted(file.steps.len(), "step"), used.collect::<Vec<_>>().join(", ")), rests]
}
