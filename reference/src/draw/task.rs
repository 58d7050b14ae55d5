//! The task as a graph: a node for each state within reach, labelled with the facts that are on, and an edge for the
//! actions that lead from one state to another. An action that does not apply is not drawn. Forbidden states (the
//! goal's) are red; where all states are few, those that are never reached stand apart.

use std::collections::{BTreeMap, BTreeSet};

use crate::draw::dot::{head, label, wrapped, RED};
use crate::generate::tasks::explore;
use crate::names::Names;
use crate::task::{State, Task};

/// The most states that are drawn, and the most of all states for those never reached to be drawn.
pub const MOST_STATES: usize = 64;

const LABEL_WIDTH: usize = 32;

const FORBIDDEN: (&str, &str) = ("forbidden", "penwidth=2");
const NEVER_REACHED: (&str, &str) = ("forbidden, never reached", "style=\"rounded,dashed\"");

/// The DOT text, or that too many states are within reach.
pub fn graph(task: &Task, names: &Names) -> Result<String, String> {
    let found = MOST_STATES + 1;
    let too_many =
        || format!("at least {found} states are within reach, and {MOST_STATES} are the most drawn");
    let states = explore(task, MOST_STATES).ok_or_else(too_many)?;
    let mut out = head("table", "LR", &caption(task, &states, names));
    out += "  start [shape=plaintext style=\"\"];\n";
    for state in &states {
        out += &node(*state, names, task.is_goal(*state).then_some(FORBIDDEN));
    }
    out += &unreached_nodes(task, &states, names);
    out += &task.inits().map(|state| format!("  start -> s{state};\n")).collect::<String>();
    for ((from, to), actions) in transitions(task, &states) {
        let actions: Vec<String> = actions.into_iter().map(|a| action(a, names)).collect();
        let label = label(&wrapped(&actions.join(", "), LABEL_WIDTH));
        out += &format!("  s{from} -> s{to} [{label}];\n");
    }
    Ok(out + "}\n")
}

/// A node; a mark is a line of the label and the look that goes with it.
fn node(state: State, names: &Names, mark: Option<(&str, &str)>) -> String {
    let mut lines = wrapped(&names.facts_of(state), LABEL_WIDTH);
    let look = mark.map_or(String::new(), |(line, look)| {
        lines.push(line.into());
        format!(" {RED} {look}")
    });
    format!("  s{state} [{}{look}];\n", label(&lines))
}

/// An action's name, or its number in a form that is no fact's.
fn action(action: u16, names: &Names) -> String {
    names.actions.get(&action).cloned().unwrap_or(format!("action {action}"))
}

/// What a box is, how many states are within reach, and how many of them are forbidden; which facts may be on or off at first; and what
/// a forbidden state has on and off, where it has to have a fact off.
fn caption(task: &Task, states: &BTreeSet<State>, names: &Names) -> Vec<String> {
    let count = states.len();
    let are = if count == 1 { "state is" } else { "states are" };
    let forbidden = match states.iter().filter(|s| task.is_goal(**s)).count() {
        0 => "no forbidden one among them".to_string(),
        some => format!("{some} of them forbidden"),
    };
    let mut lines = vec![
        "A box lists the facts that are on.".into(),
        format!("{count} {are} within reach, {forbidden}."),
    ];
    if task.unknown != 0 {
        lines.push(format!("At the start {} may be on or off.", names.facts_of(task.unknown)));
    }
    if task.goal_off != 0 {
        lines.push(format!("Forbidden is a state with {}.", names.goal(task.goal, task.goal_off)));
    }
    lines
}

/// The forbidden states that are not within reach, at the far end; none where there are many states in all.
fn unreached_nodes(task: &Task, states: &BTreeSet<State>, names: &Names) -> String {
    let all = if task.all_facts() < MOST_STATES as u64 { task.all_facts() + 1 } else { 0 };
    let unreached = (0..all).filter(|s| task.is_goal(*s) && !states.contains(s));
    let (mut nodes, mut ids) = (String::new(), String::new());
    for state in unreached {
        nodes += &node(state, names, Some(NEVER_REACHED));
        ids += &format!(" s{state};");
    }
    if ids.is_empty() {
        return nodes;
    }
    nodes + &format!("  {{ rank=max;{ids} }}\n")
}

/// For each two states, the actions that apply in the first and lead to the second.
fn transitions(task: &Task, states: &BTreeSet<State>) -> BTreeMap<(State, State), Vec<u16>> {
    let mut found: BTreeMap<(State, State), Vec<u16>> = BTreeMap::new();
    for state in states {
        for (a, action) in task.actions.iter().enumerate().filter(|(_, a)| a.applies(*state)) {
            found.entry((*state, action.after(*state))).or_default().push(a as u16);
        }
    }
    found
}
