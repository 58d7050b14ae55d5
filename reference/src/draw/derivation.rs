//! The derivation as a graph: a node for each step with its number, rule and judgement, and an edge from each premise.
//! Steps that the last one does not rest on are grey, the refused step is red. The caption has the reply in words and
//! the sets that labels name by number.

use crate::draw::dot::{head, label, wrapped, GREY, RED};
use crate::draw::entries::Entries;
use crate::fault::Fault;
use crate::file::{File, Judgement, Step};
use crate::names::Names;
use crate::words::describe;
use crate::{rules, steps};

const LABEL_WIDTH: usize = 36;

/// The DOT text for a file whose layout is lawful.
pub fn graph(file: &File, names: &Names) -> String {
    let refused = steps::check(file).err();
    let used = used(file);
    let mut entries = Entries::of(file, names);
    let (mut nodes, mut edges) = (String::new(), String::new());
    for (number, step) in file.steps.iter().enumerate() {
        let refusal = refused.as_ref().filter(|fault| fault.place as usize == number);
        let mut lines = vec![format!("{number} {}", rule_name(step))];
        lines.extend(judgement(step, &mut entries));
        lines.extend(refusal.map(|fault| format!("refused {}", fault.number)));
        let look = look(used[number], refusal);
        nodes += &format!("  step{number} [{}{look}];\n", label(&lines));
        for premise in premises(file, step) {
            let look = if used[number] { String::new() } else { format!(" [{GREY}]") };
            edges += &format!("  step{premise} -> step{number}{look};\n");
        }
    }
    let reply = refused.map_or("accepted".into(), |fault| in_words(file, &fault));
    let init = match file.task.unknown {
        0 => "init: the start".into(),
        unknown => format!("init: the start with {} on or off", names.facts_of(unknown)),
    };
    let goal = match file.task.goal_off {
        0 => "goal: the forbidden states".into(),
        off => format!("goal: the forbidden states, those with {}", names.goal(file.task.goal, off)),
    };
    let mut caption = vec![reply, format!("{init}, {goal}")];
    caption.extend(entries.explained());
    head("steps", "TB", &caption) + &nodes + &edges + "}\n"
}

fn look(used: bool, refusal: Option<&Fault>) -> String {
    match (refusal, used) {
        (Some(_), _) => format!(" {RED} penwidth=2"),
        (None, false) => format!(" {GREY}"),
        (None, true) => String::new(),
    }
}

fn in_words(file: &File, fault: &Fault) -> String {
    describe(fault, file.steps.get(fault.place as usize))
}

fn rule_name(step: &Step) -> String {
    rules::by_number(step.rule).map_or(format!("rule {}", step.rule), |rule| rule.name.into())
}

/// What the step states, in lines.
fn judgement(step: &Step, entries: &mut Entries) -> Vec<String> {
    match step.judgement() {
        Some(Judgement::Dead(s)) => wrapped(&format!("{} is dead", entries.set(s)), LABEL_WIDTH),
        Some(Judgement::Within(s, u)) => within(entries.set(s), entries.set(u)),
        Some(Judgement::ActionsWithin(a, b)) => within(entries.actions(a), entries.actions(b)),
        Some(Judgement::Unsolvable) => vec!["unsolvable".into()],
        None => vec![format!("judgement kind {}", step.kind)],
    }
}

/// In one line, or a line or more for each side.
fn within(left: String, right: String) -> Vec<String> {
    let right = format!("is within {right}");
    if left.len() + right.len() < LABEL_WIDTH {
        return vec![format!("{left} {right}")];
    }
    [wrapped(&left, LABEL_WIDTH), wrapped(&right, LABEL_WIDTH)].concat()
}

/// The premises that the step's rule uses, where the file has such steps.
fn premises(file: &File, step: &Step) -> Vec<usize> {
    let count = rules::by_number(step.rule).map_or(0, |rule| rule.premises as usize);
    let premises = step.premises[..count].iter().map(|premise| *premise as usize);
    premises.filter(|premise| *premise < file.steps.len()).collect()
}

/// For each step whether the last one rests on it, itself included.
fn used(file: &File) -> Vec<bool> {
    let mut used = vec![false; file.steps.len()];
    let mut open = vec![file.steps.len() - 1];
    while let Some(number) = open.pop() {
        if !used[number] {
            used[number] = true;
            open.extend(premises(file, &file.steps[number]));
        }
    }
    used
}
