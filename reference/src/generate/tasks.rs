//! Random tasks: any at all, with the states within reach; or made to fit a set of
//! clauses that is closed under progression or regression.

use std::collections::BTreeSet;

use crate::clauses::{propagate_units, pulled, Known};
use crate::file::Clause;
use crate::generate::random::Random;
use crate::shape::Method;
use crate::task::{all_facts, Action, State, Task};
use crate::version::Places;

/// Mostly few facts, now and then up to 64.
pub fn fact_count(random: &mut Random) -> u8 {
    match random.below(20) {
        0 => random.between(9, 64) as u8,
        1 => 64,
        2..=6 => random.between(5, 8) as u8,
        _ => random.between(1, 4) as u8,
    }
}

pub fn action(random: &mut Random, facts: u64) -> Action {
    Action {
        pre: random.mask(facts, 2),
        add: random.mask(facts, 2),
        del: random.mask(facts, 1),
        ..Action::NOTHING
    }
}

/// An action that may need facts off, where the version has such a mask; now and then one that it needs on as well.
pub fn action_of(random: &mut Random, version: u8, facts: u64) -> Action {
    let mut action = action(random, facts);
    need_off(random, version, facts, std::slice::from_mut(&mut action));
    action
}

/// Facts that are to be off, where the version has such masks: mostly none of those that are to be on.
pub fn some_off(random: &mut Random, version: u8, facts: u64, on: u64) -> u64 {
    if !Places::of(version).has_off() {
        return 0;
    }
    let within = if random.chance(90) { facts & !on } else { facts };
    let thin = random.between(1, 3);
    random.mask(within, thin)
}

/// Lets the actions need facts off, where the version has such masks: they then apply in fewer states.
pub fn need_off(random: &mut Random, version: u8, facts: u64, actions: &mut [Action]) {
    actions.iter_mut().for_each(|action| action.off = some_off(random, version, facts, action.pre));
}

/// A task without actions and goal: of version 1 in half of the cases, else of 2 or 3, with some of `open` unknown. `init` has none
/// of these facts.
fn begun(random: &mut Random, n: u8, init: State, open: u64, most: usize) -> Task {
    let task = Task { facts: n, init, ..Task::default() };
    let version = random.pick(&[1, 1, 1, 1, 1, 2, 2, 3, 3, 3]);
    if version == 1 {
        return task;
    }
    let count = random.between(0, most);
    Task { version, unknown: some_facts(random, open, count), ..task }
}

/// So many facts of a mask, or all of them where it has fewer.
pub fn some_facts(random: &mut Random, mask: u64, count: usize) -> u64 {
    (0..count).fold(0, |chosen, _| chosen | random.bit(mask & !chosen))
}

/// A task with its states within reach, at most `limit`. The goal is out of reach where
/// a few tries find such a mask.
pub fn reachable(random: &mut Random, n: u8, limit: usize) -> (Task, BTreeSet<State>) {
    let facts = all_facts(n);
    let init = random.mask(facts, 1);
    let mut task = begun(random, n, init, facts & !init, 4);
    let mut states: BTreeSet<State> = task.inits().collect();
    for _ in 0..random.between(0, 6) {
        task.actions.push(action_of(random, task.version, facts));
        match explore(&task, limit) {
            Some(more) => states = more,
            None => drop(task.actions.pop()),
        }
    }
    for thin in [1, 1, 2, 2, 1, 0] {
        task.goal = random.mask(facts, thin);
        task.goal_off = some_off(random, task.version, facts, task.goal);
        if !states.iter().any(|s| task.is_goal(*s)) {
            break;
        }
    }
    (task, states)
}

/// The same, tried again until the task is a wanted one.
pub fn reachable_where(
    random: &mut Random,
    n: u8,
    limit: usize,
    wanted: impl Fn(&Task) -> bool,
) -> (Task, BTreeSet<State>) {
    loop {
        let found = reachable(random, n, limit);
        if wanted(&found.0) {
            return found;
        }
    }
}

/// The states within reach of all initial states; none where there are more than `limit`.
pub fn explore(task: &Task, limit: usize) -> Option<BTreeSet<State>> {
    let mut states: BTreeSet<State> = task.inits().take(limit + 1).collect();
    let mut open: Vec<State> = states.iter().copied().collect();
    while let Some(state) = open.pop() {
        for action in task.actions.iter().filter(|a| a.applies(state)) {
            let next = action.after(state);
            if states.insert(next) {
                open.push(next);
            }
        }
        if states.len() > limit {
            return None;
        }
    }
    Some(states)
}

/// A Horn or two-literal clause over the facts.
pub fn clause(random: &mut Random, method: Method, facts: u64) -> Clause {
    if method == Method::Horn {
        let positive = if random.chance(70) { random.bit(facts) } else { 0 };
        let thin = random.between(1, 3);
        return Clause { positive, negative: random.mask(facts, thin) };
    }
    let mut clause = Clause::default();
    for _ in 0..random.pick(&[2, 2, 2, 2, 1, 1, 0]) {
        let bit = random.bit(facts);
        if random.chance(50) {
            clause.positive |= bit;
        } else {
            clause.negative |= bit;
        }
    }
    clause
}

/// Whether every state that the action applies in, that meets `left` (already about the
/// state before it), meets the clause too.
fn implied(left: &[Clause], action: &Action, clause: Clause, facts: u64) -> bool {
    let mut known = Known { on: action.pre, off: !facts | action.off };
    !known.fail(clause) || !propagate_units(left, &mut known)
}

/// Whether every initial state meets the clause.
fn met_by_inits(task: &Task, clause: Clause) -> bool {
    let (on, off) = (clause.positive & task.init, clause.negative & task.init_off());
    on | off | clause.positive & clause.negative != 0
}

/// A task and clauses that hold in each initial state, are kept by each action, and rule out the goal.
pub fn forward(random: &mut Random, n: u8, method: Method, sizes: (usize, usize)) -> (Task, Vec<Clause>) {
    let facts = all_facts(n);
    let lacking = 1u64 << random.below(n as usize);
    let init = random.mask(facts, 1) & !lacking;
    let goal = lacking | random.mask(facts, 2);
    let task = begun(random, n, init, facts & !init & !lacking, 16);
    let goal_off = some_off(random, task.version, facts, goal);
    let mut clauses = vec![match goal_off != 0 && random.chance(50) {
        true => Clause { positive: random.bit(goal_off), negative: lacking },
        false => Clause { positive: 0, negative: lacking | random.bit(goal) },
    }];
    for _ in 0..20 * sizes.0 {
        let next = clause(random, method, facts);
        if clauses.len() < sizes.0 && met_by_inits(&task, next) && !clauses.contains(&next) {
            clauses.push(next);
        }
    }
    let mut actions = Vec::new();
    for _ in 0..3 * sizes.1 {
        let thin = random.between(1, 4);
        let mut next = action_of(random, task.version, facts);
        next.del &= random.mask(facts, thin);
        next.add &= random.mask(facts, thin);
        if actions.len() < sizes.1 && keep_forward(random, &task, &mut next, &clauses) {
            actions.push(next);
        }
    }
    (Task { goal, goal_off, actions, ..task }, clauses)
}

/// Changes the action until it keeps the clauses; false where that takes too long.
fn keep_forward(random: &mut Random, task: &Task, action: &mut Action, clauses: &[Clause]) -> bool {
    let open: Vec<Clause> = clauses.iter().copied().filter(|c| c.positive & c.negative == 0).collect();
    for _ in 0..60 {
        let lost = clauses.iter().copied().find(|c| {
            let after = pulled(*c, action);
            after.is_some_and(|c| !implied(&open, action, c, task.all_facts()))
        });
        let Some(clause) = lost else { return true };
        // What is off and stays off keeps the clause too.
        let stays = pulled(clause, action).map_or(0, |clause| clause.negative);
        if stays != 0 && Places::of(task.version).has_off() && random.chance(40) {
            action.off |= random.bit(stays);
            continue;
        }
        let literal = random.bit(clause.positive | clause.negative);
        if literal == 0 {
            return false;
        } else if clause.positive & literal != 0 {
            action.add |= literal;
        } else {
            action.add &= !literal;
            action.del |= literal;
        }
    }
    false
}

/// A task and clauses that hold in each goal state, fail in each initial state, and hold before an
/// action where they hold after it.
pub fn backward(random: &mut Random, n: u8, method: Method, sizes: (usize, usize)) -> (Task, Vec<Clause>) {
    let facts = all_facts(n);
    let lacking = 1u64 << random.below(n as usize);
    let init = random.mask(facts, 1) & !lacking;
    let goal = lacking | random.mask(facts, 2);
    let task = begun(random, n, init, facts & !init & !lacking, 16);
    let goal_off = some_off(random, task.version, facts, goal);
    let mut clauses = vec![Clause { positive: lacking, negative: random.mask(init, 1) }];
    if method == Method::TwoCnf {
        clauses[0].negative = random.bit(init);
    }
    for _ in 0..20 * sizes.0 {
        let mut next = clause(random, method, facts);
        if goal_off != 0 && random.chance(50) {
            next.negative |= random.bit(goal_off);
        } else if next.positive & goal == 0 {
            next.positive = random.bit(goal);
        }
        let lawful = if method == Method::Horn { next.is_horn() } else { next.is_two_literal() };
        if clauses.len() < sizes.0 && lawful && !clauses.contains(&next) {
            clauses.push(next);
        }
    }
    let mut actions = Vec::new();
    for _ in 0..sizes.1 {
        let mut next = action_of(random, task.version, facts);
        keep_backward(random, &task, &mut next, &clauses);
        actions.push(next);
    }
    (Task { goal, goal_off, actions, ..task }, clauses)
}

/// Changes the action until a state before it meets the clauses where the one after it
/// does. Each clause has a positive fact, which can be needed on, or one that can be needed off.
fn keep_backward(random: &mut Random, task: &Task, action: &mut Action, clauses: &[Clause]) {
    let has_off = Places::of(task.version).has_off();
    for clause in clauses {
        if random.chance(50) {
            action.add &= !clause.positive;
        }
    }
    loop {
        let open = clauses.iter().filter_map(|c| pulled(*c, action));
        let open: Vec<Clause> = open.filter(|c| c.positive & c.negative == 0).collect();
        let lost = clauses.iter().find(|c| !implied(&open, action, **c, task.all_facts()));
        let Some(clause) = lost else { return };
        if clause.positive == 0 || has_off && clause.negative != 0 && random.chance(50) {
            action.off |= random.bit(clause.negative);
        } else {
            action.pre |= clause.positive;
        }
    }
}
