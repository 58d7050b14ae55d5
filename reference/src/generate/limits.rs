//! Files at and just over the limits of the format, and the workloads on which checkers
//! are timed.

use std::ops::RangeInclusive;

use crate::draft::{sample, step, Draft, DraftActions, DraftSet};
use crate::file::Clause;
use crate::generate::builder::Builder;
use crate::generate::certificates::{by_pg, finish, kind};
use crate::generate::found;
use crate::generate::listed::{reorder, repeat};
use crate::generate::random::Random;
use crate::layout::{
    MAX_ACTIONS, MAX_ACTION_SETS, MAX_BYTES, MAX_CLAUSES, MAX_STATES, MAX_STATE_SETS, MAX_STEPS,
};
use crate::shape::{Method, MAX_UNKNOWN};
use crate::task::{Action, Task};

/// A file at a limit, or one over it.
pub fn random(random: &mut Random) -> Vec<u8> {
    let over = random.below(2);
    match random.below(13) {
        0 => many_actions(random, over),
        1 => many_action_sets(over),
        2 => many_state_sets(over),
        3 => many_steps(over),
        4 => many_states(random, over),
        5 => many_clauses(over),
        6 => filled(Draft { version: random.pick(&[1, 2, 3]), ..sample() }, over),
        7 => all_facts(random),
        8 => deep_tree(random, over),
        9 => workload(random, 2).encode(),
        10 => workload(random, 3).encode(),
        11 => workload(random, 4).encode(),
        _ => many_listed(over),
    }
}

fn many_actions(random: &mut Random, over: usize) -> Vec<u8> {
    let mut d = sample();
    while d.actions.len() < MAX_ACTIONS + over {
        d.actions.push(random.pick(&[d.actions[0], d.actions[1], Action::NOTHING]));
    }
    d.encode()
}

/// A list of as many action numbers as there may be; one more cannot ascend, but its
/// length is refused first.
fn many_listed(over: usize) -> Vec<u8> {
    let mut d = sample();
    d.actions = vec![d.actions[0]; MAX_ACTIONS];
    d.action_sets.push(DraftActions::List((0..(MAX_ACTIONS + over) as u16).collect()));
    d.encode()
}

/// Each action set is the union of the one before it with itself.
pub fn many_action_sets(over: usize) -> Vec<u8> {
    let mut d = sample();
    while d.action_sets.len() < MAX_ACTION_SETS + over {
        let last = d.action_sets.len() as u16 - 1;
        d.action_sets.push(DraftActions::Union(last, last));
    }
    let last = d.action_sets.len() as u16 - 1;
    d.steps.insert(7, step(5, 2, &[last, 0], &[]));
    d.encode()
}

/// Each state set is the intersection of the one before it with itself; the last one
/// is looked into by B1.
pub fn many_state_sets(over: usize) -> Vec<u8> {
    let mut d = sample();
    while d.state_sets.len() < MAX_STATE_SETS + over {
        let last = d.state_sets.len() as u16 - 1;
        d.state_sets.push(DraftSet::Intersection(last, last));
    }
    let last = d.state_sets.len() as u16 - 1;
    d.steps.insert(7, step(1, 1, &[last, 3], &[]));
    d.encode()
}

fn many_steps(over: usize) -> Vec<u8> {
    let mut d = sample();
    while d.steps.len() < MAX_STEPS + over {
        d.steps.insert(7, step(6, 0, &[0], &[]));
    }
    d.encode()
}

/// As many listed states as there may be, or one of them twice; in any order or ascending.
fn many_states(random: &mut Random, over: usize) -> Vec<u8> {
    let mut d = listed_cube(random, 12, 3);
    if let DraftSet::Explicit(states) = &mut d.state_sets[3] {
        repeat(random, states, over);
        if random.chance(50) {
            reorder(random, states);
        }
    }
    d.encode()
}

fn many_clauses(over: usize) -> Vec<u8> {
    let mut d = sample();
    d.state_sets[3] = DraftSet::Horn(vec![Clause { positive: 0, negative: 3 }; MAX_CLAUSES + over]);
    d.encode()
}

/// A file of exactly the greatest length, or one byte more.
pub fn full_file(over: usize) -> Vec<u8> {
    filled(sample(), over)
}

/// The sample, of any version, filled up to that length.
fn filled(mut d: Draft, over: usize) -> Vec<u8> {
    let mut rest = MAX_BYTES + over - d.encode().len();
    let clause = Clause { positive: 0, negative: 3 };
    while rest > 4200 {
        let count = ((rest - 100) / 16).min(MAX_CLAUSES);
        d.state_sets.push(DraftSet::Horn(vec![clause; count]));
        rest -= 3 + 16 * count;
    }
    while rest > 24 {
        d.steps.insert(0, step(6, 0, &[0], &[]));
        rest -= 12;
    }
    let inserted = d.steps.len() as u16 - 8;
    for old in &mut d.steps[inserted as usize..] {
        let used = crate::rules::by_number(old.rule).map_or(0, |rule| rule.premises as usize);
        old.premises[..used].iter_mut().for_each(|p| *p += inserted);
    }
    fill(&mut d, rest);
    d.encode()
}

/// Adds small entries of 3 and 5 bytes that take up `rest`, which is at least 8.
pub fn fill(d: &mut Draft, mut rest: usize) {
    while rest % 3 != 0 {
        d.state_sets.push(DraftSet::Complement(0));
        rest -= 5;
    }
    for _ in 0..rest / 3 {
        d.state_sets.push(DraftSet::Empty);
    }
}

/// The sample over 64 facts, with masks that use the highest.
fn all_facts(random: &mut Random) -> Vec<u8> {
    let mut d = sample();
    let high = random.mask(u64::MAX << 2, 1) | 1 << 63;
    d.facts = 64;
    d.init |= high;
    d.goal |= high;
    d.state_sets[3] = DraftSet::Explicit(vec![high, high | 1, high | 2]);
    d.encode()
}

/// A statement with 8 leaves on each side, or 9 on one.
fn deep_tree(random: &mut Random, over: usize) -> Vec<u8> {
    let mut d = sample();
    let mut sides = [3, 3];
    let nine = random.below(2);
    for (side, root) in sides.iter_mut().enumerate() {
        for _ in 0..7 + (over == 1 && nine == side) as usize {
            let join = if side == 0 { DraftSet::Intersection } else { DraftSet::Union };
            let pair = if random.chance(50) { (*root, 3) } else { (3, *root) };
            *root = d.state_sets.len() as u16;
            d.state_sets.push(join(pair.0, pair.1));
        }
    }
    d.steps.insert(7, step(1, 1, &sides, &[]));
    d.encode()
}

/// The numbers of the workloads.
pub const WORKLOADS: RangeInclusive<usize> = 1..=10;

/// The timed workloads: 1 many listed states and actions, 2 a large Horn set, 3 a large
/// two-literal set, 4 many rule steps over many entries, 5 states in the order found, 6 many initial
/// states within a list, 7 the same with actions leading from them into it; 8 to 10 are 1 to 3 in version 3, with facts
/// needed off. All are accepted.
pub fn workload(random: &mut Random, number: usize) -> Draft {
    match number {
        8..=10 => with_facts_off(workload(random, number - 7)),
        1 => listed_cube(random, 12, MAX_ACTIONS),
        2 => large_clauses(random, Method::Horn),
        3 => large_clauses(random, Method::TwoCnf),
        4 => many_rules(random, MAX_STATE_SETS, MAX_STEPS),
        5 => found::cube(random),
        6 => initial_cube(random, false),
        _ => initial_cube(random, true),
    }
}

/// All states over `free` of 64 facts, the others fixed, in the sample's form.
pub fn listed_cube(random: &mut Random, free: usize, actions: usize) -> Draft {
    let cube = Cube::new(random, free);
    let states = cube.states();
    let init = random.pick(&states);
    let actions = (0..actions).map(|_| cube.action(random)).collect();
    cube.certificate(random, init, actions, states)
}

/// The same in version 3, for as much work: the statements are the same, and each action applies in as many of the listed states. Of the
/// facts needed on that are on in some of them and off in others, every second one is needed off instead; and each action needs a fact
/// off that is on in no state within reach. The goal wants one off that it does not want on.
fn with_facts_off(mut d: Draft) -> Draft {
    let (open, never) = match &d.state_sets[3] {
        DraftSet::Explicit(states) => {
            let all = states.iter().fold((u64::MAX, 0), |(on, some), state| (on & state, some | state));
            (all.1 & !all.0, !all.1)
        }
        DraftSet::Horn(clauses) | DraftSet::TwoCnf(clauses) => {
            let named = clauses.iter().map(|clause| clause.positive | clause.negative);
            (0, !named.filter(|facts| facts.count_ones() > 1).fold(0, |all, facts| all | facts))
        }
        _ => unreachable!("the sample's form"),
    };
    let mut turns = [false, true].into_iter().cycle();
    for action in &mut d.actions {
        let needed = (0..64).map(|f| 1 << f).filter(|bit| action.pre & open & bit != 0);
        action.off = needed.filter(|_| turns.next() == Some(true)).sum();
        action.pre &= !action.off;
        action.off |= never & never.wrapping_neg();
    }
    (d.version, d.goal_off) = (3, !d.goal & (d.goal + 1));
    d
}

/// The first workload's table with its free facts unknown, so that every listed state is an initial one. That no action leads out of
/// them is shown of the initial states, by the list (where it says `led`) or by their clauses; what holds of the initial states then
/// holds of the list, which is within them.
fn initial_cube(random: &mut Random, led: bool) -> Draft {
    let mut d = listed_cube(random, MAX_UNKNOWN as usize, MAX_ACTIONS);
    let DraftSet::Explicit(states) = &d.state_sets[3] else { unreachable!("the sample's form") };
    let (first, last) = (states[0], states[states.len() - 1]);
    (d.version, d.init, d.unknown) = (2, first, first ^ last);
    let bracket = d.state_sets.len() as u16;
    d.state_sets.push(DraftSet::Progression(1, 0));
    // Entries: 1 init, 2 goal, 3 the list, 4 = 3[0], 5 = 3+0, 6 = 3&2.
    d.steps.truncate(1);
    match led {
        true => d.steps.push(step(2, 1, &[bracket, 5], &[])),
        false => d.steps.extend([
            step(2, 1, &[bracket, 1], &[]),
            step(1, 1, &[1, 5], &[]),
            step(22, 1, &[bracket, 5], &[1, 2]),
        ]),
    }
    let shown = d.steps.len() as u16 - 1;
    d.steps.extend([
        step(1, 1, &[3, 1], &[]),
        step(25, 1, &[4, 5], &[shown, shown + 1]),
        step(1, 1, &[6, 0], &[]),
        step(8, 0, &[6], &[shown + 3, 0]),
        step(9, 0, &[3], &[shown + 2, 0, shown + 4]),
        step(1, 1, &[1, 3], &[]),
        step(8, 0, &[1], &[shown + 6, shown + 5]),
        step(13, 3, &[], &[shown + 7]),
    ]);
    d
}

/// Some of 64 facts are free and the others fixed; the goal has one that is fixed and off.
pub struct Cube {
    pub free: u64,
    fixed: u64,
    goal: u64,
}

impl Cube {
    pub fn new(random: &mut Random, facts: usize) -> Cube {
        let mut free = 0u64;
        while free.count_ones() < facts as u32 {
            free |= random.bit(!free);
        }
        let fixed = random.mask(!free, 1);
        Cube { free, fixed, goal: random.bit(!free & !fixed) | random.mask(free, 2) }
    }

    /// All states, ascending, as many as a set may hold.
    pub fn states(&self) -> Vec<u64> {
        let mut states = vec![self.fixed];
        for bit in (0..64).map(|f| 1u64 << f).filter(|bit| self.free & bit != 0) {
            let more: Vec<u64> = states.iter().map(|s| s | bit).collect();
            states.extend(more);
        }
        states.sort_unstable();
        states.truncate(MAX_STATES);
        states
    }

    /// An action that leads from state to state.
    pub fn action(&self, random: &mut Random) -> Action {
        let (pre, add) = (random.mask(self.free | self.fixed, 4), random.mask(self.free, 2));
        Action { pre, add, del: random.mask(self.free, 2), ..Action::NOTHING }
    }

    /// The sample's form, with these states in its set.
    pub fn certificate(
        self,
        random: &mut Random,
        init: u64,
        actions: Vec<Action>,
        states: Vec<u64>,
    ) -> Draft {
        let mut b =
            Builder::new(Task { facts: 64, init, goal: self.goal, actions, ..Task::default() }, random);
        let s = b.explicit(states);
        let ending = by_pg(&mut b, s);
        finish(&mut b, ending);
        Draft::of(&b.file)
    }
}

/// Groups of facts whose pairs number 256 in all.
const GROUPS: [usize; 8] = [9, 9, 9, 9, 9, 11, 7, 1];

/// 256 clauses over 64 facts in groups. Two-literal: at most one fact of a group is on,
/// and actions move from one fact to another. Horn: a fact of a group is on only with
/// all lower ones, the last fact of all never, and actions climb and fall.
fn large_clauses(random: &mut Random, method: Method) -> Draft {
    let mut facts: Vec<u64> = (0..64).map(|f| 1 << f).collect();
    shuffle(random, &mut facts);
    let mut groups = Vec::new();
    for size in GROUPS {
        groups.push(facts.drain(..size).collect::<Vec<u64>>());
    }
    let two = method == Method::TwoCnf;
    let pair = |low, high| match two {
        true => Clause { positive: 0, negative: low | high },
        false => Clause { positive: low, negative: high },
    };
    let pairs = |g: &Vec<u64>| -> Vec<Clause> {
        (1..g.len()).flat_map(|k| g[..k].iter().map(move |low| pair(*low, g[k]))).collect()
    };
    let mut clauses: Vec<Clause> = groups.iter().flat_map(pairs).collect();
    let (first, single) = (&groups[0], groups[7][0]);
    let mut task = Task { facts: 64, init: first[0], goal: first[0] | first[1], ..Task::default() };
    if !two {
        // The highest fact of a group follows from its neighbour anyway.
        let spare = pair(first[0], first[8]);
        clauses.retain(|clause| *clause != spare);
        clauses.push(Clause { positive: 0, negative: single });
        task.goal = single;
    }
    shuffle(random, &mut clauses);
    for _ in 0..MAX_ACTIONS {
        let group = random.below(groups.len() - 1);
        task.actions.push(if two {
            moving(random, &groups[group])
        } else {
            climbing(random, &groups[group])
        });
    }
    let mut b = Builder::new(task, random);
    let s = b.clauses(kind(method), &clauses);
    let ending = by_pg(&mut b, s);
    finish(&mut b, ending);
    Draft::of(&b.file)
}

pub fn shuffle<T>(random: &mut Random, list: &mut [T]) {
    for k in (1..list.len()).rev() {
        list.swap(k, random.below(k + 1));
    }
}

/// From one fact of the group to another.
fn moving(random: &mut Random, group: &[u64]) -> Action {
    let from = random.pick(group);
    let to = random.pick(group);
    Action { pre: from, add: to, del: from, ..Action::NOTHING }
}

/// From one fact of the group to the next, or down from some fact on.
pub fn climbing(random: &mut Random, group: &[u64]) -> Action {
    let at = random.between(1, group.len() - 1);
    if random.chance(60) {
        return Action { pre: group[at - 1], add: group[at], del: 0, ..Action::NOTHING };
    }
    Action { pre: 0, add: 0, del: group[at..].iter().sum(), ..Action::NOTHING }
}

/// The sample's argument, then derivation rules over unions until there are so many entries,
/// at least 10, and so many steps, at least as many as entries.
pub fn many_rules(random: &mut Random, entries: usize, steps: usize) -> Draft {
    let mut d = sample();
    let ending = d.steps.pop();
    let clause = DraftSet::Horn(vec![Clause { positive: 0, negative: 3 }]);
    d.state_sets.push(clause);
    while d.state_sets.len() + 2 <= entries {
        let pick = random.pick(&[0, 1, 2, 3]);
        let last = d.state_sets.len() as u16 - 1;
        d.state_sets.push(DraftSet::Union(last, pick));
        d.state_sets.push(DraftSet::Union(pick, last));
    }
    let ups: Vec<(u16, u16, u8)> = (0..d.state_sets.len())
        .filter_map(|e| match d.state_sets[e] {
            DraftSet::Union(s, _) if s > 6 => Some((s, e as u16, 15)),
            DraftSet::Union(_, u) if u > 6 => Some((u, e as u16, 16)),
            _ => None,
        })
        .collect();
    let first = d.steps.len() as u16;
    d.steps.extend(ups.iter().map(|(s, e, rule)| step(*rule, 1, &[*s, *e], &[])));
    while d.steps.len() + 1 < steps {
        let k = random.below(d.steps.len() - first as usize) as u16 + first;
        let [low, middle] = d.steps[k as usize].entries;
        let next = ups.iter().position(|(s, _, _)| *s == middle);
        let premise = next.map_or(first, |p| first + p as u16);
        let high = d.steps[premise as usize].entries[1];
        let joined = d.steps[premise as usize].entries[0] == middle;
        let new = if joined { step(22, 1, &[low, high], &[k, premise]) } else { d.steps[k as usize] };
        d.steps.push(new);
    }
    d.steps.extend(ending);
    d
}
