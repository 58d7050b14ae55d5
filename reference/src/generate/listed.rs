//! Files that list their explicit states in any order and with repeats, as searches meet them; and files that nearly show what they
//! say: a state changed, missing or hidden by a repeat of another, facts that the task does not have, as many states as there may be
//! or one more, a second entry of the same states, an action list out of order.

use crate::draft::{Draft, DraftActions, DraftSet};
use crate::generate::limits::shuffle;
use crate::generate::random::Random;
use crate::generate::{applications, certificates, mutate, small, tasks, Call, Case};
use crate::layout::{Limits, MAX_STATES, MAX_STEPS};
use crate::task::{all_facts, State};

/// The first `count` cases of a seed, most of them files to check.
pub fn listed(seed: u64, count: u64) -> impl Iterator<Item = Case> {
    (0..count).map(move |index| listed_case(&mut Random::for_case(seed, index)))
}

pub(super) fn listed_case(random: &mut Random) -> Case {
    let mut d = if random.chance(5) { at_limit(random) } else { found(random) };
    if random.chance(55) {
        nearly(random, &mut d);
    }
    Case { call: some_call(random, &d), bytes: d.encode() }
}

/// States as they are, or in any order and some of them more than once.
pub fn disorder(random: &mut Random, states: &mut Vec<State>) {
    if random.chance(40) {
        return;
    }
    let more = random.pick(&[0, 0, 1, 1, 2, 5]);
    repeat(random, states, more);
    reorder(random, states);
}

/// Lists some of the states again, where there are any, so many times in all.
pub fn repeat(random: &mut Random, states: &mut Vec<State>, more: usize) {
    let different = states.len();
    if different > 0 {
        states.extend((0..more).map(|_| states[random.below(different)]).collect::<Vec<State>>());
    }
}

/// Another order: any, backwards, from some state on and then from the first, or with two states exchanged.
pub fn reorder(random: &mut Random, states: &mut [State]) {
    if states.is_empty() {
        return;
    }
    let (one, other) = (random.below(states.len()), random.below(states.len()));
    match random.below(8) {
        0 => states.reverse(),
        1 => states.rotate_left(one),
        2 => states.swap(one, other),
        _ => shuffle(random, states),
    }
}

/// A certificate by explicit sets, all of them in any order with repeats.
fn found(random: &mut Random) -> Draft {
    let n = tasks::fact_count(random);
    let (mut b, ending) = certificates::explicit(random, n);
    applications::add_pool(&mut b);
    let statements = b.random.below(4);
    applications::add_true_statements(&mut b, statements);
    certificates::finish(&mut b, ending);
    let mut d = Draft::of(&b.file);
    for set in &mut d.state_sets {
        if let DraftSet::Explicit(states) = set {
            let more = random.below(states.len() + 1);
            repeat(random, states, more);
            reorder(random, states);
        }
    }
    d
}

/// A certificate whose set has, as written, as many states as the full or the small limits allow, or one more.
fn at_limit(random: &mut Random) -> Draft {
    let count = random.pick(&[MAX_STATES, Limits::SMALL.states, Limits::SMALL.states]) + random.below(2);
    let different = random.pick(&[3, count / 2, count - 2, count - 1, count]);
    let mut d = small::below(random, different);
    if let DraftSet::Explicit(states) = &mut d.state_sets[3] {
        repeat(random, states, count - different);
        reorder(random, states);
    }
    d
}

/// Any explicit set that has a state, and the number of one of its states.
fn some_state(random: &mut Random, d: &Draft) -> Option<(usize, usize)> {
    let with_state = |set: &DraftSet| matches!(set, DraftSet::Explicit(states) if !states.is_empty());
    let at = mutate::choose(random, &d.state_sets, with_state)?;
    let DraftSet::Explicit(states) = &d.state_sets[at] else { return None };
    Some((at, random.below(states.len())))
}

/// Changes an explicit set a little, or puts another of the same states beside it; or adds a list of actions out of order.
fn nearly(random: &mut Random, d: &mut Draft) {
    let facts = all_facts(d.facts);
    let Some((at, k)) = some_state(random, d) else { return };
    let kind = random.below(9);
    if kind == 0 && !d.actions.is_empty() {
        let last = d.actions.len() as u16 - 1;
        return d.action_sets.push(DraftActions::List(vec![last, random.below(d.actions.len()) as u16]));
    }
    if kind == 1 {
        let twin = mutate::twin_of(random, d, at);
        if let DraftSet::Explicit(states) = &mut d.state_sets[twin] {
            reorder(random, states);
        }
        return;
    }
    let DraftSet::Explicit(states) = &mut d.state_sets[at] else { return };
    let (state, other) = (states[k], random.below(states.len()));
    match kind {
        2 => states[k] ^= random.bit(facts),
        3 => drop(states.remove(k)),
        4 => states.retain(|listed| *listed != state),
        5 | 6 => {
            let instead = states[other];
            states.iter_mut().filter(|listed| **listed == state).for_each(|listed| *listed = instead);
        }
        7 => states[k] |= random.bit(!facts),
        _ => [k, other].into_iter().for_each(|k| states[k] |= random.bit(!facts)),
    }
}

/// A check, a question about a listed state or one that differs from it by a fact, a check by the small limits or a round.
fn some_call(random: &mut Random, d: &Draft) -> Call {
    match random.below(20) {
        0..=4 => {
            let Some((at, k)) = some_state(random, d) else { return Call::Check };
            let entry = if random.chance(60) { at } else { random.below(d.state_sets.len()) };
            let DraftSet::Explicit(states) = &d.state_sets[at] else { return Call::Check };
            let changed = if random.chance(40) { random.bit(all_facts(d.facts)) } else { 0 };
            Call::Ask(entry as u64, states[k] ^ changed)
        }
        5 | 6 => Call::Small,
        7 => Call::Round(random.below(d.steps.len()) as u64, random.between(1, MAX_STEPS) as u64),
        _ => Call::Check,
    }
}
