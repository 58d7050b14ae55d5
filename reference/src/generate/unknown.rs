//! Files of versions 2 and 3 with unknown facts: certificates over all initial states, and ones in which the mask is changed a little or an
//! initial state is left out; explicit statements with about as many unknown facts as kind 1 gives leave for, or many more; masks with
//! faults, and faults before and behind them.

use crate::draft::{mend_length, Draft, DraftSet};
use crate::file::{Clause, Judgement, StateSet};
use crate::generate::builder::{Builder, ALL, EMPTY, GOAL, INIT};
use crate::generate::certificates::{by_pg, by_pi, finish};
use crate::generate::limits::Cube;
use crate::generate::random::Random;
use crate::generate::tasks::{self, need_off, some_facts, some_off};
use crate::generate::{applications, certificate, mutate, perhaps_spoiled, some_call, Case};
use crate::shape::MAX_UNKNOWN;
use crate::task::{all_facts, Action, Task};
use crate::version::Places;

/// The first `count` cases of a seed.
pub fn unknown(seed: u64, count: u64) -> impl Iterator<Item = Case> {
    (0..count).map(move |index| unknown_case(&mut Random::for_case(seed, index)))
}

pub(super) fn unknown_case(random: &mut Random) -> Case {
    let mut d = match random.below(100) {
        0..=34 => any(random),
        35..=54 => certain(random),
        55 | 56 => cube(random),
        _ => wide(random),
    };
    let call = some_call(random, &d, |random| about_init(random, &d));
    Case { call, bytes: perhaps_spoiled(random, &mut d, nearly, faulty_mask) }
}

/// A certificate of any form whose task has unknown facts.
fn any(random: &mut Random) -> Draft {
    loop {
        let d = certificate(random);
        if d.unknown != 0 {
            return d;
        }
    }
}

/// The certain certificate, in the sample's form over all states within reach: accepted exactly where none of them is a goal state.
/// In half of the cases the goal is all that is on in one of them.
pub fn certain(random: &mut Random) -> Draft {
    let n = random.between(2, 8) as u8;
    let (mut task, states) = tasks::reachable_where(random, n, 60, |task| task.unknown != 0);
    if random.chance(50) {
        let reached: Vec<u64> = states.iter().copied().collect();
        task.goal = random.pick(&reached);
    }
    let mut b = Builder::new(task, random);
    let s = b.listed(states);
    let ending = by_pg(&mut b, s);
    finish(&mut b, ending);
    Draft::of(&b.file)
}

/// As many initial states as an explicit set may hold, all of them listed, or a few or one less.
fn cube(random: &mut Random) -> Draft {
    let free = random.between(MAX_UNKNOWN as usize - 2, MAX_UNKNOWN as usize);
    let cube = Cube::new(random, free);
    let unknown = if random.chance(70) { cube.free } else { random.mask(cube.free, 1) };
    let mut states = cube.states();
    let init = states[0] | random.mask(cube.free & !unknown, 1);
    if random.chance(30) {
        states.remove(random.below(states.len()));
    }
    let (free, version) = (cube.free, random.pick(&[2, 3]));
    let mut actions: Vec<_> = (0..random.between(1, 4)).map(|_| cube.action(random)).collect();
    need_off(random, version, free, &mut actions);
    let d = cube.certificate(random, init, actions, states);
    Draft { version, unknown, goal_off: some_off(random, version, free, d.goal), ..d }
}

/// A certificate by one clause, which any number of unknown facts may go with, and beside it statements over lists of states: all but
/// the last are true.
fn wide(random: &mut Random) -> Draft {
    let n = random.pick(&[14, 14, 15, 16, 20, 63, 64]);
    let lacking = 1u64 << random.below(n);
    let others = all_facts(n as u8) & !lacking;
    let count = random.pick(&[11, 12, 12, 12, 12, 13, 13, 13, 13, 14, n / 2, n - 1]);
    let unknown = some_facts(random, others, count);
    let init = random.mask(others & !unknown, 1);
    let goal = lacking | random.mask(others, 3);
    let mut actions: Vec<_> = (0..random.between(0, 4)).map(|_| tasks::action(random, others)).collect();
    actions.iter_mut().for_each(|action| action.pre = random.mask(action.pre, 2));
    let version = random.pick(&[2, 3]);
    need_off(random, version, others, &mut actions);
    let goal_off = some_off(random, version, others, goal);
    let task = Task { version, facts: n as u8, init, unknown, goal, goal_off, actions };
    let mut b = Builder::new(task, random);
    let s = b.clauses(StateSet::Horn, &[Clause { positive: 0, negative: lacking }]);
    let ending = if b.random.chance(50) { by_pg(&mut b, s) } else { by_pi(&mut b, s) };
    let lists = [some_list(&mut b), some_list(&mut b)];
    for _ in 0..2 {
        let mark = b.mark();
        let (rule, judgement) = statement(&mut b, lists);
        if b.passing(rule, judgement, &[]).is_none() {
            b.take_back(mark);
        }
    }
    let (rule, judgement) = statement(&mut b, lists);
    b.step(rule, judgement, &[]);
    finish(&mut b, ending);
    Draft::of(&b.file)
}

/// A few states, initial ones and others that differ from them a little; now and then none.
fn some_list(b: &mut Builder) -> u16 {
    let (facts, init, unknown) = (b.file.task.all_facts(), b.file.task.init, b.file.task.unknown);
    let count = b.random.pick(&[0, 1, 2, 3, 5, 8]);
    let mut states = Vec::new();
    for _ in 0..count {
        let changed = if b.random.chance(40) { b.random.bit(facts) } else { 0 };
        let thin = b.random.between(1, 3);
        states.push((init | b.random.mask(unknown, thin)) ^ changed);
    }
    b.listed(states)
}

/// A statement of B1 to B3 in which kind 1 is frequent, or has to give the leave; now and then one of B4, which does not take it.
fn statement(b: &mut Builder, lists: [u16; 2]) -> (u8, Judgement) {
    let rule = b.random.pick(&[1, 1, 1, 1, 2, 2, 2, 2, 3, 3, 3, 3, 4]);
    if rule == 4 {
        return (4, Judgement::Within(INIT, lists[0]));
    }
    if b.random.chance(50) {
        return (rule, by_init(b, lists, rule));
    }
    let base = [INIT, INIT, INIT, EMPTY, GOAL, lists[0], lists[1], lists[0], lists[1]];
    (rule, applications::over(b, &base, rule))
}

/// A statement with a list in which kind 1 stands where leave is given, mostly with no other kind that gives it; most are true.
fn by_init(b: &mut Builder, [list, other]: [u16; 2], rule: u8) -> Judgement {
    let init = match b.random.below(6) {
        0 => b.and(INIT, GOAL),
        1 => b.and(INIT, EMPTY),
        2 => b.and(list, INIT),
        _ => INIT,
    };
    let left = match rule {
        1 => init,
        2 => b.set(StateSet::Progression(init, ALL)),
        _ => {
            let led = b.set(StateSet::Regression(other, ALL));
            b.and(led, init)
        }
    };
    // ~0 on the right is 0 on the moved left, which gives leave outside the bracket.
    let not_empty = b.not(EMPTY);
    let beside = b.random.pick(&[INIT, INIT, INIT, GOAL, not_empty]);
    Judgement::Within(left, b.or(list, beside))
}

/// Changes the mask a little, leaves a state out of a list, or takes the mask away.
fn nearly(random: &mut Random, d: &mut Draft) {
    let facts = all_facts(d.facts);
    match random.below(8) {
        0 | 1 => d.unknown |= random.bit(facts & !d.init),
        2 => d.unknown &= !random.bit(d.unknown),
        3 => {
            let known = random.bit(d.unknown);
            d.unknown &= !known;
            d.init |= known;
        }
        4 => d.version = 1,
        _ => {
            let listed = |set: &DraftSet| matches!(set, DraftSet::Explicit(states) if !states.is_empty());
            let Some(at) = mutate::choose(random, &d.state_sets, listed) else { return };
            let DraftSet::Explicit(states) = &mut d.state_sets[at] else { return };
            let state = random.pick(states);
            states.retain(|listed| *listed != state);
        }
    }
}

/// The bytes with an unlawful mask, or one that the file ends within; now and then a fault of another field before or behind it.
fn faulty_mask(random: &mut Random, d: &mut Draft) -> Vec<u8> {
    let facts = all_facts(d.facts);
    let (high, low) = (random.bit(!facts), random.bit(facts));
    let places = Places::of(d.version);
    let mut end = None;
    if random.chance(75) {
        d.init |= low;
        d.unknown |= low;
    }
    match random.below(12) {
        0 | 1 => d.unknown |= high,
        2 => d.init |= high,
        3 | 4 => d.goal |= high,
        5 => d.facts = random.pick(&[0, 65, d.facts - 1]),
        6 => d.actions.resize(257, Action::NOTHING),
        7 => end = places.unknown.map(|mask| random.between(mask, places.goal - 1)),
        8 => end = Some(random.between(places.goal, places.actions)),
        9 => d.steps.clear(),
        _ => (),
    }
    let mut bytes = d.encode();
    bytes.truncate(end.unwrap_or(bytes.len()));
    mend_length(&mut bytes);
    bytes
}

/// A question about the initial states and what is made of them.
fn about_init(random: &mut Random, d: &Draft) -> (u64, u64) {
    let changed = if random.chance(40) { random.bit(all_facts(d.facts)) } else { 0 };
    let state = (d.init | random.mask(d.unknown, 1)) ^ changed;
    let about = |set: &DraftSet| match set {
        DraftSet::Init => true,
        DraftSet::Complement(s) | DraftSet::Regression(s, _) => *s == INIT,
        DraftSet::Intersection(s, u) | DraftSet::Union(s, u) => [*s, *u].contains(&INIT),
        _ => false,
    };
    (mutate::choose(random, &d.state_sets, about).unwrap_or(0) as u64, state)
}
