//! Files of version 3 whose actions and goal need facts off: certificates over such tasks; goals of which one mask is met and not the
//! other, both or none, a fact in both; statements that a misreading of the masks takes for true where they are not, or the other way
//! about; masks changed a little, with faults, or cut.

use crate::draft::{mend_length, Draft, DraftSet};
use crate::file::{File, Judgement, StateSet};
use crate::generate::builder::{Builder, ALL, GOAL};
use crate::generate::certificates::{self, by_pg, by_pi, finish};
use crate::generate::random::Random;
use crate::generate::{applications, certificate, mutate, perhaps_spoiled, some_call, tasks, Case};
use crate::steps::check_step;
use crate::task::{all_facts, Action, Task};
use crate::version::Places;

/// The first `count` cases of a seed.
pub fn off(seed: u64, count: u64) -> impl Iterator<Item = Case> {
    (0..count).map(move |index| off_case(&mut Random::for_case(seed, index)))
}

fn off_case(random: &mut Random) -> Case {
    let mut d = match random.below(100) {
        0..=19 => any(random),
        20..=44 => certain(random),
        _ => telling(random),
    };
    let call = some_call(random, &d, |random| about_off(random, &d));
    Case { call, bytes: perhaps_spoiled(random, &mut d, nearly, faulty) }
}

/// A certificate of any form in which a mask of facts off is not empty.
fn any(random: &mut Random) -> Draft {
    loop {
        let d = certificate(random);
        if d.goal_off != 0 || d.actions.iter().any(|action| action.off != 0) {
            return d;
        }
    }
}

/// The sample's form, or PI's, over all states within reach: accepted exactly where none of them is a goal state.
pub fn certain(random: &mut Random) -> Draft {
    let n = random.between(2, 8) as u8;
    let has_off = |task: &Task| Places::of(task.version).has_off();
    let (mut task, states) = tasks::reachable_where(random, n, 60, has_off);
    if random.chance(80) {
        let reached: Vec<u64> = states.iter().copied().collect();
        let state = random.pick(&reached);
        (task.goal, task.goal_off) = some_goal(random, task.all_facts(), state);
    }
    let mut b = Builder::new(task, random);
    let s = b.listed(states);
    let ending = if b.random.chance(70) { by_pg(&mut b, s) } else { by_pi(&mut b, s) };
    add_regressions(&mut b);
    finish(&mut b, ending);
    Draft::of(&b.file)
}

/// Masks that this state meets both, one alone, or neither, since a fact is in both; or no facts at all.
fn some_goal(random: &mut Random, facts: u64, state: u64) -> (u64, u64) {
    let (on, off) = (random.mask(state, 1), random.mask(facts & !state, 1));
    let both = random.bit(facts);
    match random.below(9) {
        0 | 1 => (on, off),
        2 | 3 => (on, off | random.bit(state)),
        4 | 5 => (on | random.bit(facts & !state), off),
        6 => (on | both, off | both),
        7 => (0, off),
        _ => (0, 0),
    }
}

/// Adds sets that questions are about: what leads into the goal, into a set that is there, and neither.
fn add_regressions(b: &mut Builder) {
    let set = b.random.below(b.file.state_sets.len()) as u16;
    let led = [GOAL, set].map(|set| b.set(StateSet::Regression(set, ALL)));
    let either = b.or(led[0], led[1]);
    b.not(either);
}

/// How the masks of facts off could be misread.
#[derive(Clone, Copy, Debug, PartialEq, Eq, PartialOrd, Ord)]
pub enum Misreading {
    /// Actions need no fact off.
    Ignored,
    /// What an action needs off is looked at after it.
    After,
    /// A fact that an action needs on and off is needed on alone.
    OnAlone,
    /// The goal wants no fact off.
    GoalIgnored,
    /// A goal that wants facts off wants none on.
    GoalOffAlone,
    /// A fact that the goal wants on and off is wanted on alone.
    GoalOnAlone,
}

impl Misreading {
    pub const ALL: [Misreading; 6] = [
        Misreading::Ignored,
        Misreading::After,
        Misreading::OnAlone,
        Misreading::GoalIgnored,
        Misreading::GoalOffAlone,
        Misreading::GoalOnAlone,
    ];

    /// The task that is, read rightly, what the misreading makes of this one.
    pub fn of(self, task: &Task) -> Task {
        let mut misread = task.clone();
        match self {
            Misreading::Ignored => misread.actions.iter_mut().for_each(|a| a.off = 0),
            Misreading::After => misread.actions.iter_mut().for_each(looked_at_after),
            Misreading::OnAlone => misread.actions.iter_mut().for_each(|a| a.off &= !a.pre),
            Misreading::GoalIgnored => misread.goal_off = 0,
            Misreading::GoalOffAlone if task.goal_off != 0 => misread.goal = 0,
            Misreading::GoalOffAlone => (),
            Misreading::GoalOnAlone => misread.goal_off &= !task.goal,
        }
        misread
    }

    /// Whether it takes some untrue statements for true: where less is on the left, or more on the right.
    pub fn accepts_untrue(self) -> bool {
        !matches!(self, Misreading::Ignored | Misreading::OnAlone)
    }

    /// Changes a task to one of which the misreading makes another: fewer actions apply, fewer states are the goal's.
    fn tempt(self, random: &mut Random, task: &mut Task) {
        let fact = random.bit(task.all_facts());
        let some = random.below(task.actions.len());
        match (self, task.actions.get_mut(some)) {
            (Misreading::Ignored, Some(action)) => action.off |= fact,
            (Misreading::After, Some(action)) => action.off |= random.bit(action.add | action.del),
            (Misreading::OnAlone, Some(action)) => {
                action.pre |= fact;
                action.off |= fact;
            }
            (Misreading::GoalIgnored | Misreading::GoalOffAlone, _) => task.goal_off |= fact,
            (Misreading::GoalOnAlone, _) => task.goal_off |= random.bit(task.goal),
            (_, None) => (),
        }
    }
}

/// The action that applies where, by the effects of this one, what it needs off is off after it.
fn looked_at_after(action: &mut Action) {
    match action.off & action.add {
        0 => action.off &= !action.del,
        on => action.pre |= on,
    }
}

/// A certificate, and beside it a statement that one of the misreadings takes for true where it is not, or the other way about.
fn telling(random: &mut Random) -> Draft {
    let misreading = random.pick(&Misreading::ALL);
    let holds = !misreading.accepts_untrue() || random.chance(50);
    loop {
        let (mut b, ending) = certificates::random(random);
        if !Places::of(b.file.task.version).has_off() {
            continue;
        }
        misreading.tempt(b.random, &mut b.file.task);
        applications::add_pool(&mut b);
        applications::add_pool(&mut b);
        if add_telling(&mut b, misreading, holds) {
            add_regressions(&mut b);
            finish(&mut b, ending);
            return Draft::of(&b.file);
        }
    }
}

/// Adds such a statement, which holds or does not, where a few tries find one.
fn add_telling(b: &mut Builder, misreading: Misreading, wanted: bool) -> bool {
    let misread = misreading.of(&b.file.task);
    (0..60).any(|_| {
        let mark = b.mark();
        let (rule, judgement) = statement(b);
        let number = b.step(rule, judgement, &[]) as usize;
        let told = holds(&b.file, number) == wanted && holds_misread(b, &misread, number) != wanted;
        if !told {
            b.take_back(mark);
        }
        told
    })
}

/// A basic statement of B1 to B3; the other rules look at no action and no goal.
fn statement(b: &mut Builder) -> (u8, Judgement) {
    loop {
        let (rule, judgement) = applications::basic(b);
        if rule <= 3 {
            return (rule, judgement);
        }
    }
}

fn holds(file: &File, number: usize) -> bool {
    check_step(file, number).is_ok()
}

/// Whether the step holds with this task in the place of the file's own.
fn holds_misread(b: &mut Builder, misread: &Task, number: usize) -> bool {
    let own = std::mem::replace(&mut b.file.task, misread.clone());
    let holds = holds(&b.file, number);
    b.file.task = own;
    holds
}

/// Changes a mask of facts off, or takes one or all of them away.
fn nearly(random: &mut Random, d: &mut Draft) {
    let bit = random.bit(all_facts(d.facts));
    let some = random.below(d.actions.len());
    match (random.below(8), d.actions.get_mut(some)) {
        (0, _) => d.version = random.pick(&[1, 2]),
        (1, _) => d.goal_off ^= bit,
        (2, _) => std::mem::swap(&mut d.goal, &mut d.goal_off),
        (3, _) => (d.goal, d.goal_off) = (0, 0),
        (4, _) => d.goal_off |= random.bit(d.goal),
        (5, Some(action)) => action.off = 0,
        (6, Some(action)) => std::mem::swap(&mut action.pre, &mut action.off),
        (_, Some(action)) => action.off ^= bit,
        (_, None) => (),
    }
}

/// The bytes with an unlawful mask, or ones that end within a mask of facts off; now and then with a fault before or behind it.
fn faulty(random: &mut Random, d: &mut Draft) -> Vec<u8> {
    let (high, low) = (random.bit(!all_facts(d.facts)), random.bit(all_facts(d.facts)));
    d.version = 3;
    d.actions.resize(d.actions.len().max(1), Action::NOTHING);
    let some = random.below(d.actions.len());
    let places = Places::of(d.version);
    let action_off = places.actions + places.action * (some + 1) - 8;
    let mut end = None;
    match random.below(12) {
        0 | 1 => d.goal_off |= high,
        2 | 3 => d.actions[some].off |= high,
        4 => (d.goal, d.goal_off) = (d.goal | high, d.goal_off | high),
        5 => (d.actions[some].del, d.actions[some].off) = (high, high),
        6 => (d.init, d.unknown, d.goal_off) = (d.init | low, d.unknown | low, d.goal_off | high),
        7 => (d.init, d.unknown) = (d.init | low, d.unknown | low),
        8 => end = places.goal_off.map(|mask| random.between(mask, mask + 7)),
        9 => end = Some(random.between(places.action_count, places.actions)),
        10 => end = Some(random.between(action_off, action_off + 7)),
        _ => (d.goal_off, d.actions) = (d.goal_off | high, vec![Action::NOTHING; 257]),
    }
    let mut bytes = d.encode();
    bytes.truncate(end.unwrap_or(bytes.len()));
    mend_length(&mut bytes);
    bytes
}

/// A question about the goal, what leads into it and what is made of these: a state that meets the goal's masks, or an action's, or
/// that one fact keeps from it.
fn about_off(random: &mut Random, d: &Draft) -> (u64, u64) {
    let about = |set: &DraftSet| match set {
        DraftSet::Goal | DraftSet::Regression(..) => true,
        DraftSet::Complement(s) => *s >= GOAL,
        _ => false,
    };
    let entry = mutate::choose(random, &d.state_sets, about).unwrap_or(0);
    let some = random.below(d.actions.len());
    let (on, off) = match d.actions.get(some).filter(|_| random.chance(60)) {
        Some(action) => (action.pre, action.off),
        None => (d.goal, d.goal_off),
    };
    let met = random.mask(all_facts(d.facts), 1) & !off | on;
    let changed = if random.chance(40) { random.bit(on | off) } else { 0 };
    (entry as u64, met ^ changed)
}
