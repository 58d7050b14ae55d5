//! Whole certificates: the sample's form and its relatives, by each of PG, PI, RG and
//! RI, over explicit, Horn and two-literal sets.

use std::collections::BTreeSet;

use crate::file::{Judgement, Span, StateSet};
use crate::generate::builder::{Builder, ALL, EMPTY, GOAL, INIT};
use crate::generate::random::Random;
use crate::generate::tasks;
use crate::shape::Method;
use crate::task::State;
use Judgement::{Dead, Unsolvable, Within};

/// A finished argument: the rule that says "unsolvable" and its premise.
pub type Ending = (u8, u16);

/// A builder with a random certificate, all but its last step. Mostly right.
pub fn random(random: &mut Random) -> (Builder<'_>, Ending) {
    let n = tasks::fact_count(random);
    let sizes = (random.between(1, 6), random.between(0, 5));
    match random.below(7) {
        0..=2 => explicit(random, n),
        3 | 4 => {
            let method = random.pick(&[Method::Horn, Method::TwoCnf]);
            let (task, clauses) = tasks::forward(random, n, method, sizes);
            let mut b = Builder::new(task, random);
            let s = b.clauses(kind(method), &clauses);
            let ending = if b.random.chance(50) { by_pg(&mut b, s) } else { by_pi(&mut b, s) };
            (b, ending)
        }
        _ => {
            let method = random.pick(&[Method::Horn, Method::TwoCnf]);
            let (task, clauses) = tasks::backward(random, n, method, sizes);
            let mut b = Builder::new(task, random);
            let s = b.clauses(kind(method), &clauses);
            let ending = if b.random.chance(50) { by_rg(&mut b, s) } else { by_ri(&mut b, s) };
            (b, ending)
        }
    }
}

/// The kind of a set of clauses.
pub fn kind(method: Method) -> fn(Span) -> StateSet {
    match method {
        Method::TwoCnf => StateSet::TwoCnf,
        _ => StateSet::Horn,
    }
}

/// Over the states within reach.
pub fn explicit(random: &mut Random, n: u8) -> (Builder<'_>, Ending) {
    let (task, states) = tasks::reachable(random, n, 60);
    let mut b = Builder::new(task, random);
    let s = b.listed(states.iter().copied());
    let ending = match b.random.below(4) {
        0 | 1 => by_pg(&mut b, s),
        2 => by_pi(&mut b, s),
        _ => by_regression_beside(&mut b, s, &states),
    };
    (b, ending)
}

/// Says of a closed set S: S[T]<S+0, 0 dead, S&G dead; S dead; I dead.
pub fn by_pg(b: &mut Builder, s: u16) -> Ending {
    let none = b.step(6, Dead(EMPTY), &[]);
    let closed = closed(b, s, true, EMPTY);
    let with_goal = b.and(s, GOAL);
    let no_goal = b.step(1, Within(with_goal, EMPTY), &[]);
    let no_goal = b.step(8, Dead(with_goal), &[no_goal, none]);
    let dead = b.step(9, Dead(s), &[closed, none, no_goal]);
    let init = b.step(1, Within(INIT, s), &[]);
    (13, b.step(8, Dead(INIT), &[init, dead]))
}

/// S[T]<S+0, 0 dead, I<S; ~S dead; G dead.
pub fn by_pi(b: &mut Builder, s: u16) -> Ending {
    let none = b.step(6, Dead(EMPTY), &[]);
    let not_s = b.not(s);
    let outside = outside_dead(b, s, not_s, none);
    let goal = b.step(1, Within(GOAL, not_s), &[]);
    (14, b.step(8, Dead(GOAL), &[goal, outside]))
}

/// ~S dead by PI.
fn outside_dead(b: &mut Builder, s: u16, not_s: u16, none: u16) -> u16 {
    let closed = closed(b, s, true, EMPTY);
    let init = b.step(1, Within(INIT, s), &[]);
    b.step(10, Dead(not_s), &[closed, none, init])
}

/// [T]S<S+0, 0 dead, ~S&G dead; ~S dead; I dead.
pub fn by_rg(b: &mut Builder, s: u16) -> Ending {
    let none = b.step(6, Dead(EMPTY), &[]);
    let closed = closed(b, s, false, EMPTY);
    let not_s = b.not(s);
    let with_goal = b.and(not_s, GOAL);
    let no_goal = b.step(1, Within(with_goal, EMPTY), &[]);
    let no_goal = b.step(8, Dead(with_goal), &[no_goal, none]);
    let dead = b.step(11, Dead(not_s), &[closed, none, no_goal]);
    let init = b.step(1, Within(INIT, not_s), &[]);
    (13, b.step(8, Dead(INIT), &[init, dead]))
}

/// [T]S<S+0, 0 dead, I<~S; S dead; G dead.
pub fn by_ri(b: &mut Builder, s: u16) -> Ending {
    let none = b.step(6, Dead(EMPTY), &[]);
    let closed = closed(b, s, false, EMPTY);
    let not_s = b.not(s);
    let init = b.step(1, Within(INIT, not_s), &[]);
    let dead = b.step(12, Dead(s), &[closed, none, init]);
    let goal = b.step(1, Within(GOAL, s), &[]);
    (14, b.step(8, Dead(GOAL), &[goal, dead]))
}

/// The basic statement S[T]<S+U or [T]S<S+U.
fn closed(b: &mut Builder, s: u16, forward: bool, u: u16) -> u16 {
    let led = if forward { StateSet::Progression(s, ALL) } else { StateSet::Regression(s, ALL) };
    let led = b.set(led);
    let whole = b.or(s, u);
    b.step(if forward { 2 } else { 3 }, Within(led, whole), &[])
}

/// Over explicit sets: first ~R dead by PI for the states R within reach, then a set S
/// with [T]S<S+~R by RG or RI.
fn by_regression_beside(b: &mut Builder, r: u16, within: &BTreeSet<State>) -> Ending {
    let none = b.step(6, Dead(EMPTY), &[]);
    let not_r = b.not(r);
    let outside = outside_dead(b, r, not_r, none);
    let facts = b.file.task.all_facts();
    let picks: BTreeSet<State> = (0..6).map(|_| b.random.mask(facts, 1)).collect();
    let s = b.listed(picks.into_iter().filter(|state| !within.contains(state)));
    let closed = closed(b, s, false, not_r);
    let not_s = b.not(s);
    if b.random.chance(50) {
        let with_goal = b.and(not_s, GOAL);
        let no_goal = b.step(1, Within(with_goal, not_r), &[]);
        let no_goal = b.step(8, Dead(with_goal), &[no_goal, outside]);
        let dead = b.step(11, Dead(not_s), &[closed, outside, no_goal]);
        let init = b.step(1, Within(INIT, not_s), &[]);
        return (13, b.step(8, Dead(INIT), &[init, dead]));
    }
    let init = b.step(1, Within(INIT, not_s), &[]);
    b.step(12, Dead(s), &[closed, outside, init]);
    let goal = b.step(1, Within(GOAL, not_r), &[]);
    (14, b.step(8, Dead(GOAL), &[goal, outside]))
}

/// Adds the last step.
pub fn finish(b: &mut Builder, (rule, premise): Ending) {
    b.step(rule, Unsolvable, &[premise]);
}
