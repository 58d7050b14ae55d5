//! Truth of statements over Horn and two-literal clauses. A counterexample is a state
//! that the action applies in, that meets every left clause and fails one clause of
//! each right leaf. Clauses about the state after the action are first pulled through
//! it, so that all of them speak of the state before it; then facts are propagated.

use crate::file::{marked_actions, Clause, File, Marks, StateSet};
use crate::shape::{Bracket, Leaves, Method, Statement};
use crate::task::{Action, Task};

/// What is known of a state: facts that are on and facts that are off.
#[derive(Clone, Copy, Debug, PartialEq, Eq)]
pub struct Known {
    pub on: u64,
    pub off: u64,
}

impl Known {
    /// Adds that the clause fails; false where that contradicts what is known.
    #[inline]
    pub fn fail(&mut self, clause: Clause) -> bool {
        self.on |= clause.negative;
        self.off |= clause.positive;
        self.on & self.off == 0
    }
}

/// The clause over the state before the action that says what the given one says of the
/// state after it; none where the action always meets it. Facts the action leaves alone
/// keep their old values, which still bind.
#[inline]
pub fn pulled(clause: Clause, action: &Action) -> Option<Clause> {
    let deleted = action.del & !action.add;
    if clause.positive & action.add != 0 || clause.negative & deleted != 0 {
        return None;
    }
    let changed = action.add | action.del;
    Some(Clause { positive: clause.positive & !changed, negative: clause.negative & !changed })
}

/// Leaves as units (facts that must be on or off) and clauses.
#[derive(Default)]
struct Conditions {
    on: u64,
    off: u64,
    clauses: Vec<Clause>,
}

impl Conditions {
    /// None where a leaf is the empty set.
    fn of(file: &File, leaves: &Leaves) -> Option<Conditions> {
        let mut all = Conditions::default();
        for set in leaves.all() {
            match set {
                StateSet::Init => {
                    all.on |= file.task.init;
                    all.off |= file.task.init_off();
                }
                StateSet::Goal => {
                    all.on |= file.task.goal;
                    all.off |= file.task.goal_off;
                }
                StateSet::Horn(span) | StateSet::TwoCnf(span) => {
                    let clauses = span.of(&file.clauses).iter().copied();
                    all.clauses.extend(clauses.filter(|c| c.positive & c.negative == 0));
                }
                _ => return None,
            }
        }
        Some(all)
    }
}

/// The clauses of a right leaf; a counterexample fails one of them.
fn right_clauses(task: &Task, file: &File, set: StateSet) -> Vec<Clause> {
    let facts = |mask: u64| (0..64).map(move |f| mask & 1 << f).filter(|bit| *bit != 0);
    let on = |bit| Clause { positive: bit, negative: 0 };
    let off = |bit| Clause { positive: 0, negative: bit };
    match set {
        StateSet::Init => facts(task.init).map(on).chain(facts(task.init_off()).map(off)).collect(),
        StateSet::Goal => facts(task.goal).map(on).chain(facts(task.goal_off).map(off)).collect(),
        StateSet::Horn(span) | StateSet::TwoCnf(span) => span.of(&file.clauses).to_vec(),
        _ => Vec::new(),
    }
}

/// A right leaf: its clauses, and whether it is also said of the state before the action.
struct Right {
    clauses: Vec<Clause>,
    before: bool,
}

/// A statement made ready: what is said of the state before the action, what of the
/// state after it, and the right leaves.
struct Problem {
    before: Conditions,
    after: Conditions,
    right: Vec<Right>,
    right_is_after: bool,
    method: Method,
    /// Facts of n or above are off.
    beyond: u64,
}

/// Whether the statement holds over all states.
pub fn holds(file: &File, st: &Statement) -> bool {
    let (Some(left), Some(inside)) = (Conditions::of(file, &st.left), Conditions::of(file, &st.inside))
    else {
        return true;
    };
    let forward = matches!(st.bracket, Bracket::Progression(_));
    let (before, after) = if forward { (inside, left) } else { (left, inside) };
    let known = if forward { &st.inside } else { &st.left };
    let rights = st.right.all().iter().filter(|set| **set != StateSet::Empty);
    let problem = Problem {
        before,
        after,
        right: rights
            .map(|&set| Right {
                clauses: right_clauses(&file.task, file, set),
                before: known.all().contains(&set),
            })
            .collect(),
        right_is_after: forward,
        method: st.method,
        beyond: !file.task.all_facts(),
    };
    let mut work = Vec::new();
    match st.bracket {
        Bracket::None => !problem.refuted_by(&Action::NOTHING, &mut work),
        Bracket::Progression(marks) | Bracket::Regression(marks) => problem.holds_for(file, marks, &mut work),
    }
}

impl Problem {
    fn holds_for(&self, file: &File, marks: Marks, work: &mut Vec<Clause>) -> bool {
        marked_actions(marks).all(|a| !self.refuted_by(&file.task.actions[a], work))
    }

    /// What the action and the unit conditions say of the state before the action.
    fn start(&self, action: &Action) -> Option<Known> {
        let (add, deleted) = (action.add, action.del & !action.add);
        if self.after.on & deleted != 0 || self.after.off & add != 0 {
            return None;
        }
        let same = !(action.add | action.del);
        let known = Known {
            on: action.pre | self.before.on | self.after.on & same,
            off: self.beyond | action.off | self.before.off | self.after.off & same,
        };
        (known.on & known.off == 0).then_some(known)
    }

    /// Whether some state before this action is a counterexample.
    fn refuted_by(&self, action: &Action, work: &mut Vec<Clause>) -> bool {
        let Some(mut known) = self.start(action) else { return false };
        work.clear();
        work.extend_from_slice(&self.before.clauses);
        work.extend(self.after.clauses.iter().filter_map(|&c| pulled(c, action)));
        if !settle(work, &mut known) {
            return false;
        }
        let right_action = if self.right_is_after { action } else { &Action::NOTHING };
        self.some_fail(&self.right, right_action, work, known) && satisfiable(self.method, work, known)
    }

    /// Whether one clause of each right leaf can fail together without a conflict. The
    /// facts then found leave each open clause alone, so they go with any model of the
    /// left side: whether there is one is asked once, by the caller.
    fn some_fail(&self, right: &[Right], action: &Action, work: &[Clause], known: Known) -> bool {
        let Some((first, others)) = right.split_first() else { return true };
        let changed = action.add | action.del;
        first.clauses.iter().any(|&clause| {
            // It holds before the action, which leaves it alone.
            if first.before && (clause.positive | clause.negative) & changed == 0 {
                return false;
            }
            let Some(clause) = pulled(clause, action) else { return false };
            let mut next = known;
            if !next.fail(clause) {
                return false;
            }
            if others.is_empty() {
                return propagate(self.method, work, &mut next);
            }
            let mut rest = work.to_vec();
            settle(&mut rest, &mut next) && self.some_fail(others, action, &rest, next)
        })
    }
}

/// Propagates all units and keeps in the list only what is open of the clauses; false
/// where there is a conflict.
fn settle(work: &mut Vec<Clause>, known: &mut Known) -> bool {
    if !propagate_units(work, known) {
        return false;
    }
    let Known { on, off } = *known;
    work.retain_mut(|c| {
        let open = c.positive & on == 0 && c.negative & off == 0;
        c.positive &= !off;
        c.negative &= !on;
        open
    });
    true
}

/// Finds the facts that follow by settled clauses; false where there is a conflict.
#[inline]
fn propagate(method: Method, settled: &[Clause], known: &mut Known) -> bool {
    match method {
        Method::TwoCnf => propagate_pairs(settled, known),
        _ => propagate_forward(settled, known),
    }
}

/// For Horn clauses it is enough to go from bodies to heads: with every other fact off,
/// each clause whose body is not all on is met.
fn propagate_forward(clauses: &[Clause], known: &mut Known) -> bool {
    let mut on = known.on;
    loop {
        let before = on;
        for clause in clauses {
            if clause.negative & !on == 0 {
                if clause.positive & !known.off == 0 {
                    return false;
                }
                on |= clause.positive;
            }
        }
        if on == before {
            known.on = on;
            return true;
        }
    }
}

/// For settled two-literal clauses, which have two open literals each: where one of them
/// is false, the other follows.
fn propagate_pairs(settled: &[Clause], known: &mut Known) -> bool {
    let Known { mut on, mut off } = *known;
    loop {
        let before = (on, off);
        for clause in settled {
            let untouched = clause.positive & off | clause.negative & on == 0;
            if untouched || clause.positive & on | clause.negative & off != 0 {
                continue;
            }
            let (positive, negative) = (clause.positive & !off, clause.negative & !on);
            if positive | negative == 0 {
                return false;
            }
            on |= positive;
            off |= negative;
        }
        if (on, off) == before {
            *known = Known { on, off };
            return true;
        }
    }
}

/// Unit propagation for clauses of any form; false where there is a conflict.
pub fn propagate_units(clauses: &[Clause], known: &mut Known) -> bool {
    let Known { mut on, mut off } = *known;
    loop {
        let before = (on, off);
        for clause in clauses {
            if clause.positive & on | clause.negative & off != 0 {
                continue;
            }
            let (positive, negative) = (clause.positive & !off, clause.negative & !on);
            if positive == 0 {
                if negative == 0 {
                    return false;
                }
                if negative & (negative - 1) == 0 {
                    off |= negative;
                }
            } else if negative == 0 && positive & (positive - 1) == 0 {
                on |= positive;
            }
        }
        if (on, off) == before {
            *known = Known { on, off };
            return true;
        }
    }
}

/// Whether settled clauses have a model. Horn: all open facts off. Two-literal: each
/// open fact is tried off, then on; what one of them settles never needs undoing.
fn satisfiable(method: Method, settled: &[Clause], mut known: Known) -> bool {
    if method != Method::TwoCnf {
        return true;
    }
    let named = settled.iter().fold(0, |all, c| all | c.positive | c.negative);
    for fact in 0..64 {
        let bit = 1u64 << fact;
        if named & bit == 0 || (known.on | known.off) & bit != 0 {
            continue;
        }
        let mut off = Known { on: known.on, off: known.off | bit };
        if propagate_pairs(settled, &mut off) {
            known = off;
            continue;
        }
        known.on |= bit;
        if !propagate_pairs(settled, &mut known) {
            return false;
        }
    }
    true
}
