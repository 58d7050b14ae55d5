//! Reply 11: what shows that a basic statement is untrue, and the search for it. Nothing goes through
//! all states: the states of a list are tried one by one, and for clauses a state is built from
//! what the leaves and the action say.

use super::shape::{sides, Leaf};
use crate::clauses::{propagate_units, pulled, Known};
use crate::explicit::smallest;
use crate::file::{marked, marked_actions, Clause, File, StateSet, Step};
use crate::task::{Action, State};

/// What shows that a statement is untrue.
#[derive(Clone, Copy, Debug, PartialEq, Eq)]
pub enum Counterexample {
    /// B1 and B4: a state in the left set and not in the right one.
    State { state: State },
    /// B2: the action leads from `before`, inside the bracket, to `after`, which is in the left set
    /// and not in the right one.
    Progression { before: State, action: u16, after: State },
    /// B3: the action leads from `before` to `after`, inside the bracket; so `before` is in the left
    /// set, and it is not in the right one.
    Regression { before: State, action: u16, after: State },
    /// B5: an action in the left set and not in the right one.
    Action { action: u16 },
}

/// A counterexample to a step of B1 to B5 whose shape is permitted; none where it is true.
pub fn find(file: &File, step: &Step) -> Option<Counterexample> {
    if step.rule == 5 {
        let [a, b] = step.entries.map(|entry| file.action_sets[entry as usize].marks);
        let action = marked_actions(a).find(|action| !marked(&b, *action))? as u16;
        return Some(Counterexample::Action { action });
    }
    let statement = Statement::of(file, step)?;
    let (before, action) = match statement.listing() {
        None => statement.by_model()?,
        Some(StateSet::Init) => statement.among(file.task.inits())?,
        Some(StateSet::Explicit(states)) => statement.among(file.ascending(states).iter().copied())?,
        Some(_) => return None,
    };
    Some(statement.counterexample(before, action))
}

/// A statement of B1 to B4 with its complements moved. A counterexample is a state in all sets of
/// `before` from which the action leads into all sets of `after`; one of the two, for B2 the one
/// after, is in no set of `right`. Without a bracket the action is the one that does nothing.
struct Statement<'a> {
    file: &'a File,
    rule: u8,
    before: Vec<StateSet>,
    after: Vec<StateSet>,
    right: Vec<StateSet>,
    actions: Vec<(u16, Action)>,
}

impl<'a> Statement<'a> {
    fn of(file: &'a File, step: &Step) -> Option<Statement<'a>> {
        let sides = sides(file, step).ok()?;
        let sets = |leaves: &[Leaf]| -> Vec<StateSet> {
            leaves.iter().map(|leaf| file.state_sets[leaf.base as usize]).collect()
        };
        let (left, inside) = (sets(&sides.moved_left()), sets(sides.inside()));
        let (before, after) = if step.rule == 2 { (inside, left) } else { (left, inside) };
        let actions = match sides.bracket.as_ref() {
            None => vec![(0, Action::NOTHING)],
            Some(bracket) => {
                let marks = file.action_sets[bracket.actions as usize].marks;
                marked_actions(marks).map(|a| (a as u16, file.task.actions[a])).collect()
            }
        };
        Some(Statement { file, rule: step.rule, before, after, right: sets(&sides.moved_right()), actions })
    }

    /// The state before the action and the action as a counterexample to the rule.
    fn counterexample(&self, before: State, (action, masks): (u16, Action)) -> Counterexample {
        let after = masks.after(before);
        match self.rule {
            2 => Counterexample::Progression { before, action, after },
            3 => Counterexample::Regression { before, action, after },
            _ => Counterexample::State { state: before },
        }
    }

    fn in_all(&self, sets: &[StateSet], state: State) -> bool {
        sets.iter().all(|set| self.file.base_holds(*set, state))
    }

    /// In a statement with a list of states, the set of `before` that gives the fewest states one by one.
    fn listing(&self) -> Option<StateSet> {
        let mut sets = self.before.iter().chain(&self.after).chain(&self.right);
        if !sets.any(|set| matches!(set, StateSet::Explicit(_))) {
            return None;
        }
        smallest(self.file, &self.before)
    }

    /// One of these states, and the action that makes it a counterexample.
    fn among(&self, states: impl Iterator<Item = State>) -> Option<(State, (u16, Action))> {
        let mut fitting = states.filter(|state| self.in_all(&self.before, *state));
        fitting.find_map(|state| Some((state, self.refuting_action(state)?)))
    }

    /// An action that makes this state a counterexample.
    fn refuting_action(&self, before: State) -> Option<(u16, Action)> {
        let refutes = |action: &Action| {
            let after = action.after(before);
            let judged = if self.rule == 2 { after } else { before };
            action.applies(before)
                && self.in_all(&self.after, after)
                && !self.right.iter().any(|set| self.file.base_holds(*set, judged))
        };
        self.actions.iter().copied().find(|(_, action)| refutes(action))
    }
}

/// Over clauses: a state that meets all clauses of the left sets and fails one of each right set.
impl Statement<'_> {
    fn by_model(&self) -> Option<(State, (u16, Action))> {
        let left = |sets: &[StateSet]| -> Option<Vec<Clause>> {
            let lists = sets.iter().map(|set| self.clauses(*set));
            Some(lists.collect::<Option<Vec<_>>>()?.concat())
        };
        let (before, after) = (left(&self.before)?, left(&self.after)?);
        // A state is in no empty set: such a right set asks for nothing.
        let right: Vec<Vec<Clause>> = self.right.iter().filter_map(|set| self.clauses(*set)).collect();
        let state = |action: &Action| {
            if action.never_applies() {
                return None;
            }
            let pulled_after = after.iter().filter_map(|clause| pulled(*clause, action));
            let clauses: Vec<Clause> = before.iter().copied().chain(pulled_after).collect();
            let known = Known { on: action.pre, off: !self.file.task.all_facts() | action.off };
            let seen = if self.rule == 2 { *action } else { Action::NOTHING };
            failing(&clauses, known, &right, &seen)
        };
        self.actions.iter().find_map(|&(number, action)| Some((state(&action)?, (number, action))))
    }

    /// The set as clauses; none for the empty set and for a list of states.
    fn clauses(&self, set: StateSet) -> Option<Vec<Clause>> {
        let task = &self.file.task;
        let facts = |mask: u64| (0..64).map(move |f| mask & 1 << f).filter(|bit| *bit != 0);
        let on = |mask| facts(mask).map(|positive| Clause { positive, negative: 0 });
        let off = |mask| facts(mask).map(|negative| Clause { positive: 0, negative });
        match set {
            StateSet::Init => Some(on(task.init).chain(off(task.init_off())).collect()),
            StateSet::Goal => Some(on(task.goal).chain(off(task.goal_off)).collect()),
            StateSet::Horn(span) | StateSet::TwoCnf(span) => Some(span.of(&self.file.clauses).to_vec()),
            StateSet::Empty | StateSet::Explicit(_) => None,
            // No leaf is of these kinds.
            StateSet::Complement(_) | StateSet::Intersection(..) | StateSet::Union(..) => None,
            StateSet::Progression(..) | StateSet::Regression(..) => None,
        }
    }
}

/// A state with what is known that meets the clauses and, after the action `seen`, fails one clause of
/// each right set. The clauses are all Horn or all two-literal.
fn failing(clauses: &[Clause], mut known: Known, right: &[Vec<Clause>], seen: &Action) -> Option<State> {
    if !propagate_units(clauses, &mut known) {
        return None;
    }
    let met = |c: &Clause| c.positive & known.on | c.negative & known.off != 0;
    let open: Vec<Clause> = clauses.iter().copied().filter(|clause| !met(clause)).collect();
    let state = completed(&open, known)?;
    let Some((first, others)) = right.split_first() else { return Some(state) };
    first.iter().find_map(|clause| {
        let mut next = known;
        let fails = next.fail(pulled(*clause, seen)?);
        if fails {
            failing(&open, next, others, seen)
        } else {
            None
        }
    })
}

/// A state with what is known that meets the clauses, on which no more follows by units. Each open fact
/// is tried off, then on: over Horn clauses off always does, over two-literal clauses what one of
/// them settles never needs undoing.
fn completed(clauses: &[Clause], mut known: Known) -> Option<State> {
    for bit in (0..64).map(|fact| 1u64 << fact) {
        if (known.on | known.off) & bit != 0 {
            continue;
        }
        let mut off = Known { on: known.on, off: known.off | bit };
        if propagate_units(clauses, &mut off) {
            known = off;
            continue;
        }
        known.on |= bit;
        if !propagate_units(clauses, &mut known) {
            return None;
        }
    }
    Some(known.on)
}
