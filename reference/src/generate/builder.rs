//! Builds a file entry by entry and step by step in decoded form, and looks for simple
//! proofs of wanted judgements.

use crate::file::{ActionSet, ActionSetKind, Clause, File, Judgement, Span, StateSet, Step};
use crate::generate::listed::disorder;
use crate::generate::random::Random;
use crate::layout::{MAX_STATE_SETS, MAX_STEPS};
use crate::steps::check_step;
use crate::task::{State, Task};

pub struct Builder<'a> {
    pub file: File,
    pub random: &'a mut Random,
}

/// How long the lists were; a failed try is taken back to it.
#[derive(Clone, Copy)]
pub struct Mark(usize, usize, usize);

pub const EMPTY: u16 = 0;
pub const INIT: u16 = 1;
pub const GOAL: u16 = 2;
pub const ALL: u16 = 0;

impl<'a> Builder<'a> {
    /// A file with the task, the set of all actions and the three constant state sets.
    pub fn new(task: Task, random: &'a mut Random) -> Builder<'a> {
        let mut file = File { task, ..File::default() };
        file.action_sets.push(ActionSet { kind: ActionSetKind::All, marks: file.all_marks() });
        file.state_sets.extend([StateSet::Empty, StateSet::Init, StateSet::Goal]);
        Builder { file, random }
    }

    pub fn mark(&self) -> Mark {
        Mark(self.file.action_sets.len(), self.file.state_sets.len(), self.file.steps.len())
    }

    pub fn take_back(&mut self, mark: Mark) {
        self.file.action_sets.truncate(mark.0);
        self.file.state_sets.truncate(mark.1);
        self.file.steps.truncate(mark.2);
    }

    /// Whether there is room for a few more entries and steps.
    pub fn has_room(&self) -> bool {
        self.file.state_sets.len() + 16 < MAX_STATE_SETS && self.file.steps.len() + 16 < MAX_STEPS
    }

    /// The number of an entry with this content, mostly an old one if there is one.
    pub fn set(&mut self, set: StateSet) -> u16 {
        let old = self.file.state_sets.iter().position(|other| *other == set);
        if let Some(old) = old.filter(|_| self.random.chance(85)) {
            return old as u16;
        }
        self.file.state_sets.push(set);
        (self.file.state_sets.len() - 1) as u16
    }

    pub fn actions(&mut self, kind: ActionSetKind, marks: [u64; 4]) -> u16 {
        let set = ActionSet { kind, marks };
        let old = self.file.action_sets.iter().position(|other| *other == set);
        if let Some(old) = old.filter(|_| self.random.chance(85)) {
            return old as u16;
        }
        self.file.action_sets.push(set);
        (self.file.action_sets.len() - 1) as u16
    }

    pub fn action_union(&mut self, a: u16, b: u16) -> u16 {
        let marks = self.file.union_marks(a, b);
        self.actions(ActionSetKind::Union(a, b), marks)
    }

    /// An explicit set of states in this order.
    pub fn explicit(&mut self, states: impl IntoIterator<Item = State>) -> u16 {
        let from = self.file.states.len();
        self.file.states.extend(states);
        let listed = self.file.listed(from);
        self.file.state_sets.push(StateSet::Explicit(listed));
        (self.file.state_sets.len() - 1) as u16
    }

    /// An explicit set of these states, as they are or in any order with repeats.
    pub fn listed(&mut self, states: impl IntoIterator<Item = State>) -> u16 {
        let mut states = states.into_iter().collect();
        disorder(self.random, &mut states);
        self.explicit(states)
    }

    /// A Horn or two-literal set.
    pub fn clauses(&mut self, kind: fn(Span) -> StateSet, clauses: &[Clause]) -> u16 {
        let from = self.file.clauses.len();
        self.file.clauses.extend_from_slice(clauses);
        let span = Span::new(from, self.file.clauses.len());
        self.file.state_sets.push(kind(span));
        (self.file.state_sets.len() - 1) as u16
    }

    pub fn not(&mut self, s: u16) -> u16 {
        self.set(StateSet::Complement(s))
    }

    pub fn and(&mut self, s: u16, u: u16) -> u16 {
        self.set(StateSet::Intersection(s, u))
    }

    pub fn or(&mut self, s: u16, u: u16) -> u16 {
        self.set(StateSet::Union(s, u))
    }

    /// Adds a step whether it passes or not.
    pub fn step(&mut self, rule: u8, judgement: Judgement, premises: &[u16]) -> u16 {
        let (kind, entries) = match judgement {
            Judgement::Dead(s) => (0, [s, 0]),
            Judgement::Within(s, u) => (1, [s, u]),
            Judgement::ActionsWithin(a, b) => (2, [a, b]),
            Judgement::Unsolvable => (3, [0, 0]),
        };
        let mut places = [0; 3];
        places[..premises.len()].copy_from_slice(premises);
        self.file.steps.push(Step { rule, kind, entries, premises: places });
        (self.file.steps.len() - 1) as u16
    }

    /// Adds a step where it passes.
    pub fn passing(&mut self, rule: u8, judgement: Judgement, premises: &[u16]) -> Option<u16> {
        let number = self.step(rule, judgement, premises);
        if check_step(&self.file, number as usize).is_ok() {
            return Some(number);
        }
        self.file.steps.pop();
        None
    }

    /// A step with this judgement: an old one, or one by a simple proof.
    pub fn prove(&mut self, judgement: Judgement, depth: usize) -> Option<u16> {
        let old = self.file.steps.iter().position(|step| step.judgement() == Some(judgement));
        if let Some(old) = old.filter(|_| self.random.chance(80)) {
            return Some(old as u16);
        }
        match judgement {
            Judgement::Dead(s) => self.prove_dead(s, depth),
            Judgement::ActionsWithin(..) => self.passing(5, judgement, &[]),
            Judgement::Unsolvable => None,
            Judgement::Within(..) => {
                let first = self.random.below(9);
                let rules = [1, 2, 3, 4, 15, 16, 17, 18, 19];
                (0..9).find_map(|k| self.passing(rules[(first + k) % 9], judgement, &[]))
            }
        }
    }

    fn prove_dead(&mut self, s: u16, depth: usize) -> Option<u16> {
        let judgement = Judgement::Dead(s);
        if let Some(step) = self.passing(6, judgement, &[]) {
            return Some(step);
        }
        if depth == 0 {
            return None;
        }
        if let StateSet::Union(a, b) = self.file.state_sets[s as usize] {
            let parts = self.prove_dead(a, depth - 1).zip(self.prove_dead(b, depth - 1));
            if let Some((a, b)) = parts {
                return self.passing(7, judgement, &[a, b]);
            }
        }
        let dead = self.file.steps.iter().enumerate().filter(|(_, step)| step.kind == 0);
        let dead: Vec<(usize, u16)> = dead.map(|(k, step)| (k, step.entries[0])).collect();
        let first = self.random.below(dead.len());
        (0..dead.len().min(6)).find_map(|k| {
            let (step, u) = dead[(first + k) % dead.len()];
            let within = self.passing(1, Judgement::Within(s, u), &[])?;
            self.passing(8, judgement, &[within, step as u16])
        })
    }
}
