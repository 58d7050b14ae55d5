//! A file in open form: every field can be set freely, lawful or not, and written out
//! as bytes with all lengths and counts worked out. The text form and the generator
//! stand on it.

use crate::file::{marked_actions, ActionSetKind, Clause, File, StateSet, Step};
use crate::task::Action;
use crate::version::Places;

#[derive(Clone, Debug, PartialEq, Eq)]
pub enum DraftActions {
    All,
    List(Vec<u16>),
    Union(u16, u16),
}

#[derive(Clone, Debug, PartialEq, Eq)]
pub enum DraftSet {
    Empty,
    Init,
    Goal,
    Explicit(Vec<u64>),
    Horn(Vec<Clause>),
    TwoCnf(Vec<Clause>),
    Complement(u16),
    Intersection(u16, u16),
    Union(u16, u16),
    Progression(u16, u16),
    Regression(u16, u16),
}

#[derive(Clone, Debug, PartialEq, Eq)]
pub struct Draft {
    pub version: u8,
    pub facts: u8,
    pub init: u64,
    /// Written only where the version has such a mask.
    pub unknown: u64,
    pub goal: u64,
    /// Written only where the version has such a mask, as is `off` of an action.
    pub goal_off: u64,
    pub actions: Vec<Action>,
    pub action_sets: Vec<DraftActions>,
    pub state_sets: Vec<DraftSet>,
    pub steps: Vec<Step>,
}

impl Default for Draft {
    fn default() -> Draft {
        Draft {
            version: 1,
            facts: 1,
            init: 0,
            unknown: 0,
            goal: 0,
            goal_off: 0,
            actions: Vec::new(),
            action_sets: Vec::new(),
            state_sets: Vec::new(),
            steps: Vec::new(),
        }
    }
}

impl DraftActions {
    /// The kind and the body.
    fn encode(&self) -> (u8, Vec<u8>) {
        match self {
            DraftActions::All => (0, Vec::new()),
            DraftActions::List(list) => (1, list.iter().flat_map(|a| a.to_be_bytes()).collect()),
            DraftActions::Union(a, b) => (2, pair(*a, *b)),
        }
    }
}

impl DraftSet {
    /// The kind and the body.
    fn encode(&self) -> (u8, Vec<u8>) {
        match self {
            DraftSet::Empty => (0, Vec::new()),
            DraftSet::Init => (1, Vec::new()),
            DraftSet::Goal => (2, Vec::new()),
            DraftSet::Explicit(states) => (3, states.iter().flat_map(|s| s.to_be_bytes()).collect()),
            DraftSet::Horn(clauses) => (4, clause_bytes(clauses)),
            DraftSet::TwoCnf(clauses) => (5, clause_bytes(clauses)),
            DraftSet::Complement(s) => (6, s.to_be_bytes().to_vec()),
            DraftSet::Intersection(s, u) => (7, pair(*s, *u)),
            DraftSet::Union(s, u) => (8, pair(*s, *u)),
            DraftSet::Progression(s, a) => (9, pair(*s, *a)),
            DraftSet::Regression(s, a) => (10, pair(*s, *a)),
        }
    }
}

fn pair(a: u16, b: u16) -> Vec<u8> {
    [a.to_be_bytes(), b.to_be_bytes()].concat()
}

fn clause_bytes(clauses: &[Clause]) -> Vec<u8> {
    let both = |c: &Clause| [c.positive.to_be_bytes(), c.negative.to_be_bytes()].concat();
    clauses.iter().flat_map(both).collect()
}

fn put_count(bytes: &mut Vec<u8>, count: usize) {
    bytes.extend((count as u16).to_be_bytes());
}

fn put_entry(bytes: &mut Vec<u8>, (kind, body): (u8, Vec<u8>)) {
    put_count(bytes, body.len() + 1);
    bytes.push(kind);
    bytes.extend(body);
}

impl Draft {
    /// The bytes, with the length field right.
    pub fn encode(&self) -> Vec<u8> {
        let mut bytes = vec![0, 0, 0, 0, self.version, self.facts];
        bytes.extend(self.init.to_be_bytes());
        let places = Places::of(self.version);
        if places.unknown.is_some() {
            bytes.extend(self.unknown.to_be_bytes());
        }
        bytes.extend(self.goal.to_be_bytes());
        if places.has_off() {
            bytes.extend(self.goal_off.to_be_bytes());
        }
        put_count(&mut bytes, self.actions.len());
        for Action { pre, add, del, off } in &self.actions {
            for mask in &[*pre, *add, *del, *off][..places.masks.len()] {
                bytes.extend(mask.to_be_bytes());
            }
        }
        put_count(&mut bytes, self.action_sets.len());
        self.action_sets.iter().for_each(|set| put_entry(&mut bytes, set.encode()));
        put_count(&mut bytes, self.state_sets.len());
        self.state_sets.iter().for_each(|set| put_entry(&mut bytes, set.encode()));
        put_count(&mut bytes, self.steps.len());
        for step in &self.steps {
            bytes.extend([step.rule, step.kind]);
            for number in step.entries.iter().chain(&step.premises) {
                bytes.extend(number.to_be_bytes());
            }
        }
        mend_length(&mut bytes);
        bytes
    }

    /// The open form of a decoded file.
    pub fn of(file: &File) -> Draft {
        Draft {
            version: file.task.version,
            facts: file.task.facts,
            init: file.task.init,
            unknown: file.task.unknown,
            goal: file.task.goal,
            goal_off: file.task.goal_off,
            actions: file.task.actions.clone(),
            action_sets: file.action_sets.iter().map(|set| open_actions(set.kind, set.marks)).collect(),
            state_sets: file.state_sets.iter().map(|set| open_set(file, *set)).collect(),
            steps: file.steps.clone(),
        }
    }
}

fn open_actions(kind: ActionSetKind, marks: crate::file::Marks) -> DraftActions {
    match kind {
        ActionSetKind::All => DraftActions::All,
        ActionSetKind::List => DraftActions::List(marked_actions(marks).map(|a| a as u16).collect()),
        ActionSetKind::Union(a, b) => DraftActions::Union(a, b),
    }
}

fn open_set(file: &File, set: StateSet) -> DraftSet {
    match set {
        StateSet::Empty => DraftSet::Empty,
        StateSet::Init => DraftSet::Init,
        StateSet::Goal => DraftSet::Goal,
        StateSet::Explicit(listed) => DraftSet::Explicit(listed.written.of(&file.states).to_vec()),
        StateSet::Horn(span) => DraftSet::Horn(span.of(&file.clauses).to_vec()),
        StateSet::TwoCnf(span) => DraftSet::TwoCnf(span.of(&file.clauses).to_vec()),
        StateSet::Complement(s) => DraftSet::Complement(s),
        StateSet::Intersection(s, u) => DraftSet::Intersection(s, u),
        StateSet::Union(s, u) => DraftSet::Union(s, u),
        StateSet::Progression(s, a) => DraftSet::Progression(s, a),
        StateSet::Regression(s, a) => DraftSet::Regression(s, a),
    }
}

/// Writes the length of what follows into the first four bytes, where there are four.
pub fn mend_length(bytes: &mut [u8]) {
    if bytes.len() >= 4 {
        let rest = (bytes.len() - 4) as u32;
        bytes[..4].copy_from_slice(&rest.to_be_bytes());
    }
}

/// A step with its unused places zero.
pub fn step(rule: u8, kind: u8, entries: &[u16], premises: &[u16]) -> Step {
    let mut step = Step { rule, kind, ..Step::default() };
    step.entries[..entries.len()].copy_from_slice(entries);
    step.premises[..premises.len()].copy_from_slice(premises);
    step
}

/// The sample of document 01.
pub fn sample() -> Draft {
    Draft {
        facts: 2,
        init: 0,
        goal: 3,
        actions: vec![
            Action { pre: 0, add: 1, del: 2, ..Action::NOTHING },
            Action { pre: 0, add: 2, del: 1, ..Action::NOTHING },
        ],
        action_sets: vec![DraftActions::All],
        state_sets: vec![
            DraftSet::Empty,
            DraftSet::Init,
            DraftSet::Goal,
            DraftSet::Explicit(vec![0, 1, 2]),
            DraftSet::Progression(3, 0),
            DraftSet::Union(3, 0),
            DraftSet::Intersection(3, 2),
        ],
        steps: vec![
            step(6, 0, &[0], &[]),
            step(2, 1, &[4, 5], &[]),
            step(1, 1, &[6, 0], &[]),
            step(8, 0, &[6], &[2, 0]),
            step(9, 0, &[3], &[1, 0, 3]),
            step(1, 1, &[1, 3], &[]),
            step(8, 0, &[1], &[5, 4]),
            step(13, 3, &[], &[6]),
        ],
        ..Draft::default()
    }
}
