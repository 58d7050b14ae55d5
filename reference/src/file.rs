//! A file in decoded form: task, action sets, state sets and steps. The states and
//! clauses of all entries lie in two common lists; an entry holds its spans of them.

use crate::task::{State, Task};

/// The marks of a set of actions: action a is bit a mod 64 of word a / 64.
pub type Marks = [u64; 4];

#[derive(Clone, Copy, Debug, PartialEq, Eq)]
pub enum ActionSetKind {
    All,
    List,
    Union(u16, u16),
}

/// An action set (document 01: event set) with its marks worked out.
#[derive(Clone, Copy, Debug, PartialEq, Eq)]
pub struct ActionSet {
    pub kind: ActionSetKind,
    pub marks: Marks,
}

/// Met by a state with some positive fact on or some negative fact off.
#[derive(Clone, Copy, Debug, Default, PartialEq, Eq)]
pub struct Clause {
    pub positive: u64,
    pub negative: u64,
}

impl Clause {
    #[inline]
    pub fn met_by(&self, state: State) -> bool {
        (self.positive & state) | (self.negative & !state) != 0
    }

    /// At most one positive fact.
    pub fn is_horn(&self) -> bool {
        self.positive.count_ones() <= 1
    }

    /// At most two literals; a fact on both sides counts twice.
    pub fn is_two_literal(&self) -> bool {
        self.positive.count_ones() + self.negative.count_ones() <= 2
    }
}

/// A part of the common list of states or of clauses. A file has at most 8,191 of them, and as many copies.
#[derive(Clone, Copy, Debug, PartialEq, Eq)]
pub struct Span {
    pub from: u16,
    pub to: u16,
}

impl Span {
    pub fn new(from: usize, to: usize) -> Span {
        debug_assert!(to <= u16::MAX.into());
        Span { from: from as u16, to: to as u16 }
    }

    #[inline]
    pub fn of<'a, T>(&self, list: &'a [T]) -> &'a [T] {
        &list[self.from as usize..self.to as usize]
    }
}

/// The states of an explicit set: as the file lists them, in any order and with repeats, and each once, ascending. Both are one
/// span where the file lists them so.
#[derive(Clone, Copy, Debug, PartialEq, Eq)]
pub struct Listed {
    pub written: Span,
    pub ascending: Span,
}

/// A state set entry; references are entry numbers, in the order of the file.
#[derive(Clone, Copy, Debug, PartialEq, Eq)]
pub enum StateSet {
    Empty,
    Init,
    Goal,
    Explicit(Listed),
    Horn(Span),
    TwoCnf(Span),
    Complement(u16),
    Intersection(u16, u16),
    Union(u16, u16),
    /// S[A]: the state set S, then the action set A.
    Progression(u16, u16),
    /// [A]S: the state set S, then the action set A.
    Regression(u16, u16),
}

/// What a step states. In the file it is a kind and two entry numbers.
#[derive(Clone, Copy, Debug, PartialEq, Eq)]
pub enum Judgement {
    Dead(u16),
    Within(u16, u16),
    ActionsWithin(u16, u16),
    Unsolvable,
}

/// The twelve bytes of a step as they stand, lawful or not.
#[derive(Clone, Copy, Debug, Default, PartialEq, Eq)]
pub struct Step {
    pub rule: u8,
    pub kind: u8,
    pub entries: [u16; 2],
    pub premises: [u16; 3],
}

impl Step {
    /// The judgement, where its kind is known.
    #[inline]
    pub fn judgement(&self) -> Option<Judgement> {
        let [e, f] = self.entries;
        match self.kind {
            0 => Some(Judgement::Dead(e)),
            1 => Some(Judgement::Within(e, f)),
            2 => Some(Judgement::ActionsWithin(e, f)),
            3 => Some(Judgement::Unsolvable),
            _ => None,
        }
    }
}

#[derive(Clone, Debug, Default)]
pub struct File {
    pub task: Task,
    pub action_sets: Vec<ActionSet>,
    pub state_sets: Vec<StateSet>,
    pub steps: Vec<Step>,
    pub states: Vec<State>,
    pub clauses: Vec<Clause>,
}

impl File {
    /// The kind and marks of an action set over earlier entries.
    pub fn union_marks(&self, a: u16, b: u16) -> Marks {
        let (x, y) = (self.action_sets[a as usize].marks, self.action_sets[b as usize].marks);
        [x[0] | y[0], x[1] | y[1], x[2] | y[2], x[3] | y[3]]
    }

    /// The marks of the set of all actions.
    pub fn all_marks(&self) -> Marks {
        let mut marks = [0; 4];
        for action in 0..self.task.actions.len() {
            mark(&mut marks, action);
        }
        marks
    }

    /// The states from here to the end of the common list as those of an explicit set; where they do not ascend, a copy that
    /// does is put behind them.
    pub fn listed(&mut self, from: usize) -> Listed {
        let to = self.states.len();
        let written = Span::new(from, to);
        if self.states[from..].is_sorted_by(|a, b| a < b) {
            return Listed { written, ascending: written };
        }
        self.states.extend_from_within(from..);
        self.states[to..].sort_unstable();
        let mut end = to + 1;
        for k in to + 1..self.states.len() {
            let state = self.states[k];
            if self.states[end - 1] != state {
                self.states[end] = state;
                end += 1;
            }
        }
        self.states.truncate(end);
        Listed { written, ascending: Span::new(to, end) }
    }

    /// The states of an explicit set, each once, ascending.
    #[inline]
    pub fn ascending(&self, listed: Listed) -> &[State] {
        listed.ascending.of(&self.states)
    }

    /// Whether a state is in an entry of kinds 0 to 5; other kinds hold nothing here.
    #[inline]
    pub fn base_holds(&self, set: StateSet, state: State) -> bool {
        match set {
            StateSet::Init => self.task.is_init(state),
            StateSet::Goal => self.task.is_goal(state),
            StateSet::Explicit(listed) => self.ascending(listed).binary_search(&state).is_ok(),
            StateSet::Horn(span) | StateSet::TwoCnf(span) => {
                span.of(&self.clauses).iter().all(|c| c.met_by(state))
            }
            _ => false,
        }
    }
}

#[inline]
pub fn mark(marks: &mut Marks, action: usize) {
    marks[action / 64] |= 1 << (action % 64);
}

#[inline]
pub fn marked(marks: &Marks, action: usize) -> bool {
    marks[action / 64] >> (action % 64) & 1 == 1
}

/// The numbers of the marked actions, ascending.
pub fn marked_actions(marks: Marks) -> impl Iterator<Item = usize> {
    (0..4usize).flat_map(move |w| {
        let mut word = marks[w];
        std::iter::from_fn(move || {
            if word == 0 {
                return None;
            }
            let bit = word.trailing_zeros() as usize;
            word &= word - 1;
            Some(w * 64 + bit)
        })
    })
}
