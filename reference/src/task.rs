//! The planning task: facts, states, actions, and what an action does to a state.
//! The documents say table for task, event for action, needs, sets, clears and needs-off for
//! pre, add, del and off, start for init, forbidden and forbidden-off mask for goal and goal_off.

/// A set of facts; fact f is the bit of weight 2 to the power f.
pub type State = u64;

#[derive(Clone, Copy, Debug, Default, PartialEq, Eq)]
pub struct Action {
    pub pre: u64,
    pub add: u64,
    pub del: u64,
    /// The facts that have to be off before it (document 02, j); versions 1 and 2 have none.
    pub off: u64,
}

impl Action {
    /// Applies everywhere and changes nothing.
    pub const NOTHING: Action = Action { pre: 0, add: 0, del: 0, off: 0 };

    /// Whether all facts of `pre` are on and all of `off` are off.
    #[inline]
    pub fn applies(&self, state: State) -> bool {
        meets(state, self.pre, self.off)
    }

    /// Whether it applies nowhere: it needs a fact both on and off.
    #[inline]
    pub fn never_applies(&self) -> bool {
        self.pre & self.off != 0
    }

    /// Deletes first, then adds: a fact in both ends on.
    #[inline]
    pub fn after(&self, state: State) -> State {
        (state & !self.del) | self.add
    }
}

/// Whether all of the facts `on` are on and all of the facts `off` are off.
#[inline]
fn meets(state: State, on: u64, off: u64) -> bool {
    state & on == on && state & off == 0
}

/// An action made ready for many states: one look tells whether it applies.
#[derive(Clone, Copy, Debug, PartialEq, Eq)]
pub struct Ready {
    /// The facts that it needs on or off.
    looks: u64,
    pre: u64,
    keeps: u64,
    add: u64,
}

impl Ready {
    /// Applies everywhere and changes nothing.
    pub const NOTHING: Ready = Ready { looks: 0, pre: 0, keeps: u64::MAX, add: 0 };

    /// None for an action that never applies.
    pub fn of(action: &Action) -> Option<Ready> {
        let Action { pre, add, del, off } = *action;
        (!action.never_applies()).then_some(Ready { looks: pre | off, pre, keeps: !del, add })
    }

    #[inline]
    pub fn applies(&self, state: State) -> bool {
        state & self.looks == self.pre
    }

    /// As `Action::after`.
    #[inline]
    pub fn after(&self, state: State) -> State {
        (state & self.keeps) | self.add
    }
}

#[derive(Clone, Debug, PartialEq, Eq)]
pub struct Task {
    /// The version of the file that it stands in.
    pub version: u8,
    /// The number n of facts, 1 to 64.
    pub facts: u8,
    /// The facts that are on in every initial state.
    pub init: State,
    /// The facts that may be on or off in an initial state (document 02, d); init has none of them, and version 1 has none at all.
    pub unknown: u64,
    /// The facts that are on in every goal state.
    pub goal: u64,
    /// The facts that are off in every goal state (document 02, j); versions 1 and 2 have none.
    pub goal_off: u64,
    pub actions: Vec<Action>,
}

impl Default for Task {
    fn default() -> Task {
        Task { version: 1, facts: 0, init: 0, unknown: 0, goal: 0, goal_off: 0, actions: Vec::new() }
    }
}

impl Task {
    /// The mask of all facts below n.
    #[inline]
    pub fn all_facts(&self) -> u64 {
        all_facts(self.facts)
    }

    #[inline]
    pub fn is_goal(&self, state: State) -> bool {
        meets(state, self.goal, self.goal_off)
    }

    /// Whether the state agrees with init on all known facts.
    #[inline]
    pub fn is_init(&self, state: State) -> bool {
        state & !self.unknown == self.init
    }

    /// The facts that are off in every initial state.
    #[inline]
    pub fn init_off(&self) -> u64 {
        self.all_facts() & !self.init & !self.unknown
    }

    /// The initial states, ascending.
    #[inline]
    pub fn inits(&self) -> Inits {
        Inits { init: self.init, unknown: self.unknown, next: Some(0) }
    }
}

/// The initial states one by one, none of them kept.
#[derive(Clone, Debug)]
pub struct Inits {
    init: State,
    unknown: u64,
    /// The unknown facts that are on in the next state.
    next: Option<u64>,
}

impl Iterator for Inits {
    type Item = State;

    /// Counts through the bits of the mask alone: the others are on for the carry to pass, and off in what is counted.
    #[inline]
    fn next(&mut self) -> Option<State> {
        let on = self.next?;
        self.next = (on != self.unknown).then(|| (on | !self.unknown).wrapping_add(1) & self.unknown);
        Some(self.init | on)
    }
}

/// The mask of the facts below `count`; all of them from 64 on.
#[inline]
pub fn all_facts(count: u8) -> u64 {
    if count >= 64 {
        u64::MAX
    } else {
        (1u64 << count) - 1
    }
}
