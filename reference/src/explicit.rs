//! Truth of statements with a listed set: go through the states of the smallest listed
//! leaf, each once and ascending, and look for a counterexample.

use crate::file::{marked_actions, File, StateSet};
use crate::shape::{is_listed, Bracket, Leaves, Statement};
use crate::task::{Ready, State};

/// Whether the statement holds over all states.
pub fn holds(file: &File, st: &Statement) -> bool {
    let listing = match st.bracket {
        Bracket::Progression(_) => &st.inside,
        _ => &st.left,
    };
    match smallest(file, listing.all()) {
        Some(StateSet::Init) => holds_from(file, st, file.task.inits()),
        Some(StateSet::Explicit(states)) => holds_from(file, st, file.ascending(states).iter().copied()),
        _ => true,
    }
}

/// Whether no counterexample begins with one of these states, which are those of a leaf.
fn holds_from(file: &File, st: &Statement, states: impl Iterator<Item = State> + Clone) -> bool {
    match st.bracket {
        Bracket::None => !leads_outside(file, st, &Ready::NOTHING, states),
        Bracket::Progression(marks) => {
            let others = st.inside.all().len() > 1;
            let within = |s: &State| !others || in_all(file, &st.inside, *s);
            chosen(file, marks).iter().all(|a| !leads_outside(file, st, a, states.clone().filter(within)))
        }
        Bracket::Regression(marks) => {
            let actions = chosen(file, marks);
            let leads_in =
                |s: State| actions.iter().any(|a| a.applies(s) && in_all(file, &st.inside, a.after(s)));
            { states }.all(|s| !outside(file, st, s) || !leads_in(s))
        }
    }
}

/// Whether the action leads from one of the states to a counterexample. Where a state goes
/// to is looked for next to where the one before it went.
fn leads_outside(file: &File, st: &Statement, a: &Ready, states: impl Iterator<Item = State>) -> bool {
    let mut near = 0;
    let listed = match st.right.all().first() {
        Some(StateSet::Explicit(states)) => file.ascending(*states),
        _ => &[],
    };
    states.filter(|s| a.applies(*s)).any(|s| {
        let t = a.after(s);
        match find(listed, near, t) {
            Some(k) => {
                near = k + 1;
                false
            }
            None => outside(file, st, t),
        }
    })
}

/// Where the state stands in the ascending list, looked for from a guess in growing steps.
fn find(list: &[State], guess: usize, state: State) -> Option<usize> {
    let within = |lo: usize, hi: usize, k: usize| if lo <= k && k < hi { k } else { lo + (hi - lo) / 2 };
    let (mut lo, mut hi, mut step) = (0, list.len(), 1);
    let mut middle = within(lo, hi, guess);
    while lo < hi {
        let found = list[middle];
        if found == state {
            return Some(middle);
        }
        if found < state {
            lo = middle + 1;
            middle = within(lo, hi, middle + step);
        } else {
            hi = middle;
            middle = within(lo, hi, middle.wrapping_sub(step));
        }
        step *= 2;
    }
    None
}

/// The marked actions that apply somewhere.
fn chosen(file: &File, marks: crate::file::Marks) -> Vec<Ready> {
    marked_actions(marks).filter_map(|a| Ready::of(&file.task.actions[a])).collect()
}

fn in_all(file: &File, leaves: &Leaves, state: State) -> bool {
    leaves.all().iter().all(|&set| file.base_holds(set, state))
}

/// Whether the state is in all left leaves and in no right leaf.
fn outside(file: &File, st: &Statement, state: State) -> bool {
    in_all(file, &st.left, state) && !st.right.all().iter().any(|&set| file.base_holds(set, state))
}

/// The set with the fewest states among those that give them one by one, where there is one.
pub fn smallest(file: &File, sets: &[StateSet]) -> Option<StateSet> {
    let count = |set: &StateSet| match set {
        StateSet::Init => 1 << file.task.unknown.count_ones(),
        StateSet::Explicit(states) => file.ascending(*states).len(),
        _ => 0,
    };
    let listed = sets.iter().filter(|set| is_listed(&file.task, set));
    listed.min_by_key(|set| count(set)).copied()
}
