//! An accepted file: which sets are dead and by which steps, which sets are closed under the actions,
//! and how many steps of which rules there are.

use crate::file::{File, StateSet, Step};
use crate::rules::{by_number, Rule, RULES};

/// A step of PG, PI, RG or RI: the set S that actions do not lead out of (PG, PI) or into (RG, RI),
/// but for the rest U, which is dead.
#[derive(Clone, Copy, Debug, PartialEq, Eq)]
pub struct Closure {
    pub step: usize,
    pub set: u16,
    pub rest: u16,
}

/// What the last step of an accepted file rests on.
#[derive(Clone, Debug, PartialEq, Eq)]
pub struct Argument {
    /// The other steps that the last one rests on, ascending.
    pub support: Vec<usize>,
    /// Those of them that say that a set is dead, with the set.
    pub dead: Vec<(usize, u16)>,
    /// Those of them that are PG, PI, RG or RI.
    pub closures: Vec<Closure>,
    /// The rules that steps go by, and how many of them do.
    pub rules: Vec<(&'static Rule, usize)>,
    /// How many steps, the last one aside, no step names as a premise.
    pub unnamed: usize,
}

/// The argument of an accepted file.
pub fn argument(file: &File) -> Argument {
    let last = file.steps.len() - 1;
    let mut needed = vec![false; file.steps.len()];
    let mut named = needed.clone();
    needed[last] = true;
    for number in (0..file.steps.len()).rev() {
        for premise in premises(&file.steps[number]) {
            named[*premise as usize] = true;
            needed[*premise as usize] |= needed[number];
        }
    }
    let support: Vec<usize> = (0..last).filter(|number| needed[*number]).collect();
    let dead = support.iter().filter(|number| file.steps[**number].kind == 0);
    let dead = dead.map(|number| (*number, file.steps[*number].entries[0])).collect();
    let closures = support.iter().filter_map(|number| closure(file, *number)).collect();
    let count = |rule: &Rule| file.steps.iter().filter(|step| step.rule == rule.number).count();
    let rules = RULES.iter().map(|rule| (rule, count(rule))).filter(|(_, count)| *count > 0).collect();
    let unnamed = named[..last].iter().filter(|named| !**named).count();
    Argument { support, dead, closures, rules, unnamed }
}

/// The premises that the step's rule uses.
fn premises(step: &Step) -> &[u16] {
    let used = by_number(step.rule).map_or(0, |rule| rule.premises as usize);
    &step.premises[..used]
}

/// S and U of a step by PG, PI, RG or RI, from its premises S[T]<S+U or [T]S<S+U, and U dead.
pub fn closure(file: &File, number: usize) -> Option<Closure> {
    let step = &file.steps[number];
    if !(9..=12).contains(&step.rule) {
        return None;
    }
    let whole = file.steps[step.premises[0] as usize].entries[1];
    let StateSet::Union(set, rest) = file.state_sets[whole as usize] else { return None };
    Some(Closure { step: number, set, rest })
}
