//! How much work a file can make: for each basic statement over clauses, at most how often a look
//! at a left clause is taken while it is checked (docs/DECISIONS.md has the formula and a rate).

use crate::fault::Fault;
use crate::file::{File, StateSet};
use crate::layout;
use crate::shape::{self, Bracket, Method, Statement};

/// A step's statement and its looks.
#[derive(Clone, Copy, Debug, PartialEq, Eq)]
pub struct Cost {
    pub step: usize,
    pub looks: u64,
}

/// The costs of the statements whose shape is permitted, in the order of the steps.
pub fn of(bytes: &[u8]) -> Result<Vec<Cost>, Fault> {
    let file = layout::read(bytes)?;
    let cost = |step: usize| {
        let fields = &file.steps[step];
        let there = fields.entries.iter().all(|entry| (*entry as usize) < file.state_sets.len());
        if !(1..=4).contains(&fields.rule) || !there {
            return None;
        }
        let statement = shape::of(&file, fields).ok()?;
        (statement.method != Method::Explicit).then(|| Cost { step, looks: looks(&file, &statement) })
    };
    Ok((0..file.steps.len()).filter_map(cost).collect())
}

/// For each action, L · ((n+1) + [two-literal] · (n(n+1)/2 + n) + n·R0 + n·R0·R1).
fn looks(file: &File, statement: &Statement) -> u64 {
    let n = file.task.facts as u64;
    let Statement { left, inside, right, bracket, method } = statement;
    let all: u64 = left.all().iter().chain(inside.all()).map(clauses).sum();
    let mut right = right.all().iter().filter(|set| **set != StateSet::Empty).map(clauses);
    let (first, second) = (right.next().unwrap_or(1), right.next().unwrap_or(1));
    let search = if *method == Method::TwoCnf { n * (n + 1) / 2 + n } else { 0 };
    let actions = match bracket {
        Bracket::None => 1,
        Bracket::Progression(marks) | Bracket::Regression(marks) => {
            marks.iter().map(|word| word.count_ones() as u64).sum()
        }
    };
    actions * all * (n + 1 + search + n * first + n * first * second)
}

/// How many clauses a leaf has: the empty set one, the initial states and the goal one for each of
/// 64 facts.
fn clauses(set: &StateSet) -> u64 {
    match set {
        StateSet::Init | StateSet::Goal => 64,
        StateSet::Horn(span) | StateSet::TwoCnf(span) => (span.to - span.from) as u64,
        _ => 1,
    }
}
