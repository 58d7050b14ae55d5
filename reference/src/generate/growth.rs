//! Certificates of one form in every size up to the limits, to see how times grow. All are
//! accepted.

use crate::draft::Draft;
use crate::file::Clause;
use crate::generate::builder::Builder;
use crate::generate::certificates::{by_pg, finish, kind};
use crate::generate::limits::{climbing, shuffle};
use crate::generate::random::Random;
use crate::shape::Method;
use crate::task::Task;

pub use crate::generate::limits::{listed_cube as listed, many_rules as rules};

/// How many of the facts before it a fact needs.
const NEEDED: usize = 5;

/// So many clauses, 16 to 256, that are Horn and two-literal: facts in a row of which each is
/// on only with the five before it, and facts that are never on. Actions climb and fall.
pub fn clauses(random: &mut Random, method: Method, count: usize, actions: usize) -> Draft {
    let mut facts: Vec<u64> = (0..64).map(|f| 1 << f).collect();
    shuffle(random, &mut facts);
    // The first five of the row have fewer before them, 1 + .. + 5 clauses in all less. One
    // clause at least is left for the goal, a fact that is never on.
    let row = (count - 1 + NEEDED * (NEEDED + 1) / 2) / NEEDED;
    let mut clauses = Vec::new();
    for k in 0..row {
        let before = &facts[k.saturating_sub(NEEDED)..k];
        clauses.extend(before.iter().map(|fact| Clause { positive: *fact, negative: facts[k] }));
    }
    let never = &facts[row..row + count - clauses.len()];
    clauses.extend(never.iter().map(|fact| Clause { positive: 0, negative: *fact }));
    shuffle(random, &mut clauses);
    let actions = (0..actions).map(|_| climbing(random, &facts[..row])).collect();
    let task = Task { facts: 64, init: facts[0], goal: never[0], actions, ..Task::default() };
    let mut b = Builder::new(task, random);
    let s = b.clauses(kind(method), &clauses);
    let ending = by_pg(&mut b, s);
    finish(&mut b, ending);
    Draft::of(&b.file)
}
