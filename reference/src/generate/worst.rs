//! The dearest statements over clauses that fit into a file, as docs/DECISIONS.md counts
//! them. Most left clauses stay open at every look. The others are the links of a chain, in an
//! order in which each look at all clauses settles one fact or two; the contradiction stands at
//! the chain's end. All files are accepted.

use crate::draft::{sample, step, Draft, DraftSet};
use crate::file::Clause;
use crate::layout::MAX_CLAUSES;
use crate::shape::Method;
use crate::task::Action;

/// How many leaves of 256 clauses stand on the left: as written, and moved there from the
/// right, where they are complements.
#[derive(Clone, Copy)]
pub struct Left {
    pub written: usize,
    pub complements: usize,
}

/// Where the links of the chain stand among the left clauses.
#[derive(Clone, Copy, Debug, PartialEq, Eq)]
pub enum Order {
    /// All in the last leaf, from the chain's end to its beginning.
    LastLeaf,
    /// Dealt out to the leaves from the last to the first, again and again, in each leaf from its
    /// end on: a look at one leaf until nothing changes there settles one fact too.
    Backwards,
    /// By turns at the end of the last leaf and at the beginning of the first: a look from the
    /// last clause to the first settles no more than one from the first to the last.
    Ends,
}

impl Order {
    pub const ALL: [Order; 3] = [Order::LastLeaf, Order::Backwards, Order::Ends];

    /// The place of a link among those of so many leaves, of which the last few are taken.
    fn place(self, link: usize, leaves: usize, taken: usize) -> usize {
        let free = leaves * MAX_CLAUSES - taken;
        match self {
            Order::LastLeaf => free - 1 - link,
            Order::Backwards => {
                let (round, leaf) = (link / leaves, leaves - 1 - link % leaves);
                ((leaf + 1) * MAX_CLAUSES).min(free) - 1 - round
            }
            Order::Ends if link % 2 == 0 => free - 1 - link / 2,
            Order::Ends => link / 2,
        }
    }
}

/// B1: the left leaves within the union of two right ones with so many clauses. For each
/// clause of the first and each of the second the whole chain is gone through, until it
/// ends in a contradiction.
pub fn two_right_leaves(method: Method, left: Left, order: Order, right: [usize; 2]) -> Draft {
    let mut d = base(0);
    let (links, closing) = chain();
    let clauses = left_clauses(left, order, &links, &closing);
    let (inside, mut others) = left_entries(&mut d, method, left, &clauses);
    others.extend(right_leaves(&mut d, method, right));
    let right = tree(&mut d, &others, DraftSet::Union);
    d.steps.insert(7, step(1, 1, &[inside, right], &[]));
    d
}

/// B2: the left leaves, two-literal and without a model, in the bracket of so many actions,
/// within the empty set. For each action each fact is tried off, and the chain from it to
/// the contradiction gone through.
pub fn no_model(left: Left, order: Order, actions: usize) -> Draft {
    let mut d = base(actions);
    // A fact that is off puts off the next one; 62 and 63, the open clauses' facts, fit in no way.
    let (last, other) = (62, 63);
    let links: Vec<Clause> = (0..last).map(|f| clause(&[f], &[f + 1])).collect();
    let closing = [clause(&[last, other], &[]), clause(&[last], &[other]), clause(&[other], &[last])];
    let clauses = left_clauses(left, order, &links, &closing);
    let (inside, mut others) = left_entries(&mut d, Method::TwoCnf, left, &clauses);
    let led = add(&mut d, DraftSet::Progression(inside, 0));
    others.push(0);
    let right = tree(&mut d, &others, DraftSet::Union);
    d.steps.insert(7, step(2, 1, &[led, right], &[]));
    d
}

/// The file that keeps a checker busy longest, as far as we know: so many steps of B2 by so many
/// actions, each with fourteen left leaves and two right ones with so many clauses. A leaf may be
/// named again and again, so that one entry of open clauses stands for thirteen leaves.
pub fn busiest(method: Method, steps: usize, actions: usize, right: [usize; 2]) -> Draft {
    let mut d = base(actions);
    d.actions.fill(Action::NOTHING);
    let one = Left { written: 1, complements: 0 };
    let (links, closing) = chain();
    let chained = add(&mut d, set(method, left_clauses(one, Order::LastLeaf, &links, &closing)));
    let open = add(&mut d, set(method, left_clauses(one, Order::LastLeaf, &[], &[])));
    let inside = tree(&mut d, &[open, open, open, open, open, open, open, chained], DraftSet::Intersection);
    let led = add(&mut d, DraftSet::Progression(inside, 0));
    let mut others = vec![add(&mut d, DraftSet::Complement(open)); 6];
    others.extend(right_leaves(&mut d, method, right));
    let union = tree(&mut d, &others, DraftSet::Union);
    let statements = vec![step(2, 1, &[led, union], &[]); steps];
    d.steps.splice(7..7, statements);
    d
}

/// The links of a chain of the facts 0 to 59, in its order, and what closes it: when its last fact is
/// on, so is fact 60, and it is not.
fn chain() -> (Vec<Clause>, [Clause; 2]) {
    let (end, torn) = (59, 60);
    let links = (0..end).map(|f| clause(&[f + 1], &[f])).collect();
    (links, [clause(&[torn], &[end]), clause(&[], &[torn, end])])
}

/// The right leaves: the first fails where a spare fact is on, the second where the chain begins.
fn right_leaves(d: &mut Draft, method: Method, right: [usize; 2]) -> [u16; 2] {
    [(right[0], 61), (right[1], 0)]
        .map(|(count, fact)| add(d, set(method, vec![clause(&[], &[fact]); count])))
}

/// The sample over 64 facts, with actions that do nothing up to so many.
fn base(actions: usize) -> Draft {
    let mut d = sample();
    d.facts = 64;
    d.actions.resize(actions.max(d.actions.len()), Action::NOTHING);
    d
}

/// The clauses of all left leaves: the closing ones last, the links in this order, and clauses
/// that stay open everywhere else.
fn left_clauses(left: Left, order: Order, links: &[Clause], closing: &[Clause]) -> Vec<Clause> {
    let leaves = left.written + left.complements;
    let mut clauses = vec![clause(&[], &[62, 63]); leaves * MAX_CLAUSES];
    let free = clauses.len() - closing.len();
    clauses[free..].copy_from_slice(closing);
    for (link, clause) in links.iter().enumerate() {
        clauses[order.place(link, leaves, closing.len())] = *clause;
    }
    clauses
}

/// Adds the left leaves: the intersection of those written on the left, and the complements.
fn left_entries(d: &mut Draft, method: Method, left: Left, clauses: &[Clause]) -> (u16, Vec<u16>) {
    let leaves = clauses.chunks(MAX_CLAUSES).map(|leaf| add(d, set(method, leaf.to_vec())));
    let mut leaves: Vec<u16> = leaves.collect();
    let moved = leaves.split_off(left.written);
    let inside = tree(d, &leaves, DraftSet::Intersection);
    (inside, moved.into_iter().map(|leaf| add(d, DraftSet::Complement(leaf))).collect())
}

fn add(d: &mut Draft, set: DraftSet) -> u16 {
    d.state_sets.push(set);
    (d.state_sets.len() - 1) as u16
}

/// The entry that joins all these, of which there is one at least.
fn tree(d: &mut Draft, entries: &[u16], join: fn(u16, u16) -> DraftSet) -> u16 {
    entries[1..].iter().fold(entries[0], |root, entry| add(d, join(root, *entry)))
}

fn set(method: Method, clauses: Vec<Clause>) -> DraftSet {
    match method {
        Method::TwoCnf => DraftSet::TwoCnf(clauses),
        _ => DraftSet::Horn(clauses),
    }
}

/// The clause with these facts positive and these negative.
fn clause(positive: &[u8], negative: &[u8]) -> Clause {
    let mask = |facts: &[u8]| facts.iter().fold(0, |mask, fact| mask | 1u64 << fact);
    Clause { positive: mask(positive), negative: mask(negative) }
}
