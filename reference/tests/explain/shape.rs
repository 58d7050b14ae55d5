//! Reply 10: the leaf, count, kind or form that is told really is not permitted, looked at again by
//! plain recursion over the sets.

use crate::common::{kind, leaves, literal};
use crate::{explained, explained_step, Tally};
use reference::draft::{Draft, DraftSet};
use reference::explain::shape::{Leaf, PairFault, ShapeFault, Side};
use reference::explain::Why;
use reference::file::{Judgement, Step};
use reference::generate::applications::{add_compounds, add_pool, basic};
use reference::generate::builder::Builder;
use reference::generate::limits::many_state_sets;
use reference::generate::random::Random;
use reference::generate::tasks;
use reference::generate::unknown::unknown;
use reference::layout;
use reference::Reply;

/// A step of a file and the trees of its two sides.
struct Statement<'a> {
    draft: &'a Draft,
    rule: u8,
    left: Vec<u16>,
    right: Vec<u16>,
}

impl Statement<'_> {
    fn of<'a>(draft: &'a Draft, step: &Step) -> Statement<'a> {
        let (mut left, mut right) = (Vec::new(), Vec::new());
        leaves(draft, step.entries[0], 7, &mut left);
        leaves(draft, step.entries[1], 8, &mut right);
        if step.rule == 4 {
            (left, right) = (vec![step.entries[0]], vec![step.entries[1]]);
        }
        Statement { draft, rule: step.rule, left, right }
    }

    fn side(&self, side: Side) -> &[u16] {
        match side {
            Side::Left => &self.left,
            Side::Right => &self.right,
        }
    }

    /// The set in the brackets of a progression for B2, of a regression for B3.
    fn bracketed(&self, entry: u16) -> Option<u16> {
        match (self.rule, &self.draft.state_sets[entry as usize]) {
            (2, DraftSet::Progression(s, _)) | (3, DraftSet::Regression(s, _)) => Some(*s),
            _ => None,
        }
    }

    /// The left leaves that are brackets.
    fn brackets(&self) -> Vec<u16> {
        self.left.iter().copied().filter(|leaf| self.bracketed(*leaf).is_some()).collect()
    }

    /// The leaves inside all brackets.
    fn inside(&self) -> Vec<u16> {
        let mut list = Vec::new();
        for set in self.left.iter().filter_map(|leaf| self.bracketed(*leaf)) {
            leaves(self.draft, set, 7, &mut list);
        }
        list
    }

    /// The kind of a literal, without its complement.
    fn kind(&self, entry: u16) -> u8 {
        literal(self.draft, entry).expect("a literal").0
    }

    fn complemented(&self, entry: u16) -> bool {
        literal(self.draft, entry).expect("a literal").1
    }

    /// The literals that end up on a side once complements have moved: those of the side itself that
    /// are no complements, and those of the other that are.
    fn moved(&self, side: Side) -> Vec<u16> {
        let outside = |side| self.side(side).iter().copied().filter(|leaf| self.bracketed(*leaf).is_none());
        let (here, there) = match side {
            Side::Left => (Side::Left, Side::Right),
            Side::Right => (Side::Right, Side::Left),
        };
        let stay = outside(here).filter(|leaf| !self.complemented(*leaf));
        stay.chain(outside(there).filter(|leaf| self.complemented(*leaf))).collect()
    }

    /// Whether a list of states is in the statement.
    fn has_list(&self) -> bool {
        self.literals().iter().any(|leaf| self.kind(*leaf) == 3)
    }

    /// All literals, those inside brackets too.
    fn literals(&self) -> Vec<u16> {
        let left = self.left.iter().copied().filter(|leaf| self.bracketed(*leaf).is_none());
        left.chain(self.inside()).chain(self.right.iter().copied()).collect()
    }
}

fn entries(leaves: &[Leaf]) -> Vec<u16> {
    sorted(leaves.iter().map(|leaf| leaf.entry).collect())
}

fn sorted(mut list: Vec<u16>) -> Vec<u16> {
    list.sort_unstable();
    list
}

/// Whether what is told is so.
fn is_so(st: &Statement, fault: &ShapeFault) -> bool {
    match fault {
        ShapeFault::TooManyLeaves { side, outside, inside } => {
            let within = if *side == Side::Left { st.inside().len() } else { 0 };
            let brackets = if *side == Side::Left { st.brackets().len() } else { 0 };
            (*outside, *inside) == (st.side(*side).len() - brackets, within) && outside + inside > 8
        }
        ShapeFault::NoLiteral { side, leaf } => {
            let bracket = *side == Side::Left && st.bracketed(*leaf).is_some();
            st.side(*side).contains(leaf) && literal(st.draft, *leaf).is_none() && !bracket
        }
        ShapeFault::NoBracket => [2, 3].contains(&st.rule) && st.brackets().is_empty(),
        ShapeFault::TwoBrackets { first, second } => st.brackets().get(..2) == Some(&[*first, *second]),
        ShapeFault::Inside { bracket, leaf } => {
            let mut inside = Vec::new();
            leaves(st.draft, st.bracketed(*bracket).expect("a bracket"), 7, &mut inside);
            let no_base = kind(&st.draft.state_sets[*leaf as usize]) > 5;
            st.left.contains(bracket) && inside.contains(leaf) && no_base
        }
        ShapeFault::KindsMeet { first, second } => kinds_meet(st, first.entry, second.entry),
        ShapeFault::TooManyRight { leaves } => {
            let right = st.moved(Side::Right).into_iter().filter(|leaf| st.kind(*leaf) != 0);
            leaves.len() > 2 && entries(leaves) == sorted(right.collect()) && !st.has_list()
        }
        ShapeFault::NoListed { leaves } => {
            let there = if st.rule == 2 { st.inside() } else { st.moved(Side::Left) };
            let few = (0..64).filter(|f| st.draft.unknown >> f & 1 == 1).count() <= 12;
            let leave = |kind: u8| [0, 3].contains(&kind) || (kind == 1 && few);
            let listed = there.iter().any(|leaf| leave(st.kind(*leaf)));
            entries(leaves) == sorted(there) && !listed && st.has_list()
        }
        ShapeFault::Pair(fault) => st.rule == 4 && pair_is_so(st, fault),
    }
}

fn kinds_meet(st: &Statement, first: u16, second: u16) -> bool {
    let there = |leaf: u16| st.literals().contains(&leaf) && (3..=5).contains(&st.kind(leaf));
    there(first) && there(second) && st.kind(first) != st.kind(second)
}

/// Whether what is told of two literals is so.
fn pair_is_so(st: &Statement, fault: &PairFault) -> bool {
    let told = |leaf: &Leaf, entry: u16| leaf.entry == entry && leaf.complemented == st.complemented(entry);
    let (left, right) = (st.left[0], st.right[0]);
    match fault {
        PairFault::Kind { side, leaf } => st.side(*side) == [leaf.entry] && st.kind(leaf.entry) < 3,
        PairFault::Alike { left: x, right: y } => {
            told(x, left) && told(y, right) && st.kind(left) == st.kind(right)
        }
        PairFault::List { list } => {
            let on_the_right = if list.complemented { left } else { right };
            told(list, on_the_right) && st.kind(on_the_right) == 3
        }
        PairFault::Disjoint { left: x, right: y } => {
            let clauses = [left, right].iter().all(|leaf| [4, 5].contains(&st.kind(*leaf)));
            told(x, left) && told(y, right) && clauses && !x.complemented && y.complemented
        }
    }
}

/// The fault's name, and the entries that the text has to name.
fn named(fault: &ShapeFault) -> (&'static str, Vec<u16>) {
    match fault {
        ShapeFault::TooManyLeaves { .. } => ("too many leaves", vec![]),
        ShapeFault::NoLiteral { leaf, .. } => ("no literal", vec![*leaf]),
        ShapeFault::NoBracket => ("no bracket", vec![]),
        ShapeFault::TwoBrackets { first, second } => ("two brackets", vec![*first, *second]),
        ShapeFault::Inside { bracket, leaf } => ("inside", vec![*bracket, *leaf]),
        ShapeFault::KindsMeet { first, second } => ("kinds meet", vec![first.entry, second.entry]),
        ShapeFault::TooManyRight { leaves } => ("too many right", leaves.iter().map(|l| l.base).collect()),
        ShapeFault::NoListed { leaves } => ("no listed", leaves.iter().map(|l| l.base).collect()),
        ShapeFault::Pair(PairFault::Kind { leaf, .. }) => ("pair kind", vec![leaf.entry]),
        ShapeFault::Pair(PairFault::Alike { left, right }) => ("pair alike", vec![left.entry, right.entry]),
        ShapeFault::Pair(PairFault::List { list }) => ("pair list", vec![list.base]),
        ShapeFault::Pair(PairFault::Disjoint { left, right }) => {
            ("pair disjoint", vec![left.entry, right.entry])
        }
    }
}

/// Basic statements of all shapes, and any two entries at all.
fn statements(seed: u64) -> (Draft, Vec<Step>) {
    let mut random = Random::new(seed);
    let (task, _) = tasks::reachable(&mut random, 4, 16);
    let mut b = Builder::new(task, &mut random);
    add_pool(&mut b);
    add_pool(&mut b);
    for _ in 0..6 {
        let (rule, judgement) = basic(&mut b);
        b.step(rule, judgement, &[]);
    }
    add_compounds(&mut b, 8);
    for _ in 0..3 {
        let sets = b.file.state_sets.len();
        let [e, f] = [b.random.below(sets), b.random.below(sets)].map(|e| e as u16);
        let rule = b.random.between(1, 4) as u8;
        b.step(rule, Judgement::Within(e, f), &[]);
    }
    (Draft::of(&b.file), b.file.steps)
}

#[test]
fn what_is_told_is_not_permitted() {
    let mut seen: Tally<(u8, &'static str)> = Tally::new();
    for seed in 0..2500 {
        let (mut draft, steps) = statements(seed);
        for step in steps {
            let explained = explained_step(&mut draft, step);
            let Why::Shape(fault) = &explained.why else {
                assert!(!matches!(explained.reply, Reply::Refused { number: 10, .. }));
                continue;
            };
            assert!(is_so(&Statement::of(&draft, &step), fault), "{fault:?}\n{}", explained.text);
            let (name, entries) = named(fault);
            let told = |entry: &u16| {
                [' ', ','].iter().any(|end| explained.text.contains(&format!("set {entry}{end}")))
            };
            assert!(entries.iter().all(told), "{fault:?}\n{}", explained.text);
            seen.add((step.rule, name));
        }
    }
    for rule in [2, 3] {
        seen.each_at_least(30, ["no bracket", "two brackets", "inside"].map(|name| (rule, name)));
    }
    for rule in [1, 2, 3] {
        let names = ["too many leaves", "no literal", "kinds meet", "too many right", "no listed"];
        seen.each_at_least(30, names.map(|name| (rule, name)));
    }
    let names = ["no literal", "pair kind", "pair alike", "pair list", "pair disjoint"];
    seen.each_at_least(30, names.map(|name| (4, name)));
}

/// With more than 12 unknown facts init gives no leave, and that is told.
#[test]
fn init_with_many_unknown_facts() {
    let mut seen: Tally<(u8, bool)> = Tally::new();
    for case in unknown(38, 4000).filter(|case| case.is_check()) {
        let Ok(file) = layout::read(&case.bytes) else { continue };
        let explained = explained(&case.bytes);
        let (Why::Shape(fault), Reply::Refused { place, .. }) = (&explained.why, explained.reply) else {
            continue;
        };
        let (draft, step) = (Draft::of(&file), file.steps[place as usize]);
        assert!(is_so(&Statement::of(&draft, &step), fault), "{fault:?}\n{}", explained.text);
        let ShapeFault::NoListed { leaves } = fault else { continue };
        let init = leaves.iter().any(|leaf| draft.state_sets[leaf.base as usize] == DraftSet::Init);
        let count = draft.unknown.count_ones();
        let told = format!("\nInit does only with at most 12 unknown facts: here {count} are, for ");
        assert_eq!(explained.text.contains(&told), init, "{}", explained.text);
        assert!(!init || count > 12, "{}", explained.text);
        seen.add((step.rule, init));
    }
    seen.each_at_least(20, [(1, true), (2, true), (3, true)]);
    seen.each_at_least(4, [(1, false), (2, false), (3, false)]);
}

/// A tree of two to the power 505 leaves: they are counted, and not gone through.
#[test]
fn leaves_without_number() {
    let explained = explained(&many_state_sets(0));
    let many = ShapeFault::TooManyLeaves { side: Side::Left, outside: 1_000_000, inside: 0 };
    assert_eq!(explained.why, Why::Shape(many));
    assert!(explained.text.contains("The left side has at least 1000000 leaves; at most 8 are permitted.\n"));
}
