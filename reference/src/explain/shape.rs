//! Reply 10: the leaves of a basic statement B1 to B4 by their entry numbers, and which leaf, count,
//! kind or form is not permitted.

use crate::file::{File, StateSet, Step};

/// Each side has at most this many leaves, as written.
pub const MAX_LEAVES: usize = 8;
/// Over clauses, at most this many leaves stand on the moved right.
pub const MAX_RIGHT: usize = 2;
/// A tree may name its parts again and again; leaves are counted up to here.
pub const MANY: usize = 1_000_000;

/// A literal as it is written: an entry, and the entry of kinds 0 to 5 that it is or complements.
#[derive(Clone, Copy, Debug, PartialEq, Eq)]
pub struct Leaf {
    pub entry: u16,
    pub base: u16,
    pub complemented: bool,
}

/// The left leaf of B2 or B3 that is a progression or regression: its entry, the leaves inside it
/// and its action set.
#[derive(Clone, Debug, PartialEq, Eq)]
pub struct Bracket {
    pub entry: u16,
    pub inside: Vec<Leaf>,
    pub actions: u16,
}

/// The leaves of a statement as they are written.
#[derive(Clone, Debug, PartialEq, Eq)]
pub struct Sides {
    pub left: Vec<Leaf>,
    pub bracket: Option<Bracket>,
    pub right: Vec<Leaf>,
}

impl Sides {
    /// The left leaves outside the bracket after complements have changed sides.
    pub fn moved_left(&self) -> Vec<Leaf> {
        let stay = self.left.iter().filter(|leaf| !leaf.complemented);
        stay.chain(self.right.iter().filter(|leaf| leaf.complemented)).copied().collect()
    }

    /// The right leaves after complements have changed sides.
    pub fn moved_right(&self) -> Vec<Leaf> {
        let stay = self.right.iter().filter(|leaf| !leaf.complemented);
        self.left.iter().filter(|leaf| leaf.complemented).chain(stay).copied().collect()
    }

    /// The leaves inside the bracket.
    pub fn inside(&self) -> &[Leaf] {
        self.bracket.as_ref().map_or(&[], |bracket| &bracket.inside)
    }
}

#[derive(Clone, Copy, Debug, PartialEq, Eq)]
pub enum Side {
    Left,
    Right,
}

/// Why a statement's shape is not permitted.
#[derive(Clone, Debug, PartialEq, Eq)]
pub enum ShapeFault {
    /// More than eight leaves on a side: so many outside a bracket and so many inside.
    TooManyLeaves { side: Side, outside: usize, inside: usize },
    /// A leaf that is neither of kinds 0 to 5 nor the complement of one.
    NoLiteral { side: Side, leaf: u16 },
    /// B2 without a progression, or B3 without a regression, among the left leaves.
    NoBracket,
    /// Two left leaves that are progressions (B2) or regressions (B3).
    TwoBrackets { first: u16, second: u16 },
    /// A leaf inside the bracket that is not of kinds 0 to 5.
    Inside { bracket: u16, leaf: u16 },
    /// Two leaves of different kinds among 3, 4 and 5.
    KindsMeet { first: Leaf, second: Leaf },
    /// Over clauses: these leaves on the moved right, kind 0 not counted.
    TooManyRight { leaves: Vec<Leaf> },
    /// Over listed states: none of these leaves, where one must, is of kind 0, 1 or 3.
    NoListed { leaves: Vec<Leaf> },
    /// B4: the two literals do not go together.
    Pair(PairFault),
}

/// Why two literals are no statement of B4.
#[derive(Clone, Copy, Debug, PartialEq, Eq)]
pub enum PairFault {
    /// One that is not of kinds 3 to 5.
    Kind { side: Side, leaf: Leaf },
    /// Two of one kind.
    Alike { left: Leaf, right: Leaf },
    /// The list of states stands on the moved right.
    List { list: Leaf },
    /// A set of clauses within the complement of another.
    Disjoint { left: Leaf, right: Leaf },
}

/// The leaves of a step of B1 to B4, or why its shape is not permitted.
pub fn sides(file: &File, step: &Step) -> Result<Sides, ShapeFault> {
    let [left, right] = step.entries;
    if step.rule == 4 {
        let (left, right) = (literal(file, Side::Left, left)?, literal(file, Side::Right, right)?);
        pair(file, left, right).map_err(ShapeFault::Pair)?;
        return Ok(Sides { left: vec![left], bracket: None, right: vec![right] });
    }
    count_leaves(file, step)?;
    let (left, bracket) = left_side(file, step)?;
    let right = leaves(file, right, Tree::Union).into_iter().map(|leaf| literal(file, Side::Right, leaf));
    let sides = Sides { left, bracket, right: right.collect::<Result<_, _>>()? };
    kinds(file, step.rule, &sides)?;
    Ok(sides)
}

#[derive(Clone, Copy, PartialEq, Eq)]
enum Tree {
    Intersection,
    Union,
}

/// The parts of an entry that is an inner node of such a tree.
fn parts(file: &File, entry: u16, tree: Tree) -> Option<(u16, u16)> {
    match (tree, file.state_sets[entry as usize]) {
        (Tree::Intersection, StateSet::Intersection(a, b)) => Some((a, b)),
        (Tree::Union, StateSet::Union(a, b)) => Some((a, b)),
        _ => None,
    }
}

/// The leaves of a tree from left to right; its count has passed.
fn leaves(file: &File, root: u16, tree: Tree) -> Vec<u16> {
    match parts(file, root, tree) {
        Some((a, b)) => [leaves(file, a, tree), leaves(file, b, tree)].concat(),
        None => vec![root],
    }
}

/// The set and the actions of an entry that is the rule's bracket.
fn bracket(file: &File, rule: u8, entry: u16) -> Option<(u16, u16)> {
    match (rule, file.state_sets[entry as usize]) {
        (2, StateSet::Progression(s, a)) | (3, StateSet::Regression(s, a)) => Some((s, a)),
        _ => None,
    }
}

/// For each entry of the file, how many leaves a tree with this root has: the value of a leaf is
/// given, over the counts of the entries before it.
fn leaf_counts(file: &File, tree: Tree, leaf: impl Fn(u16) -> usize) -> Vec<usize> {
    let mut counts: Vec<usize> = Vec::new();
    for entry in 0..file.state_sets.len() as u16 {
        let count = match parts(file, entry, tree) {
            Some((a, b)) => (counts[a as usize] + counts[b as usize]).min(MANY),
            None => leaf(entry),
        };
        counts.push(count);
    }
    counts
}

/// At most eight leaves on each side; those inside a bracket count, the bracket itself does not.
fn count_leaves(file: &File, step: &Step) -> Result<(), ShapeFault> {
    let [left, right] = step.entries.map(|entry| entry as usize);
    let rule = step.rule;
    let plain = leaf_counts(file, Tree::Intersection, |_| 1);
    let outside = leaf_counts(file, Tree::Intersection, |e| bracket(file, rule, e).is_none() as usize)[left];
    let within = |e: u16| bracket(file, rule, e).map_or(0, |(s, _)| plain[s as usize]);
    let inside = leaf_counts(file, Tree::Intersection, within)[left];
    if outside + inside > MAX_LEAVES {
        return Err(ShapeFault::TooManyLeaves { side: Side::Left, outside, inside });
    }
    let outside = leaf_counts(file, Tree::Union, |_| 1)[right];
    if outside > MAX_LEAVES {
        return Err(ShapeFault::TooManyLeaves { side: Side::Right, outside, inside: 0 });
    }
    Ok(())
}

fn is_base(file: &File, entry: u16) -> bool {
    use StateSet::*;
    matches!(file.state_sets[entry as usize], Empty | Init | Goal | Explicit(_) | Horn(_) | TwoCnf(_))
}

fn literal(file: &File, side: Side, entry: u16) -> Result<Leaf, ShapeFault> {
    if is_base(file, entry) {
        return Ok(Leaf { entry, base: entry, complemented: false });
    }
    match file.state_sets[entry as usize] {
        StateSet::Complement(base) if is_base(file, base) => Ok(Leaf { entry, base, complemented: true }),
        _ => Err(ShapeFault::NoLiteral { side, leaf: entry }),
    }
}

/// The left leaves of B1 to B3: literals, and for B2 and B3 exactly one bracket.
fn left_side(file: &File, step: &Step) -> Result<(Vec<Leaf>, Option<Bracket>), ShapeFault> {
    let mut literals = Vec::new();
    let mut found: Option<Bracket> = None;
    for entry in leaves(file, step.entries[0], Tree::Intersection) {
        let Some((set, actions)) = bracket(file, step.rule, entry) else {
            literals.push(literal(file, Side::Left, entry)?);
            continue;
        };
        if let Some(first) = found {
            return Err(ShapeFault::TwoBrackets { first: first.entry, second: entry });
        }
        let mut inside = Vec::new();
        for leaf in leaves(file, set, Tree::Intersection) {
            if !is_base(file, leaf) {
                return Err(ShapeFault::Inside { bracket: entry, leaf });
            }
            inside.push(Leaf { entry: leaf, base: leaf, complemented: false });
        }
        found = Some(Bracket { entry, inside, actions });
    }
    if step.rule != 1 && found.is_none() {
        return Err(ShapeFault::NoBracket);
    }
    Ok((literals, found))
}

/// The kind number of a leaf that is a list of states, Horn or two-literal.
fn special(file: &File, leaf: &Leaf) -> Option<u8> {
    use StateSet::*;
    match file.state_sets[leaf.base as usize] {
        Explicit(_) => Some(3),
        Horn(_) => Some(4),
        TwoCnf(_) => Some(5),
        Empty | Init | Goal => None,
        Complement(_) | Intersection(..) | Union(..) | Progression(..) | Regression(..) => None,
    }
}

/// Whether a leaf gives its states one by one: kinds 0 and 3, and kind 1 with at most 12 unknown facts.
pub fn is_listed(file: &File, leaf: &Leaf) -> bool {
    crate::shape::is_listed(&file.task, &file.state_sets[leaf.base as usize])
}

/// Which kinds may meet in B1 to B3, and where.
fn kinds(file: &File, rule: u8, sides: &Sides) -> Result<(), ShapeFault> {
    let all = [&sides.left[..], sides.inside(), &sides.right[..]].concat();
    let mut found: Option<(u8, Leaf)> = None;
    for leaf in all {
        let Some(kind) = special(file, &leaf) else { continue };
        match found {
            Some((other, first)) if other != kind => {
                return Err(ShapeFault::KindsMeet { first, second: leaf });
            }
            _ => found = Some((kind, leaf)),
        }
    }
    if found.is_some_and(|(kind, _)| kind == 3) {
        let leaves = if rule == 2 { sides.inside().to_vec() } else { sides.moved_left() };
        let listed = leaves.iter().any(|leaf| is_listed(file, leaf));
        return if listed { Ok(()) } else { Err(ShapeFault::NoListed { leaves }) };
    }
    let mut leaves = sides.moved_right();
    leaves.retain(|leaf| file.state_sets[leaf.base as usize] != StateSet::Empty);
    if leaves.len() > MAX_RIGHT {
        return Err(ShapeFault::TooManyRight { leaves });
    }
    Ok(())
}

/// B4: two literals of different kinds among 3, 4 and 5, in a permitted form.
fn pair(file: &File, left: Leaf, right: Leaf) -> Result<(), PairFault> {
    let Some(first) = special(file, &left) else {
        return Err(PairFault::Kind { side: Side::Left, leaf: left });
    };
    let Some(second) = special(file, &right) else {
        return Err(PairFault::Kind { side: Side::Right, leaf: right });
    };
    if first == second {
        return Err(PairFault::Alike { left, right });
    }
    if first == 3 && left.complemented {
        return Err(PairFault::List { list: left });
    }
    if second == 3 && !right.complemented {
        return Err(PairFault::List { list: right });
    }
    if first != 3 && second != 3 && !left.complemented && right.complemented {
        return Err(PairFault::Disjoint { left, right });
    }
    Ok(())
}
