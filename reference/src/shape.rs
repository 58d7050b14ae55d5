//! The shape of basic statements B1 to B4: trees of literals, a progression or
//! regression in brackets, complements moved to the other side, and which kinds may
//! stand where (else reply 10).

use crate::fault::StepCause;
use crate::file::{File, Marks, StateSet, Step};
use crate::task::Task;

/// Each side has at most this many leaves, as written.
const MAX_LEAVES: usize = 8;

/// With more unknown facts the initial states are too many to go through.
pub const MAX_UNKNOWN: u32 = 12;

type Shaped<T> = Result<T, StepCause>;

fn refuse<T>(why: &'static str) -> Shaped<T> {
    Err(StepCause::Shape(why))
}

/// A few entries of kinds 0 to 5; both sides together hold at most sixteen.
#[derive(Clone, Copy)]
pub struct Leaves {
    items: [StateSet; 2 * MAX_LEAVES],
    len: usize,
}

impl Leaves {
    fn new() -> Leaves {
        Leaves { items: [StateSet::Empty; 2 * MAX_LEAVES], len: 0 }
    }

    fn push(&mut self, leaf: StateSet) {
        self.items[self.len] = leaf;
        self.len += 1;
    }

    pub fn all(&self) -> &[StateSet] {
        &self.items[..self.len]
    }
}

/// Which way the bracket of a statement leads.
#[derive(Clone, Copy, Debug, PartialEq, Eq)]
pub enum Bracket {
    None,
    Progression(Marks),
    Regression(Marks),
}

/// How the truth of a statement is decided.
#[derive(Clone, Copy, Debug, PartialEq, Eq)]
pub enum Method {
    Explicit,
    Horn,
    TwoCnf,
}

/// A basic statement with its complements moved: the states of all left leaves, with
/// the bracket, are within the union of the right leaves.
pub struct Statement {
    pub left: Leaves,
    pub right: Leaves,
    pub inside: Leaves,
    pub bracket: Bracket,
    pub method: Method,
}

/// Which compound kind makes a tree.
#[derive(Clone, Copy)]
enum Tree {
    Intersection,
    Union,
}

/// The shape of a step with rule B1 to B4, where it is permitted.
pub fn of(file: &File, step: &Step) -> Shaped<Statement> {
    let [left, right] = step.entries;
    if step.rule == 4 {
        return pair(file, left, right);
    }
    let mut st = Statement {
        left: Leaves::new(),
        right: Leaves::new(),
        inside: Leaves::new(),
        bracket: Bracket::None,
        method: Method::Horn,
    };
    left_side(file, step.rule, left, &mut st)?;
    let (leaves, count) = leaves(file, right, Tree::Union)?;
    for &leaf in &leaves[..count] {
        match literal(file, leaf)? {
            (set, false) => st.right.push(set),
            (set, true) => st.left.push(set),
        }
    }
    st.method = method(&st)?;
    permitted(&file.task, &st)?;
    Ok(st)
}

/// The entry numbers of a tree's leaves, from left to right; gives up at the ninth.
fn leaves(file: &File, root: u16, tree: Tree) -> Shaped<([u16; MAX_LEAVES], usize)> {
    // The first `done` are leaves; from there to `len` stand entries still to open,
    // in order. Each will give at least one leaf.
    let mut list = [root; MAX_LEAVES];
    let (mut done, mut len) = (0, 1);
    while done < len {
        let (a, b) = match (tree, file.state_sets[list[done] as usize]) {
            (Tree::Intersection, StateSet::Intersection(a, b)) => (a, b),
            (Tree::Union, StateSet::Union(a, b)) => (a, b),
            _ => {
                done += 1;
                continue;
            }
        };
        if len == MAX_LEAVES {
            return refuse("a side has more than 8 leaves");
        }
        list.copy_within(done + 1..len, done + 2);
        list[done] = a;
        list[done + 1] = b;
        len += 1;
    }
    Ok((list, len))
}

fn is_base(set: StateSet) -> bool {
    use StateSet::*;
    matches!(set, Empty | Init | Goal | Explicit(_) | Horn(_) | TwoCnf(_))
}

/// A literal's entry of kind 0 to 5, and whether it is complemented.
fn literal(file: &File, entry: u16) -> Shaped<(StateSet, bool)> {
    let set = file.state_sets[entry as usize];
    if is_base(set) {
        return Ok((set, false));
    }
    if let StateSet::Complement(inner) = set {
        let inner = file.state_sets[inner as usize];
        if is_base(inner) {
            return Ok((inner, true));
        }
    }
    refuse("a leaf is no literal")
}

/// The left side of B1 to B3: literals, and for B2 and B3 exactly one bracket.
fn left_side(file: &File, rule: u8, root: u16, st: &mut Statement) -> Shaped<()> {
    let (leaves, count) = leaves(file, root, Tree::Intersection)?;
    for &leaf in &leaves[..count] {
        let (inner, actions, forward) = match (rule, file.state_sets[leaf as usize]) {
            (2, StateSet::Progression(s, a)) => (s, a, true),
            (3, StateSet::Regression(s, a)) => (s, a, false),
            _ => {
                match literal(file, leaf)? {
                    (set, false) => st.left.push(set),
                    (set, true) => st.right.push(set),
                }
                continue;
            }
        };
        if st.bracket != Bracket::None {
            return refuse("more than one bracket on the left");
        }
        let marks = file.action_sets[actions as usize].marks;
        st.bracket = if forward { Bracket::Progression(marks) } else { Bracket::Regression(marks) };
        inside(file, inner, &mut st.inside)?;
    }
    if rule != 1 && st.bracket == Bracket::None {
        return refuse("no bracket on the left");
    }
    let outside = count - (rule != 1) as usize;
    if outside + st.inside.len > MAX_LEAVES {
        return refuse("a side has more than 8 leaves");
    }
    Ok(())
}

/// Inside the bracket stands an intersection tree of kinds 0 to 5, no complements.
fn inside(file: &File, root: u16, to: &mut Leaves) -> Shaped<()> {
    let (leaves, count) = leaves(file, root, Tree::Intersection)?;
    for &leaf in &leaves[..count] {
        let set = file.state_sets[leaf as usize];
        if !is_base(set) {
            return refuse("inside the bracket stands a leaf not of kinds 0 to 5");
        }
        to.push(set);
    }
    Ok(())
}

/// Explicit, Horn and two-literal sets do not meet; with none of them it is Horn.
fn method(st: &Statement) -> Shaped<Method> {
    let mut found = None;
    for leaves in [&st.left, &st.right, &st.inside] {
        for set in leaves.all() {
            let method = match set {
                StateSet::Explicit(_) => Method::Explicit,
                StateSet::Horn(_) => Method::Horn,
                StateSet::TwoCnf(_) => Method::TwoCnf,
                _ => continue,
            };
            if found.is_some_and(|other| other != method) {
                return refuse("kinds 3, 4 and 5 meet");
            }
            found = Some(method);
        }
    }
    Ok(found.unwrap_or(Method::Horn))
}

/// Whether the set gives its states one by one: kinds 0 and 3, and kind 1 with few unknown facts.
pub fn is_listed(task: &Task, set: &StateSet) -> bool {
    match set {
        StateSet::Empty | StateSet::Explicit(_) => true,
        StateSet::Init => task.unknown.count_ones() <= MAX_UNKNOWN,
        _ => false,
    }
}

/// Clauses: at most two right leaves besides kind 0. Explicit: a listed leaf on the
/// left, for B2 inside the bracket.
fn permitted(task: &Task, st: &Statement) -> Shaped<()> {
    if st.method != Method::Explicit {
        let right = st.right.all().iter().filter(|set| **set != StateSet::Empty).count();
        return if right <= 2 { Ok(()) } else { refuse("more than two leaves on the moved right") };
    }
    let listing = match st.bracket {
        Bracket::Progression(_) => &st.inside,
        _ => &st.left,
    };
    if listing.all().iter().any(|set| is_listed(task, set)) {
        return Ok(());
    }
    refuse(match listing.all().contains(&StateSet::Init) {
        true => "more than 12 facts are unknown, and no leaf of kind 0 or 3 stands where one must",
        false => "no leaf of kind 0, 1 or 3 where it must stand",
    })
}

/// B4: two literals of different kinds among 3, 4 and 5.
fn pair(file: &File, left: u16, right: u16) -> Shaped<Statement> {
    let mut st = Statement {
        left: Leaves::new(),
        right: Leaves::new(),
        inside: Leaves::new(),
        bracket: Bracket::None,
        method: Method::Horn,
    };
    let ((x, x_turned), (y, y_turned)) = (literal(file, left)?, literal(file, right)?);
    let (Some(first), Some(second)) = (kind_method(x), kind_method(y)) else {
        return refuse("a leaf not of kinds 3, 4 and 5");
    };
    if first == second {
        return refuse("two leaves of one kind");
    }
    if x_turned {
        st.right.push(x)
    } else {
        st.left.push(x)
    }
    if y_turned {
        st.left.push(y)
    } else {
        st.right.push(y)
    }
    st.method = if first == Method::Explicit || second == Method::Explicit {
        let listed = if first == Method::Explicit { !x_turned } else { y_turned };
        if !listed {
            return refuse("the explicit set is not on the moved left");
        }
        Method::Explicit
    } else {
        if !x_turned && y_turned {
            return refuse("a set of clauses within the complement of another");
        }
        // The left side, one set or none, says how to propagate.
        if y_turned {
            second
        } else {
            first
        }
    };
    Ok(st)
}

fn kind_method(set: StateSet) -> Option<Method> {
    match set {
        StateSet::Explicit(_) => Some(Method::Explicit),
        StateSet::Horn(_) => Some(Method::Horn),
        StateSet::TwoCnf(_) => Some(Method::TwoCnf),
        _ => None,
    }
}
